//! Searches for bytes, for what the crate of this name does in the proved code.

use super::simd::prelude::u8x16;

/// How many bytes are compared at once.
const LANES: usize = 16;
const HALF: usize = LANES / 2;

/// Returns where the first byte is that is found: among sixteen bytes by their bits, and byte by byte in fewer than eight.
#[inline(always)]
pub fn find(
    bytes: &[u8],
    among: impl Fn(u8x16) -> u64,
    is_found: impl Fn(u8) -> bool,
) -> Option<usize> {
    let mut at = 0;
    for piece in bytes.chunks_exact(LANES) {
        let found = among(u8x16::from_slice(piece));
        if found != 0 {
            return Some(at + found.trailing_zeros() as usize);
        }
        at += LANES;
    }
    if at == bytes.len() {
        return None;
    }
    // The last sixteen bytes, of which those before the rest are not found again, or the first eight and the last eight.
    let (lanes, in_place) = match bytes.last_chunk::<LANES>() {
        Some(last) => (u8x16::from_slice(last), 0),
        None => match (bytes.first_chunk(), bytes.last_chunk()) {
            (Some(first), Some(last)) => (join(first, last), HALF),
            _ => return bytes.iter().copied().position(is_found),
        },
    };
    let found = among(lanes);
    let lane = (found != 0).then(|| found.trailing_zeros() as usize)?;
    Some(if lane < in_place {
        lane
    } else {
        lane + bytes.len() - LANES
    })
}

/// Returns eight bytes and eight others behind them.
#[inline(always)]
fn join(first: &[u8; HALF], last: &[u8; HALF]) -> u8x16 {
    let mut bytes = [0; LANES];
    bytes[..HALF].copy_from_slice(first);
    bytes[HALF..].copy_from_slice(last);
    u8x16::from_slice(&bytes)
}

/// Returns where a byte is first.
#[inline]
pub fn memchr(byte: u8, bytes: &[u8]) -> Option<usize> {
    let wanted = u8x16::splat(byte);
    find(
        bytes,
        |lanes| lanes.simd_eq(wanted).to_bitmask(),
        |other| other == byte,
    )
}

/// Returns where one of two bytes is first.
#[inline]
pub fn memchr2(one: u8, other: u8, bytes: &[u8]) -> Option<usize> {
    let wanted = [u8x16::splat(one), u8x16::splat(other)];
    find(
        bytes,
        |lanes| (lanes.simd_eq(wanted[0]) | lanes.simd_eq(wanted[1])).to_bitmask(),
        |byte| byte == one || byte == other,
    )
}

/// Returns where a byte is last.
#[inline]
pub fn memrchr(byte: u8, bytes: &[u8]) -> Option<usize> {
    bytes.iter().rposition(|other| *other == byte)
}

/// Searches for parts.
pub mod memmem {
    /// Returns where a part is first. It is not empty.
    pub fn find(bytes: &[u8], part: &[u8]) -> Option<usize> {
        bytes.windows(part.len()).position(|window| window == part)
    }
}
