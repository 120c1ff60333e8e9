//! Tests of UTF-8, for what the crate of this name does in the proved code. Rust's own is slow for texts in which letters of one
//! byte and of two take turns, because the processor cannot foresee its branches. This one has none for such letters.

use crate::rt::simd::prelude::u8x16;
use core::str::Utf8Error;

/// How many bytes are compared at once.
const LANES: usize = 16;

// What must follow, as places in a row of the table: a letter, nothing that is right, and the further bytes of a letter.
const LETTER: u8 = 0;
const NOTHING: u8 = 6;
const ONE: u8 = 12;
const TWO: u8 = 18;
const THREE: u8 = 24;
/// Two or three, of which the first is in a part of its range.
const TWO_BEHIND_E0: u8 = 30;
const TWO_BEHIND_ED: u8 = 36;
const THREE_BEHIND_F0: u8 = 42;
const THREE_BEHIND_F4: u8 = 48;

/// For each byte a row of six bits for each place: what must follow the byte there.
static ROWS: [u64; 256] = {
    let mut rows = [0; 256];
    let mut byte = 0;
    while byte < rows.len() {
        let mut place = LETTER;
        while place <= THREE_BEHIND_F4 {
            rows[byte] |= (follows(place, byte as u8) as u64) << place;
            place += 6;
        }
        byte += 1;
    }
    rows
};

/// Returns what must follow a byte at this place, as the table of well-formed bytes of the Unicode standard says.
const fn follows(place: u8, byte: u8) -> u8 {
    match (place, byte) {
        (LETTER, 0..=0x7f) => LETTER,
        (LETTER, 0xc2..=0xdf) => ONE,
        (LETTER, 0xe0) => TWO_BEHIND_E0,
        (LETTER, 0xed) => TWO_BEHIND_ED,
        (LETTER, 0xe1..=0xef) => TWO,
        (LETTER, 0xf0) => THREE_BEHIND_F0,
        (LETTER, 0xf1..=0xf3) => THREE,
        (LETTER, 0xf4) => THREE_BEHIND_F4,
        (ONE, 0x80..=0xbf) => LETTER,
        (TWO, 0x80..=0xbf) | (TWO_BEHIND_E0, 0xa0..=0xbf) | (TWO_BEHIND_ED, 0x80..=0x9f) => ONE,
        (THREE, 0x80..=0xbf) | (THREE_BEHIND_F0, 0x90..=0xbf) | (THREE_BEHIND_F4, 0x80..=0x8f) => {
            TWO
        }
        _ => NOTHING,
    }
}

/// Returns what must follow these bytes at a place.
#[inline(always)]
fn pass(bytes: &[u8], place: u64) -> u64 {
    // The bits above the lowest six are those of other places, and do not count.
    bytes.iter().fold(place, |place, byte| {
        ROWS[usize::from(*byte)] >> (place & 63)
    })
}

/// Reports whether bytes are UTF-8.
fn is_utf8(bytes: &[u8]) -> bool {
    let mut place = 0;
    let mut pieces = bytes.chunks_exact(LANES);
    for piece in &mut pieces {
        let ascii = u8x16::from_slice(piece).simd_lt(u8x16::splat(0x80));
        if ascii.to_bitmask() != 0xffff || place & 63 != 0 {
            place = pass(piece, place);
        }
    }
    pass(pieces.remainder(), place) & 63 == u64::from(LETTER)
}

/// Returns bytes as a text, or where they are not UTF-8.
pub fn from_utf8(bytes: &[u8]) -> Result<&str, Utf8Error> {
    if is_utf8(bytes) {
        // SAFETY: just checked.
        return Ok(unsafe { core::str::from_utf8_unchecked(bytes) });
    }
    core::str::from_utf8(bytes)
}

/// The call that says where.
pub mod compat {
    pub use super::from_utf8;
}

/// The call that need not say where.
pub mod basic {
    pub use super::from_utf8;
}
