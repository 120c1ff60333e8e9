//! What stands for bytes in a string of JSON.

//~ ghost use Rattle.std.specs.Prelude.{◌≡◌, ◌+◌, ◌<◌, ◌≤◌, length};
//~ ghost use Rattle.std.specs.Bool.{OnTrue};
//~ ghost use Rattle.std.specs.Char.{digit_char};
//~ ghost use Rattle.json.specs.Print.{escape, escape_letter};
//~ ghost use Rattle.json.specs.Written.{PlainBetween};

use crate::rt::prelude::*; use crate::rt::simd::prelude::*;

/// How many bytes are compared at once.
const LANES: usize = 16;

/// Does what `is_plain` does for as many bytes as are compared at once.
#[inline(always)]
fn are_plain(bytes: &[u8], at: usize) -> bool
    //~ requires { at + 16 ≤ length bytes.now }
    //~ ensures { OnTrue result (PlainBetween bytes.now at (at + 16)) }
{
    let lanes = u8x16::from_slice(&bytes[at..]);
    (lanes.simd_eq(u8x16::splat(b'"'))
        | lanes.simd_eq(u8x16::splat(b'\\'))
        | lanes.simd_lt(u8x16::splat(b' '))).to_bitmask()
        == 0
}

/// Does what `is_plain` does for a few bytes.
#[inline(always)]
fn is_plain_alone(bytes: &[u8]) -> bool
    //~ ensures { OnTrue result (PlainBetween bytes.now 0 (length bytes.now)) }
{
    for byte in bytes {
        if *byte < b' ' || *byte == b'"' || *byte == b'\\' {
            return false;
        }
    }
    true
}

/// Does what `is_plain` does for many bytes. The last ones are compared with some before them.
#[inline(always)]
fn is_plain_by_lanes(bytes: &[u8]) -> bool
    //~ requires { 16 ≤ length bytes.now }
    //~ ensures { OnTrue result (PlainBetween bytes.now 0 (length bytes.now)) }
{
    let mut at = 0;
    while bytes.len() - at > LANES {
        if !are_plain(bytes, at) {
            return false;
        }
        at += LANES;
    }
    are_plain(bytes, bytes.len() - LANES)
}

/// Returns whether a string of JSON has bytes as they are.
#[inline(always)]
pub fn is_plain(bytes: &[u8]) -> bool
    //~ ensures { OnTrue result (escape bytes.now ≡ bytes.now) }
{
    if bytes.len() < LANES {
        is_plain_alone(bytes)
    } else {
        is_plain_by_lanes(bytes)
    }
}

/// Returns the letter that stands behind a backslash for a byte, or 0 if none does.
pub fn letter_of(byte: u8) -> u8
    //~ ensures { result ≡ escape_letter byte }
{
    match byte {
        b'"' | b'\\' => byte,
        8 => b'b',
        b'\t' => b't',
        b'\n' => b'n',
        12 => b'f',
        b'\r' => b'r',
        _ => 0,
    }
}

/// Returns the hexadecimal digit of a number.
pub fn digit_of(number: u8) -> u8
    //~ requires { number < 16 }
    //~ ensures { result ≡ digit_char number }
{
    if number < 10 {
        b'0' + number
    } else {
        b'a' + (number - 10)
    }
}
