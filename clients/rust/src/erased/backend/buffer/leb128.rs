//! Unsigned LEB128: numbers in base 128, one digit per byte.
//!
//! The lowest digit comes first, and bit 7 is set on every byte but the last. A number is written in the fewest digits,
//! and at least one; what is read may have more, up to ten.

//~ ghost use Rattle.std.specs.Prelude.{◌≡◌, ◌+◌, ◌≤◌, ◌++◌, vec_len, vec_capacity};
//~ ghost use Rattle.string_interner.specs.Spelling.{spell, digits, DecodesFront};

use crate::rt::prelude::*; /// The index of the last digit that a `usize` may have. Its unit is 2^63, so that digit is at most 1.
const LAST: usize = 9;

/// A decoded number, and how many bytes it took.
#[derive(Clone, Copy)]
pub(super) struct Spelled {
    pub number: usize,
    pub len: usize,
}

/// Returns how many digits a number has: 1 below 128, and at most 10.
#[inline]
pub(super) fn digit_count(mut number: usize) -> usize
    //~ ensures { result ≡ digits number }
{
    let mut count = 1;
    while number >= 128 {
        number /= 128;
        count += 1;
    }
    count
}

/// Appends a number, within the capacity that was reserved.
#[inline]
pub(super) fn push_number(buffer: &mut Vec<u8>, mut number: usize)
    //~ requires { vec_len buffer.old + digits number ≤ vec_capacity buffer.old }
    //~ ensures items { buffer.new.items ≡ buffer.old.items ++ spell number }
    //~ ensures len { vec_len buffer.new ≡ vec_len buffer.old + digits number }
    //~ ensures capacity { vec_capacity buffer.new ≡ vec_capacity buffer.old }
{
    while number >= 128 {
        buffer.push_reserved((128 + number % 128) as u8);
        number /= 128;
    }
    buffer.push_reserved(number as u8);
}

/// Decodes the number at the front: `None` unless there is one, of at most ten digits, that fits a `usize`.
#[inline(always)]
pub(super) fn number_at(bytes: &[u8]) -> Option<Spelled>
    //~ ensures { DecodesFront bytes.now result }
{
    let first = *bytes.first()?;
    if first < 128 {
        // Most texts are shorter than 128 bytes.
        return Some(Spelled {
            number: usize::from(first),
            len: 1,
        });
    }
    long_number_at(bytes)
}

/// The same, digit by digit.
#[inline(never)]
fn long_number_at(bytes: &[u8]) -> Option<Spelled>
    //~ ensures { DecodesFront bytes.now result }
{
    let mut number: u64 = 0;
    let mut unit: u64 = 1;
    for (i, byte) in bytes.iter().enumerate() {
        // A greater last digit does not fit, and a marked one has another behind it.
        if i == LAST && *byte > 1 {
            return None;
        }
        number += u64::from(*byte % 128) * unit;
        if *byte < 128 {
            // This is so only on targets with 32 bits, where no text has so many bytes.
            if number > usize::MAX as u64 {
                return None;
            }
            let number = number as usize;
            return Some(Spelled { number, len: i + 1 });
        }
        unit *= 128;
    }
    None
}
