//! Compares texts where a call of the standard library's equality would take longer than the comparison.

//~ ghost use Rattle.std.specs.Prelude.{◌≡◌, ◌≤◌, length};
//~ ghost use Rattle.std.specs.Str.{bytes_eq};

use crate::rt::prelude::*; /// Returns whether two texts are equal. Up to 16 bytes are compared in place, by words that overlap.
#[inline(always)]
pub fn texts_are_equal(a: &str, b: &str) -> bool
    //~ ensures { result ≡ bytes_eq a.now b.now }
{
    let (a, b) = (a.as_bytes(), b.as_bytes());
    let len = a.len();
    if len != b.len() {
        false
    } else if len > 16 {
        a == b
    } else if len >= 8 {
        eights_are_equal(a, b)
    } else if len >= 4 {
        fours_are_equal(a, b)
    } else {
        len == 0 || (a[0] == b[0] && a[len / 2] == b[len / 2] && a[len - 1] == b[len - 1])
    }
}

/// Compares the first eight bytes, and the last eight.
#[inline(always)]
fn eights_are_equal(a: &[u8], b: &[u8]) -> bool
    //~ requires least { 8 ≤ length a.now }
    //~ requires most { length a.now ≤ 16 }
    //~ requires same { length a.now ≡ length b.now }
    //~ ensures { result ≡ bytes_eq a.now b.now }
{
    let first_a = u64::from_le_bytes(*a.first_chunk::<8>().unwrap());
    let first_b = u64::from_le_bytes(*b.first_chunk::<8>().unwrap());
    let last_a = u64::from_le_bytes(*a.last_chunk::<8>().unwrap());
    let last_b = u64::from_le_bytes(*b.last_chunk::<8>().unwrap());
    first_a == first_b && last_a == last_b
}

/// Compares the first four bytes, and the last four.
#[inline(always)]
fn fours_are_equal(a: &[u8], b: &[u8]) -> bool
    //~ requires least { 4 ≤ length a.now }
    //~ requires most { length a.now ≤ 8 }
    //~ requires same { length a.now ≡ length b.now }
    //~ ensures { result ≡ bytes_eq a.now b.now }
{
    let first_a = u32::from_le_bytes(*a.first_chunk::<4>().unwrap());
    let first_b = u32::from_le_bytes(*b.first_chunk::<4>().unwrap());
    let last_a = u32::from_le_bytes(*a.last_chunk::<4>().unwrap());
    let last_b = u32::from_le_bytes(*b.last_chunk::<4>().unwrap());
    first_a == first_b && last_a == last_b
}
