//! Tags: a byte of each code, sixteen of them compared at once.

//~ ghost use Rattle.std.specs.Prelude.{◌≡◌, ◌≢◌, ℕ, ◌+◌, ◌<◌, ◌≤◌, length, slice_index_or};
//~ ghost use Rattle.std.specs.Int.{bit_at};
//~ ghost use Rattle.string_interner.specs.Tagged.{stored_code, tag_of};

use crate::rt::prelude::*; use crate::rt::simd::prelude::*;

/// How many tags are compared at once.
pub const LANES: usize = 16;

/// Returns the stored code of a code: its low 32 bits.
#[inline(always)]
pub fn stored_code(code: u64) -> u32
    //~ ensures { result ≡ stored_code code }
{
    (code % 0x1_0000_0000) as u32
}

/// Returns the tag of a stored code: 128 and its top seven bits, and so never 0, which is the tag of an empty slot.
#[inline(always)]
pub fn tag_of(stored: u32) -> u8
    //~ ensures { result ≡ tag_of stored }
{
    128 + (stored / 0x200_0000) as u8
}

/// Compares the sixteen bytes from `at` on with this one. Where bit `k` of the result is 0, byte `k` is another.
#[inline(always)]
fn lanes_with(tags: &[u8], at: usize, byte: u8) -> u64
    //~ requires { at + 16 ≤ length tags.now }
    //~ ensures { (k : ℕ) → k < 16 → bit_at result k ≡ 0 → slice_index_or tags.now (at + k) 0 ≢ byte }
{
    u8x16::from_slice(unsafe { tags.sixteen_unchecked(at) })
        .simd_eq(u8x16::splat(byte))
        .to_bitmask()
}

/// Returns how many of the sixteen tags from `at` on come before the first that is `tag` or 0: all, if none is.
#[inline(always)]
pub fn lanes_passed(tags: &[u8], at: usize, tag: u8) -> usize
    //~ requires { at + 16 ≤ length tags.now }
    //~ ensures at_most { result ≤ 16 }
    //~ ensures other { (k : ℕ) → k < result → slice_index_or tags.now (at + k) 0 ≢ tag }
    //~ ensures filled { (k : ℕ) → k < result → slice_index_or tags.now (at + k) 0 ≢ 0 }
{
    let stops = lanes_with(tags, at, tag) | lanes_with(tags, at, 0);
    // The bit behind the sixteen is the lowest where none of these is set.
    (stops | 0x1_0000).trailing_zeros() as usize
}
