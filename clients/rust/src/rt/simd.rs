//! Sixteen bytes that are compared at once: by a vector where the target has them, and else by two words.

use core::ops::BitOr;

pub mod prelude {
    pub use super::u8x16;
}

/// Sixteen bytes.
#[allow(non_camel_case_types)]
#[derive(Clone, Copy)]
pub struct u8x16(lanes::Lanes);

/// Of which of sixteen bytes something holds: bit `i` for byte `i`.
#[derive(Clone, Copy)]
pub struct Mask(u16);

impl Mask {
    /// Returns the sixteen bits, as the lowest of a number.
    #[inline(always)]
    pub fn to_bitmask(self) -> u64 {
        u64::from(self.0)
    }
}

impl BitOr for Mask {
    type Output = Self;

    #[inline(always)]
    fn bitor(self, other: Self) -> Self {
        Mask(self.0 | other.0)
    }
}

impl u8x16 {
    /// Returns the first sixteen bytes of these. Panics if there are fewer.
    #[inline(always)]
    pub fn from_slice(bytes: &[u8]) -> Self {
        u8x16(lanes::of(bytes.first_chunk().expect("sixteen bytes")))
    }

    /// Returns a byte sixteen times.
    #[inline(always)]
    pub fn splat(byte: u8) -> Self {
        u8x16(lanes::repeated(byte))
    }

    /// Compares byte by byte.
    #[inline(always)]
    pub fn simd_eq(self, other: Self) -> Mask {
        Mask(lanes::equal(self.0, other.0))
    }

    /// Tells which bytes are less than those of the other: for them the larger one is not their own.
    #[inline(always)]
    pub fn simd_lt(self, other: Self) -> Mask {
        Mask(!lanes::equal(self.0, lanes::larger(self.0, other.0)))
    }
}

#[cfg(all(
    any(
        target_feature = "sse2",
        all(target_arch = "aarch64", target_feature = "neon")
    ),
    not(any(miri, string_interner_words))
))]
use crate::unchecked::lanes;

#[cfg(any(
    miri,
    string_interner_words,
    not(any(
        target_feature = "sse2",
        all(target_arch = "aarch64", target_feature = "neon")
    ))
))]
mod lanes {
    pub type Lanes = [u8; 16];

    #[inline(always)]
    pub fn of(bytes: &[u8; 16]) -> Lanes {
        *bytes
    }

    #[inline(always)]
    pub fn repeated(byte: u8) -> Lanes {
        [byte; 16]
    }

    #[inline(always)]
    pub fn equal(one: Lanes, other: Lanes) -> u16 {
        super::equal_by_words(&one, &other)
    }

    #[inline(always)]
    pub fn larger(one: Lanes, other: Lanes) -> Lanes {
        core::array::from_fn(|at| one[at].max(other[at]))
    }
}

/// The same by two words.
#[inline(always)]
pub fn equal_by_words(one: &[u8; 16], other: &[u8; 16]) -> u16 {
    let words = |bytes: &[u8; 16]| {
        let both = u128::from_le_bytes(*bytes);
        [both as u64, (both >> 64) as u64]
    };
    let ([low, high], [other_low, other_high]) = (words(one), words(other));
    zero_bytes(low ^ other_low) | zero_bytes(high ^ other_high) << 8
}

/// Returns which bytes of a word are 0: bit `i` for the byte that is the `i`th from the lowest.
#[inline(always)]
fn zero_bytes(word: u64) -> u16 {
    const LOW: u64 = 0x7f7f_7f7f_7f7f_7f7f;
    // The top bit of a byte is set here exactly if the byte is 0.
    let zeros = !(((word & LOW) + LOW) | word | LOW);
    // The product brings bit `8 * i` to bit `56 + i`, and no two of its terms meet.
    ((zeros >> 7).wrapping_mul(0x0102_0408_1020_4080) >> 56) as u16
}
