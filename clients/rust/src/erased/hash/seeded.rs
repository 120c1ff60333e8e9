//! The seeded hasher: a product for each block of 16 bytes and one more, under two secret keys.

//~ ghost use Rattle.std.specs.Prelude.{◌≡◌, ◌<◌, ◌≤◌, length};
//~ ghost use Rattle.string_interner.specs.SeededHash as seeded;

use crate::rt::prelude::*; use crate::rt::fmt;
use crate::rt::fmt::{Debug, Formatter};
use crate::rt::hash::{BuildHasher, Hasher};

/// Builds hashers of [`SeededHasher`](super::SeededHasher) under two keys of 64 bits.
///
/// If the keys are random and secret, no way is known to choose many texts that share a code: both operands of each product
/// hold a secret. This was measured, and is not proved. So draw the keys once a process, or once an interner, from the
/// system. Keys of few bits, such as 1 and 2, make a poor hash: many texts share a slot, and each call takes longer.
///
/// Some pairs of texts share a code more often than by chance:
///
/// - Two texts that differ in one word of eight bytes alone, and there in every bit, do so under about one pair of keys in 2^27.
/// - If two texts of one length, a multiple of 16, share a code, they still do with the same 64 bytes appended, or 128, and so
///   on, because lengths that are equal modulo 64 turn the key alike.
///
/// Someone who sees codes, or can time single calls, may find texts that share one. Against them take std's `RandomState`.
///
/// The same keys give the same codes in each run. `Debug` shows no key.
///
/// ```ignore
/// let seeded = SeededHasher::new(SeededState::new(key0, key1));
/// let names = StringInterner::<DefaultBackend, SeededHasher>::with_hasher(alloc, seeded);
/// ```
#[derive(Clone, Copy)]
pub struct SeededState {
    key0: u64,
    key1: u64,
}

impl SeededState {
    /// Makes a builder of hashers under these keys.
    pub fn new(key0: u64, key1: u64) -> Self
        //~ ensures { result ≡ record { key0 = key0; key1 = key1 } }
    {
        SeededState { key0, key1 }
    }
}

impl BuildHasher for SeededState {
    type Hasher = SeededHash;

    //~ ghost build_hasher = { seeded.with_keys };

    #[inline]
    fn build_hasher(&self) -> SeededHash {
        SeededHash {
            state: self.key0,
            key0: self.key0,
            key1: self.key1,
        }
    }
}

impl Debug for SeededState {
    fn fmt(&self, f: &mut Formatter<'_>) -> fmt::Result {
        f.debug_struct("SeededState").finish_non_exhaustive()
    }
}

/// The hasher of the standard library that a [`SeededState`] builds.
#[derive(Clone, Copy)]
pub struct SeededHash {
    state: u64,
    key0: u64,
    key1: u64,
}

impl Hasher for SeededHash {
    //~ ghost write = { seeded.write };

    //~ ghost finish = { seeded.finish };

    #[inline]
    fn write(&mut self, bytes: &[u8]) {
        // The length turns a key, so that nothing is known of the states that texts start from whose lengths differ modulo 64.
        let start = self.state ^ self.key1.rotate_left((bytes.len() % 64) as u32);
        self.state = absorb_all(self.key1, start, bytes);
    }

    #[inline]
    fn finish(&self) -> u64 {
        // The last factor is odd, so that no key makes every code 0.
        join_product(self.state ^ self.key1, self.key0 | 1)
    }
}

/// So many words of 64 bits there are.
const WORDS: u128 = 1 << 64;

/// Returns the state after a block, of which it hides one word, and the key the other.
#[inline]
fn absorb(key: u64, state: u64, block: u128) -> u64
    //~ ensures { result ≡ seeded.absorb key state block }
{
    join_product((block % WORDS) as u64 ^ state, (block / WORDS) as u64 ^ key)
}

/// Returns both words of the product, joined by xor.
#[inline]
fn join_product(a: u64, b: u64) -> u64
    //~ ensures { result ≡ seeded.join_product a b }
{
    let (low, high) = a.carrying_mul(b, 0);
    low ^ high
}

/// Returns the state after all blocks of a text. The last block is as long as the others, so it begins in the one before.
#[inline]
fn absorb_all(key: u64, start: u64, bytes: &[u8]) -> u64
    //~ ensures { result ≡ seeded.absorb_all key start bytes.now }
{
    let len = bytes.len();
    if len <= 8 {
        absorb(key, start, short_block(bytes))
    } else if len <= 16 {
        // Most names end here: no block is before their last one, so there is no need of the loop.
        absorb(key, start, last_block(bytes))
    } else {
        let (blocks, _) = bytes[..len - 1].as_chunks::<16>();
        let before = blocks.iter().fold(start, |state: u64, block| {
            absorb(key, state, u128::from_le_bytes(*block))
        });
        absorb(key, before, last_block(bytes))
    }
}

/// Returns the last 16 bytes of a text or, if it has fewer, its first and its last 8.
#[inline]
fn last_block(bytes: &[u8]) -> u128
    //~ requires { 8 < length bytes.now }
    //~ ensures { result ≡ seeded.last_block bytes.now }
{
    let tail = &bytes[bytes.len().saturating_sub(16)..];
    let first = u64::from_le_bytes(*tail.first_chunk::<8>().unwrap()) as u128;
    let last = u64::from_le_bytes(*bytes.last_chunk::<8>().unwrap()) as u128;
    first + (last << 64)
}

/// Returns the first and the last 4 bytes of a short text or, if it has fewer, its first, middle and last byte.
#[inline]
fn short_block(bytes: &[u8]) -> u128
    //~ requires { length bytes.now ≤ 8 }
    //~ ensures { result ≡ seeded.last_block bytes.now }
{
    let len = bytes.len();
    if len >= 4 {
        let first = u32::from_le_bytes(*bytes.first_chunk::<4>().unwrap()) as u128;
        let last = u32::from_le_bytes(*bytes.last_chunk::<4>().unwrap()) as u128;
        first + (last << 32)
    } else if len > 0 {
        u32::from_le_bytes([bytes[0], bytes[len / 2], bytes[len - 1], 0]) as u128
    } else {
        0
    }
}
