//! Hashers of Rattle's std, with its codes.

pub use core::hash::{BuildHasher, Hasher};
use core::marker::PhantomData;

/// Makes default hashers. That of Rust's own cannot be copied by its bits.
pub struct BuildHasherDefault<H>(PhantomData<fn() -> H>);

impl<H> Clone for BuildHasherDefault<H> {
    #[inline]
    fn clone(&self) -> Self {
        *self
    }
}

impl<H> Copy for BuildHasherDefault<H> {}

impl<H> Default for BuildHasherDefault<H> {
    #[inline]
    fn default() -> Self {
        BuildHasherDefault(PhantomData)
    }
}

impl<H: Default + Hasher> BuildHasher for BuildHasherDefault<H> {
    type Hasher = H;

    #[inline(always)]
    fn build_hasher(&self) -> H {
        H::default()
    }
}

/// A fast hash without keys: a product of 128 bits for each 16 bytes, whose halves are joined by xor.
#[derive(Clone, Copy)]
pub struct FoldHasher {
    state: u64,
}

const FACTOR: u64 = 0x9e37_79b9_7f4a_7c15;

impl Default for FoldHasher {
    #[inline]
    fn default() -> Self {
        FoldHasher {
            state: 0x243f_6a88_85a3_08d3,
        }
    }
}

#[inline(always)]
fn join_product(a: u64, b: u64) -> u64 {
    let product = u128::from(a) * u128::from(b);
    product as u64 ^ (product >> 64) as u64
}

#[inline(always)]
fn first_four(bytes: &[u8]) -> u64 {
    u64::from(u32::from_le_bytes(
        *bytes.first_chunk().expect("four bytes"),
    ))
}

#[inline(always)]
fn first_eight(bytes: &[u8]) -> u64 {
    u64::from_le_bytes(*bytes.first_chunk().expect("eight bytes"))
}

/// At most eight bytes as a word: the first and the last four, which overlap, or the first, the middle and the last one.
#[inline(always)]
fn short_word(bytes: &[u8]) -> u64 {
    let len = bytes.len();
    if len >= 4 {
        first_four(bytes) | first_four(&bytes[len - 4..]) << 32
    } else if len > 0 {
        u64::from(bytes[0]) | u64::from(bytes[len / 2]) << 8 | u64::from(bytes[len - 1]) << 16
    } else {
        0
    }
}

impl Hasher for FoldHasher {
    #[inline]
    fn write(&mut self, bytes: &[u8]) {
        let len = bytes.len();
        if len <= 8 {
            self.state = join_product(self.state ^ short_word(bytes), FACTOR ^ (2 * len as u64));
            return;
        }
        let mut state = self.state.wrapping_add(len as u64);
        // Most texts have at most sixteen bytes, which are the last block.
        let first = if len <= 16 {
            first_eight(bytes)
        } else {
            let mut rest = bytes;
            while rest.len() > 16 {
                state = join_product(first_eight(rest) ^ state, first_eight(&rest[8..]) ^ FACTOR);
                rest = &rest[16..];
            }
            // The last block is as long as the others, so it begins in the one before.
            first_eight(&bytes[len - 16..])
        };
        let last = first_eight(&bytes[len - 8..]);
        self.state = join_product(first ^ state, last ^ FACTOR);
    }

    #[inline]
    fn finish(&self) -> u64 {
        self.state
    }
}

/// SipHash-1-3 under two keys.
#[derive(Clone, Copy)]
pub struct DefaultHasher {
    words: [u64; 4],
    /// The bytes that no whole word was made of yet, from the lowest on.
    tail: u64,
    len: u64,
}

/// Makes a hasher under these keys.
#[inline]
pub fn keyed_hasher(key0: u64, key1: u64) -> DefaultHasher {
    let words = [
        key0 ^ 0x736f_6d65_7073_6575,
        key1 ^ 0x646f_7261_6e64_6f6d,
        key0 ^ 0x6c79_6765_6e65_7261,
        key1 ^ 0x7465_6462_7974_6573,
    ];
    DefaultHasher {
        words,
        tail: 0,
        len: 0,
    }
}

#[inline(always)]
fn mix(v: &mut [u64; 4]) {
    v[0] = v[0].wrapping_add(v[1]);
    v[2] = v[2].wrapping_add(v[3]);
    v[1] = v[1].rotate_left(13) ^ v[0];
    v[3] = v[3].rotate_left(16) ^ v[2];
    v[0] = v[0].rotate_left(32);
    v[2] = v[2].wrapping_add(v[1]);
    v[0] = v[0].wrapping_add(v[3]);
    v[1] = v[1].rotate_left(17) ^ v[2];
    v[3] = v[3].rotate_left(21) ^ v[0];
    v[2] = v[2].rotate_left(32);
}

impl DefaultHasher {
    #[inline(always)]
    fn absorb(&mut self, word: u64) {
        self.words[3] ^= word;
        mix(&mut self.words);
        self.words[0] ^= word;
    }

    #[inline(always)]
    fn absorb_byte(&mut self, byte: u8) {
        self.tail |= u64::from(byte) << (8 * (self.len % 8));
        self.len = self.len.wrapping_add(1);
        if self.len % 8 == 0 {
            let word = core::mem::take(&mut self.tail);
            self.absorb(word);
        }
    }
}

impl Hasher for DefaultHasher {
    #[inline]
    fn write(&mut self, bytes: &[u8]) {
        let missing = (8 - self.len % 8) as usize % 8;
        let (first, rest) = bytes.split_at(missing.min(bytes.len()));
        first.iter().for_each(|byte| self.absorb_byte(*byte));
        let words = rest.chunks_exact(8);
        let last = words.remainder();
        for word in words {
            self.absorb(first_eight(word));
            self.len = self.len.wrapping_add(8);
        }
        last.iter().for_each(|byte| self.absorb_byte(*byte));
    }

    #[inline]
    fn finish(&self) -> u64 {
        let mut end = *self;
        end.absorb(self.tail | self.len << 56);
        end.words[2] ^= 0xff;
        for _ in 0..3 {
            mix(&mut end.words);
        }
        end.words.iter().fold(0, |joined, word| joined ^ word)
    }
}
