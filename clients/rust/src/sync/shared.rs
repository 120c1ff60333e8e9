//! What all shards have in common: the hasher, and the numbers of texts.

use super::memory::{Room, Texts};
use crate::erased::hash::TextHasher as _;
use crate::error::InternError;
use crate::hasher::HasherAdapter;
use crate::symbol::Symbol;
use core::hash::BuildHasher;
use core::marker::PhantomData;
use std::sync::atomic::{AtomicU32, Ordering::Relaxed};

/// There are so many bits in the number of a shard.
const SHARD_BITS: u32 = 5;

/// 2³² by the golden ratio, the factor of Fibonacci hashing: the high bits of a product with it depend on all bits.
const SPREAD: u32 = 0x9E37_79B9;

pub(super) const SHARDS: usize = 1 << SHARD_BITS;

/// A value in cache lines of its own, so that who writes to it slows down nobody who reads what lies beside it.
#[repr(align(128))]
pub(super) struct CachePadded<T>(pub(super) T);

/// A number that was taken, with its symbol, and where its text comes.
pub(super) struct Taken<'a, S> {
    pub(super) number: u32,
    pub(super) symbol: S,
    pub(super) room: Room<'a>,
}

/// What all shards have in common.
pub(super) struct Shared<S, H> {
    pub(super) hasher: HasherAdapter<H>,
    /// How many numbers were taken.
    count: CachePadded<AtomicU32>,
    symbol: PhantomData<fn() -> S>,
}

/// Returns the number of the shard of a text with this code, of which it takes the low 32 bits, which an index stores. If these have few
/// values under a hasher, few shards have texts, and threads that intern new ones wait longer.
#[inline(always)]
pub(super) fn shard_of(code: u64) -> usize {
    ((code as u32).wrapping_mul(SPREAD) >> (u32::BITS - SHARD_BITS)) as usize
}

impl<S, H> Shared<S, H> {
    pub(super) const fn new(hash_builder: H) -> Self {
        Shared {
            hasher: HasherAdapter(hash_builder),
            count: CachePadded(AtomicU32::new(0)),
            symbol: PhantomData,
        }
    }

    /// Returns how many numbers were taken. A text with one of them may be about to be published.
    #[inline]
    pub(super) fn count(&self) -> u32 {
        self.count.0.load(Relaxed)
    }
}

impl<S: Symbol, H: BuildHasher> Shared<S, H> {
    /// Returns the symbol of the next number, unless another thread takes that first.
    #[inline(always)]
    pub(super) fn next_symbol(&self) -> Result<S, InternError> {
        self.next_symbol_of(self.count())
    }

    #[inline(always)]
    fn next_symbol_of(&self, count: u32) -> Result<S, InternError> {
        match count {
            u32::MAX => Err(InternError::NoSymbol),
            number => self.symbol_of(number),
        }
    }

    /// Takes the next number, for whose text there is room then. Nothing that may fail or panic comes between taking a number and
    /// publishing its text.
    #[inline(always)]
    pub(super) fn take_number<'a>(&self, texts: &'a Texts) -> Result<Taken<'a, S>, InternError> {
        let count = &self.count.0;
        let mut number = self.count();
        loop {
            let symbol = self.next_symbol_of(number)?;
            let room = texts.make_room(number)?;
            match count.compare_exchange_weak(number, number + 1, Relaxed, Relaxed) {
                Ok(_) => {
                    return Ok(Taken {
                        number,
                        symbol,
                        room,
                    })
                }
                Err(now) => number = now,
            }
        }
    }

    #[inline(always)]
    pub(super) fn symbol_of(&self, number: u32) -> Result<S, InternError> {
        S::try_from_usize(number as usize).ok_or(InternError::NoSymbol)
    }

    #[inline(always)]
    pub(super) fn code_of(&self, text: &str) -> u64 {
        self.hasher.hash_text(text)
    }
}
