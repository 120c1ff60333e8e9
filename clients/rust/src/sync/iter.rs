//! Iterating over the texts of a shared interner.

use super::memory::Memory;
use crate::symbol::{DefaultSymbol, Symbol};
use core::fmt;
use core::iter::FusedIterator;
use core::marker::PhantomData;
use core::ops::Range;

/// Yields the texts of an [`Interner`](super::Interner) with their symbols, those that it had when this was made.
pub struct Iter<'a, S = DefaultSymbol> {
    memory: &'a Memory,
    numbers: Range<u32>,
    symbol: PhantomData<fn() -> S>,
}

impl<'a, S> Iter<'a, S> {
    /// Returns an iterator over the texts with the numbers from one on and below `count`, which were all taken.
    #[inline]
    pub(super) fn new(memory: &'a Memory, from: usize, count: u32) -> Self {
        let from = u32::try_from(from).map_or(count, |from| from.min(count));
        Iter {
            memory,
            numbers: from..count,
            symbol: PhantomData,
        }
    }

    /// Returns the text of a number with its symbol.
    #[inline]
    fn entry(&self, number: u32) -> (S, &'a str)
    where
        S: Symbol,
    {
        let symbol = S::try_from_usize(number as usize).expect("each text has a symbol");
        (symbol, self.memory.wait_for(number))
    }
}

impl<'a, S: Symbol> Iterator for Iter<'a, S> {
    type Item = (S, &'a str);

    #[inline]
    fn next(&mut self) -> Option<Self::Item> {
        let number = self.numbers.next()?;
        Some(self.entry(number))
    }

    /// Takes the same time for each `n`.
    #[inline]
    fn nth(&mut self, n: usize) -> Option<Self::Item> {
        let number = self.numbers.nth(n)?;
        Some(self.entry(number))
    }

    #[inline]
    fn size_hint(&self) -> (usize, Option<usize>) {
        self.numbers.size_hint()
    }
}

impl<S: Symbol> ExactSizeIterator for Iter<'_, S> {}

impl<S: Symbol> FusedIterator for Iter<'_, S> {}

impl<S> Clone for Iter<'_, S> {
    fn clone(&self) -> Self {
        Iter {
            numbers: self.numbers.clone(),
            ..*self
        }
    }
}

impl<S> fmt::Debug for Iter<'_, S> {
    fn fmt(&self, f: &mut fmt::Formatter<'_>) -> fmt::Result {
        f.debug_struct("Iter")
            .field("left", &self.numbers.len())
            .finish_non_exhaustive()
    }
}
