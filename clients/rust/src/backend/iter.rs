//! Iterators over the texts of the three backends. Each is a plain struct, so that its lifetime may shrink.

use crate::erased::backend as proved;
use crate::erased::backend::Backend as _;
use crate::sealed::Sealed;
use crate::symbol::Symbol;
use crate::unchecked::{find_bucketed, Parts};
use core::fmt;
use core::iter::FusedIterator;
use core::marker::PhantomData;

/// Returns the symbol of a text that is there.
#[inline(always)]
pub(crate) fn symbol_of<S: Symbol>(number: usize) -> S {
    S::try_from_usize(number).expect("each text has a symbol")
}

/// Implements what all iterators have, for one that has `step`, which yields a number and a text, and `left`.
macro_rules! iterator {
    ($name:ident) => {
        impl<'a, S: Symbol> Iterator for $name<'a, S> {
            type Item = (S, &'a str);

            #[inline]
            fn next(&mut self) -> Option<Self::Item> {
                let (number, text) = self.step()?;
                Some((symbol_of(number), text))
            }

            #[inline]
            fn size_hint(&self) -> (usize, Option<usize>) {
                (self.left(), Some(self.left()))
            }

            #[inline]
            fn fold<A, F: FnMut(A, Self::Item) -> A>(self, first: A, mut call: F) -> A {
                self.fold_steps(first, |so_far, number, text| {
                    call(so_far, (symbol_of(number), text))
                })
            }
        }

        impl<S: Symbol> ExactSizeIterator for $name<'_, S> {}

        impl<S: Symbol> FusedIterator for $name<'_, S> {}

        impl<S> Clone for $name<'_, S> {
            fn clone(&self) -> Self {
                self.copy()
            }
        }

        impl<S> fmt::Debug for $name<'_, S> {
            fn fmt(&self, f: &mut fmt::Formatter<'_>) -> fmt::Result {
                f.debug_struct("Iter")
                    .field("left", &self.left())
                    .finish_non_exhaustive()
            }
        }
    };
}

/// Yields the texts of a `StringBackend`.
pub struct StringIter<'a, S> {
    parts: Parts<'a>,
    symbol: PhantomData<fn() -> S>,
}

impl<'a, S> StringIter<'a, S> {
    fn copy(&self) -> Self {
        StringIter {
            parts: self.parts.clone(),
            ..*self
        }
    }

    #[inline(always)]
    fn left(&self) -> usize {
        self.parts.left()
    }

    #[inline(always)]
    fn step(&mut self) -> Option<(usize, &'a str)> {
        self.parts.step()
    }

    #[inline(always)]
    fn fold_steps<A>(self, first: A, call: impl FnMut(A, usize, &'a str) -> A) -> A {
        self.parts.fold(first, call)
    }
}

impl<'a, S: Symbol> StringIter<'a, S> {
    #[inline]
    pub(super) fn over(texts: &'a proved::StringBackend<usize>) -> Self {
        StringIter {
            parts: Parts::of(texts, S::__count(Sealed(()))),
            symbol: PhantomData,
        }
    }
}

iterator!(StringIter);

/// Yields the texts of a `BucketBackend`.
pub struct BucketIter<'a, S> {
    texts: &'a proved::BucketBackend<usize>,
    /// The number of the next text.
    number: usize,
    symbol: PhantomData<fn() -> S>,
}

impl<'a, S> BucketIter<'a, S> {
    #[inline]
    pub(super) fn over(texts: &'a proved::BucketBackend<usize>) -> Self {
        BucketIter {
            texts,
            number: 0,
            symbol: PhantomData,
        }
    }

    fn copy(&self) -> Self {
        BucketIter { ..*self }
    }

    #[inline(always)]
    fn left(&self) -> usize {
        self.texts.count() - self.number
    }

    #[inline(always)]
    fn step(&mut self) -> Option<(usize, &'a str)> {
        // That there is no such text also ends the walk, so there is nothing else to test.
        let text = find_bucketed(self.texts, self.number)?;
        let number = self.number;
        self.number += 1;
        Some((number, text))
    }

    #[inline(always)]
    fn fold_steps<A>(mut self, first: A, mut call: impl FnMut(A, usize, &'a str) -> A) -> A {
        let mut so_far = first;
        while let Some((number, text)) = self.step() {
            so_far = call(so_far, number, text);
        }
        so_far
    }
}

iterator!(BucketIter);

/// Yields the texts of a `BufferBackend`.
pub struct BufferIter<'a, S> {
    texts: &'a proved::BufferBackend<usize>,
    /// Where the next entry begins.
    place: usize,
    left: usize,
    symbol: PhantomData<fn() -> S>,
}

impl<'a, S> BufferIter<'a, S> {
    #[inline]
    pub(super) fn over(texts: &'a proved::BufferBackend<usize>) -> Self {
        BufferIter {
            texts,
            place: 0,
            left: texts.count(),
            symbol: PhantomData,
        }
    }

    fn copy(&self) -> Self {
        BufferIter { ..*self }
    }

    #[inline(always)]
    fn left(&self) -> usize {
        self.left
    }

    #[inline(always)]
    fn step(&mut self) -> Option<(usize, &'a str)> {
        self.left = self.left.checked_sub(1)?;
        let (number, text, next) = self.texts.entry_at(self.place);
        self.place = next;
        Some((number, text))
    }

    #[inline(always)]
    fn fold_steps<A>(mut self, first: A, mut call: impl FnMut(A, usize, &'a str) -> A) -> A {
        let mut so_far = first;
        while let Some((number, text)) = self.step() {
            so_far = call(so_far, number, text);
        }
        so_far
    }
}

iterator!(BufferIter);
