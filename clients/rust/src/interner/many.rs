//! Interning many texts, with room made for them at once.
//!
//! While an interner has few texts, each is interned by itself. In a large one they wait in a block, and the proved `intern_slice` looks
//! for 32 of them together. A program that calls `extend` or `intern_all` sees this only by the clock, and by how far an iterator went
//! that it lent: the text of an item is read before the next item comes, and items that a program sees dropped do not wait.

use super::block::{Block, LEN};
use super::StringInterner;
use crate::backend::{symbol_of, Backend};
use crate::erased::interner::look_ahead::FEWEST_FOR_BLOCKS;
use crate::error::{expect, InternError};
use crate::sealed::Sealed;
use crate::symbol::Symbol as _;
use alloc::vec::Vec;
use core::hash::BuildHasher;
use core::mem;

/// For more texts than these no room is made because of what an iterator or an input says of itself.
pub(crate) const MOST_RESERVED: usize = 1 << 12;

/// To move an item of more bytes into a block and out again takes longer than the block saves.
const MOST_MOVED: usize = 32;

/// So many texts of a call are interned one by one before a block is made, which costs as much as a few of them.
const TEXTS_BEFORE_BLOCKS: usize = 128;

/// Reports whether items may wait in a block. An iterator may have no further item until one is dropped, so none waits whose drop a
/// program can see; and large ones would take much of the stack.
#[inline(always)]
pub(crate) const fn may_wait<T>() -> bool {
    !mem::needs_drop::<T>() && mem::size_of::<T>() <= MOST_MOVED
}

/// Makes room for more symbols.
#[inline(always)]
pub(crate) fn reserve<S>(symbols: &mut Vec<S>, more: usize) -> Result<(), InternError> {
    symbols.try_reserve(more).map_err(|_| InternError::Memory)
}

impl<B: Backend, H: BuildHasher> StringInterner<B, H> {
    /// Interns many texts, and returns the symbol of each. In an interner of 32,768 texts it may look for them in memory together, which
    /// is faster than a loop, if they are in items that need no drop, as `&str` and `&String`.
    ///
    /// # Panics
    ///
    /// If no symbol is left for a new text. The texts before it stay, and the iterator may be up to 511 texts past it.
    #[track_caller]
    pub fn intern_all<I>(&mut self, strings: I) -> Vec<B::Symbol>
    where
        I: IntoIterator,
        I::Item: AsRef<str>,
    {
        let mut strings = strings.into_iter();
        let mut symbols = Vec::new();
        expect(reserve(&mut symbols, strings.size_hint().0));
        self.make_first_room(strings.size_hint().0);
        // A block has numbers, of which a program's own type may make other symbols than those that the backend returned.
        let keeps_numbers = B::Symbol::__keeps_its_number(Sealed(()));
        // A closure would hide from the panic who called.
        while !keeps_numbers || self.is_alone::<I::Item>(symbols.len()) {
            let Some(string) = strings.next() else {
                return symbols;
            };
            expect(reserve(&mut symbols, 1));
            symbols.push(self.get_or_intern(string));
        }
        self.intern_blocks(strings, Some(&mut symbols));
        symbols
    }

    /// Reports whether the next item of a call is to be interned by itself, after so many before it.
    #[inline(always)]
    fn is_alone<T>(&self, before: usize) -> bool {
        !may_wait::<T>() || before < TEXTS_BEFORE_BLOCKS || self.len() < FEWEST_FOR_BLOCKS
    }

    /// Interns all texts in blocks, and appends their symbols to a list, if there is one.
    ///
    /// It is a call, because a block takes more of the stack than what interns one text after another.
    #[inline(never)]
    #[track_caller]
    fn intern_blocks<T: AsRef<str>>(
        &mut self,
        mut strings: impl Iterator<Item = T>,
        mut symbols: Option<&mut Vec<B::Symbol>>,
    ) {
        let mut numbers = [0; LEN];
        let mut is_more = true;
        while is_more {
            let mut places = [const { None }; LEN];
            let mut block = Block::new(self);
            is_more = block.fill(&mut places, &mut strings);
            if let Some(symbols) = &mut symbols {
                expect(reserve(symbols, block.len()));
            }
            let numbers = expect(block.intern(&mut numbers));
            if let Some(symbols) = &mut symbols {
                symbols.extend(numbers.iter().copied().map(symbol_of::<B::Symbol>));
            }
        }
    }

    /// Makes room for about so many texts at once, if no room was ever made. Then nothing grows later.
    fn make_first_room(&mut self, texts: usize) {
        let texts = texts.min(MOST_RESERVED);
        if texts > 0 && self.proved.index().slots() == 0 {
            B::__make_room(self, texts, Sealed(()));
        }
    }
}

impl<B: Backend, H: BuildHasher + Default, T: AsRef<str>> FromIterator<T> for StringInterner<B, H> {
    fn from_iter<I: IntoIterator<Item = T>>(iter: I) -> Self {
        let iter = iter.into_iter();
        let mut interner = Self::with_capacity(iter.size_hint().0);
        interner.extend(iter);
        interner
    }
}

impl<B: Backend, H: BuildHasher, T: AsRef<str>> Extend<T> for StringInterner<B, H> {
    /// Interns all texts. A new interner over a backend of this crate first makes room for as many as the iterator says that there are
    /// at least, up to 4,096. In an interner of 32,768 texts it may look for them in memory together, which is faster than a loop, if
    /// they are in items that need no drop, as `&str` and `&String`.
    ///
    /// # Panics
    ///
    /// If no symbol is left for a new text. The texts before it stay, and the iterator may be up to 511 texts past it.
    #[track_caller]
    fn extend<I: IntoIterator<Item = T>>(&mut self, iter: I) {
        let mut strings = iter.into_iter();
        self.make_first_room(strings.size_hint().0);
        let mut count = 0;
        while self.is_alone::<T>(count) {
            let Some(string) = strings.next() else {
                return;
            };
            self.get_or_intern(string);
            count += 1;
        }
        self.intern_blocks(strings, None);
    }
}
