//! Slots of one word each: 32 bits of a code, and below them the number of a symbol plus one.

use crate::rt::prelude::*; pub(super) use crate::rt::words as list;

//~ ghost use Rattle.std.proofs.Common.{lit≤};
//~ ghost use Rattle.std.specs.Prelude.{◌≡◌, ◌<◌, ◌^◌, ◌-◌, length, slice_index_or, None, Some};
//~ ghost use Rattle.string_interner.specs.Symbol.{AreNarrow, number_below-narrow};
//~ ghost use Rattle.string_interner.specs.Tagged.{stored_code};
//~ ghost use Rattle.string_interner.specs.Words.{slot_of, slots_of};

use crate::erased::backend::Store;
use crate::erased::dedup::layout::Layout;
use crate::erased::dedup::probe::{Find, Probe, Step, home_of, probe_for, slot_after};
use crate::erased::dedup::slots::Looks;
use crate::erased::dedup::tagged::tags::stored_code;
use crate::erased::dedup::tagged::{CodedSymbol, MOST_SLOTS_BY_STORED_CODE};
use crate::erased::hash::TextHasher;
use crate::erased::symbol::{Symbol, SymbolU16, SymbolU32};
use list::Words;
use crate::rt::alloc::{AllocError, Global};
use crate::rt::marker::{Model, PhantomData};

/// A symbol type all of whose numbers are below 2^32 - 1, so that one more fits 32 bits.
pub trait NarrowSymbol: Sized + Symbol {
    //~ ghost narrow: { AreNarrow Self.symbol_of };
}

impl NarrowSymbol for SymbolU16 {
    //~ ghost narrow = { number_below-narrow (2 ^ 16 - 1) (lit≤ tt) };
}

impl NarrowSymbol for SymbolU32 {
    //~ ghost narrow = { number_below-narrow (2 ^ 32 - 1) (lit≤ tt) };
}

/// Slots of one word each, at most three quarters of which are filled.
//~ #[derive(Drop)]
pub struct WordSlots<S: NarrowSymbol> {
    words: Words,
    of: PhantomData<S>,
}

//~ /// Contracts see the list of slots, each empty or with a symbol and its stored code. Any words are slots.
//~ impl<S: NarrowSymbol> Model for WordSlots<S> {
//~     ghost use Rattle.string_interner.specs.Tagged.{TaggedContents};
//~     ghost use Rattle.string_interner.specs.Words.{slots_of};
//~
//~     ghost Value = { TaggedContents S };
//~
//~     ghost view = { λ s. slots_of S.symbol_of s.words };
//~ }

/// Returns what is in a slot with this word, if anything.
#[inline(always)]
pub(super) fn item_of<S: Symbol>(word: u64) -> Option<CodedSymbol<S>>
    //~ ensures { result ≡ slot_of S.symbol_of word }
{
    let number = (word % 0x1_0000_0000) as usize;
    let symbol = S::try_from_usize(number.checked_sub(1)?)?;
    let code = (word / 0x1_0000_0000) as u32;
    Some(CodedSymbol { symbol, code })
}

/// Returns the word of a slot with the symbol of a text with this code.
#[inline(always)]
fn word_of<S: NarrowSymbol>(symbol: S, code: u64) -> u64
    //~ ensures { slot_of S.symbol_of result
    //~     ≡ Some (record { symbol = symbol; code = stored_code code }) }
{
    u64::from(stored_code(code)) * 0x1_0000_0000 + symbol.to_usize() as u64 + 1
}

impl<S: NarrowSymbol> WordSlots<S> {
    /// Lends the words.
    #[inline(always)]
    pub fn words(&self) -> &Words
        //~ ensures { slots_of S.symbol_of result.now ≡ self.now }
    {
        &self.words
    }

    /// Returns what is in a slot, if anything.
    #[inline(always)]
    fn item_at(&self, at: usize) -> Option<CodedSymbol<S>>
        //~ requires { at < length self.now }
        //~ ensures { result ≡ slice_index_or self.now at None }
    {
        item_of(self.words.get(at))
    }
}

impl<S: NarrowSymbol> Layout<S> for WordSlots<S> {
    //~ ghost use Rattle.string_interner.specs.Words.{word_layout};
    //~ ghost use Rattle.string_interner.specs.LayoutLaws.{word_layout-laws};

    //~ ghost layout = { word_layout };

    #[inline(always)]
    fn has_room(count: usize, entries: usize) -> bool {
        // Three quarters, since a slot count is a multiple of 4.
        entries < count - count / 4
    }

    fn new(alloc: Global) -> Self {
        WordSlots {
            words: Words::new(alloc),
            of: PhantomData,
        }
    }

    fn empty(alloc: Global, count: usize) -> Result<Self, AllocError> {
        Ok(WordSlots {
            words: Words::zeros(alloc, count)?,
            of: PhantomData,
        })
    }

    fn try_copy(&self) -> Result<Self, AllocError> {
        Ok(WordSlots {
            words: self.words.try_copy()?,
            of: PhantomData,
        })
    }

    #[inline(always)]
    fn len(&self) -> usize {
        self.words.len()
    }

    #[inline(always)]
    fn rehash_slot<H: TextHasher, B: Store<Symbol = S>>(
        &mut self,
        at: usize,
        count: usize,
        hasher: &H,
        backend: &B,
    ) -> Option<(u64, S)> {
        let item = self.item_at(at)?;
        if count as u64 <= MOST_SLOTS_BY_STORED_CODE {
            return Some((u64::from(item.code), item.symbol));
        }
        Some((
            hasher.hash_text(backend.resolve_unchecked(item.symbol)),
            item.symbol,
        ))
    }

    #[inline(always)]
    fn guess<B: Store<Symbol = S>>(&self, code: u64, _backend: &B) -> Option<S> {
        Some(self.item_at(home_of(code, self.len()))?.symbol)
    }

    #[inline(always)]
    fn set(&mut self, at: usize, symbol: S, code: u64) {
        self.words.set(at, word_of(symbol, code));
    }

    #[inline(always)]
    fn unset(&mut self, at: usize) {
        self.words.set(at, 0);
    }

    fn put(&mut self, home: usize, symbol: S, code: u64) {
        let count = self.len();
        let mut at = home;
        for _step in 0..count {
            if self.item_at(at).is_none() {
                self.set(at, symbol, code);
                return;
            }
            at = slot_after(at, count);
        }
    }

    fn clear(&mut self) {
        self.words.clear();
    }

    //~ ghost layout_laws = { word_layout-laws };
}

impl<S: NarrowSymbol> Probe<S> for WordSlots<S> {
    /// A slot with another code is passed without a look.
    #[inline(always)]
    fn step<B: Store<Symbol = S>>(
        &self,
        at: usize,
        code: u64,
        looks: &mut Looks<'_, B>,
        text: &str,
    ) -> Step<S> {
        match self.item_at(at) {
            None => Step::Free(at),
            Some(item) if item.code != stored_code(code) => { Step::On(slot_after(at, self.len())) }
            Some(item) if looks.has_text(item.symbol, text) => Step::Found(item.symbol),
            Some(_) => Step::On(slot_after(at, self.len())),
        }
    }
}

impl<S: NarrowSymbol> Find<S> for WordSlots<S> {
    #[inline(always)]
    fn find<B: Store<Symbol = S>>(
        &self,
        code: u64,
        looks: &mut Looks<'_, B>,
        text: &str,
    ) -> Option<S> {
        probe_for(self, code, looks, text).symbol()
    }
}
