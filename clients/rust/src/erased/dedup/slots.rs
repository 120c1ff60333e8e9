//! Slots with symbols alone, and looks, by which alone a look-up reads them.

//~ ghost use Rattle.std.specs.Prelude.{◌≡◌, ◌<◌, ◌^◌, ◌+◌, ◌-◌, ◌↔◌, length, slice_index_or, IfNone, IfSome, IsNone, IsSome, IsTrue, None, Some};
//~ ghost use Rattle.std.specs.Option.{ForSome};
//~ ghost use Rattle.string_interner.specs.Entry.{entry_text};
//~ ghost use Rattle.string_interner.specs.Index.{has_text};
//~ ghost use Rattle.string_interner.specs.Symbol.{AreNarrow};

use crate::rt::prelude::*; use crate::erased::backend::Store;
use crate::erased::dedup::count::Count;
use crate::erased::dedup::layout::Layout;
use crate::erased::dedup::probe::{home_of, slot_after};
use crate::erased::equal_texts::texts_are_equal;
use crate::erased::hash::TextHasher;
use crate::erased::symbol::Symbol;
use crate::rt::alloc::{AllocError, Global};
use crate::rt::marker::Model;

/// Slots with symbols alone, at most three quarters of which are filled.
///
/// If 2^32 - 1 is no symbol's number, each slot has four bytes in `numbers`: the number of its symbol, or `u32::MAX`. A slot
/// with `u32::MAX` has what `others` has for it: a symbol with a greater number, or nothing. `others` is empty if the type
/// has no greater numbers. If 2^32 - 1 is a symbol's number, all slots are in `others`.
//~ #[derive(Drop)]
pub struct Slots<S: Symbol> {
    numbers: Vec<u32>,
    others: Vec<Option<S>>,
}

//~ /// Contracts see the list of slots.
//~ impl<S: Symbol> Model for Slots<S> {
//~     ghost use Rattle.std.specs.Prelude.{List, Option};
//~     ghost use Rattle.string_interner.specs.Slots.{AreStored, slots_stored};
//~
//~     ghost Value = { List (Option S) };
//~
//~     ghost view = { λ s. slots_stored S.symbol_of s.numbers.items s.others.items };
//~
//~     ghost invariant = { λ s. AreStored S.symbol_of s.numbers.items s.others.items };
//~ }

/// Reports whether 2^32 - 1 is no symbol's number, and so can stand for an empty slot.
#[inline(always)]
fn has_numbers<S: Symbol>() -> bool
    //~ ensures { IsTrue result ↔ IsNone (S.symbol_of (2 ^ 32 - 1)) }
{
    S::try_from_usize(u32::MAX as usize).is_none()
}

/// Returns the number of a symbol, if it is below 2^32 - 1.
#[inline(always)]
fn narrow_number<S: Symbol>(symbol: S) -> Option<u32>
    //~ ensures some { IfSome result (λ number. S.symbol_of number ≡ Some symbol) }
    //~ ensures none { IfNone result (¬ AreNarrow S.symbol_of) }
{
    let number = symbol.to_usize();
    if S::has_narrow_numbers() || number < u32::MAX as usize {
        Some(number as u32)
    } else {
        None
    }
}

impl<S: Symbol> Slots<S> {
    /// Returns the symbol of a slot, if any. Only this module can call it, so a look-up reads slots by [`Looks::look`].
    #[inline(always)]
    fn symbol_at(&self, at: usize) -> Option<S>
        //~ requires { at < length self.now }
        //~ ensures { result ≡ slice_index_or self.now at None }
    {
        if !has_numbers::<S>() {
            return self.others[at];
        }
        match S::try_from_usize(self.numbers[at] as usize) {
            Some(symbol) => Some(symbol),
            None if S::has_narrow_numbers() || self.others.is_empty() => None,
            None => self.others[at],
        }
    }
}

/// Borrows a backend for look-ups and counts their looks. A look reads one slot of an `Index`, with the text of its
/// symbol, and compares one text for a `TaggedIndex`.
///
/// The count is ghost state: no method returns it, and it takes no space.
//~ #[derive(Drop)]
pub struct Looks<'a, B> {
    backend: &'a B,
    count: Count,
}

//~ /// Contracts see the backend and the count of looks.
//~ impl<'a, B> Model for Looks<'a, B> {
//~     ghost use Rattle.string_interner.specs.Slots.{LooksContents};
//~
//~     ghost Value = { LooksContents B };
//~
//~     ghost view = { λ l. record { backend = l.backend.now; count = l.count.value } };
//~ }

impl<'a, B> Looks<'a, B> {
    /// Borrows a backend, with no looks so far.
    #[inline(always)]
    pub fn new(backend: &'a B) -> Self
        //~ ensures backend { result.backend ≡ backend.now }
        //~ ensures count { result.count ≡ 0 }
    {
        Looks {
            backend,
            count: Count::new(),
        }
    }
}

/// A filled slot that was read: its symbol, and whether that symbol's text is the one looked for.
//~ #[derive(Drop)]
pub(super) struct Seen<S> {
    pub symbol: S,
    pub matches: bool,
}

impl<'a, B: Store> Looks<'a, B> {
    /// Reports whether the text of a symbol is this one. That is one look.
    #[inline(always)]
    pub(super) fn has_text(&mut self, symbol: B::Symbol, text: &str) -> bool
        //~ requires { IsSome (entry_text B.numbering (B.texts self.old.backend) symbol) }
        //~ ensures value { result
        //~     ≡ has_text (entry_text B.numbering (B.texts self.old.backend)) text.now symbol }
        //~ ensures backend { self.new.backend ≡ self.old.backend }
        //~ ensures count { self.new.count ≡ self.old.count + 1 }
    {
        self.count.add_one();
        // The caller compared tags, so the texts are nearly always equal.
        texts_are_equal(self.backend.resolve_unchecked(symbol), text)
    }

    /// Reads a slot for a text: its symbol, if any, and whether that symbol's text is this one. That is one look.
    #[inline(always)]
    pub(super) fn look(
        &mut self,
        slots: &Slots<B::Symbol>,
        at: usize,
        text: &str,
    ) -> Option<Seen<B::Symbol>>
        //~ requires within { at < length slots.now }
        //~ requires entry { ForSome (slice_index_or slots.now at None) (λ symbol.
        //~     IsSome (entry_text B.numbering (B.texts self.old.backend) symbol)) }
        //~ ensures empty { IfNone result (slice_index_or slots.now at None ≡ None) }
        //~ ensures symbol { IfSome result (λ seen. slice_index_or slots.now at None
        //~     ≡ Some seen.symbol) }
        //~ ensures matches { IfSome result (λ seen. seen.matches
        //~     ≡ has_text (entry_text B.numbering (B.texts self.old.backend)) text.now seen.symbol) }
        //~ ensures backend { self.new.backend ≡ self.old.backend }
        //~ ensures count { self.new.count ≡ self.old.count + 1 }
    {
        self.count.add_one();
        let symbol = slots.symbol_at(at)?;
        // Most texts here are others, of other lengths.
        let matches = self.backend.resolve_unchecked(symbol) == text;
        Some(Seen { symbol, matches })
    }
}

impl<S: Symbol> Layout<S> for Slots<S> {
    //~ ghost use Rattle.string_interner.specs.Layout.{plain_layout};
    //~ ghost use Rattle.string_interner.specs.LayoutLaws.{plain_layout-laws};

    //~ ghost layout = { plain_layout };

    #[inline(always)]
    fn has_room(count: usize, entries: usize) -> bool {
        // Three quarters, since a slot count is a multiple of 4.
        entries < count - count / 4
    }

    fn new(alloc: Global) -> Self {
        Slots {
            numbers: Vec::new(alloc),
            others: Vec::new(alloc),
        }
    }

    fn empty(alloc: Global, count: usize) -> Result<Self, AllocError> {
        let numbers = if has_numbers::<S>() { count } else { 0 };
        let others = if S::has_narrow_numbers() { 0 } else { count };
        Ok(Slots {
            numbers: Vec::from_elem(alloc, u32::MAX, numbers)?,
            others: Vec::from_elem(alloc, None, others)?,
        })
    }

    fn try_copy(&self) -> Result<Self, AllocError> {
        let alloc = *self.numbers.allocator();
        Ok(Slots {
            numbers: Vec::from_slice(alloc, &self.numbers)?,
            others: Vec::from_slice(alloc, &self.others)?,
        })
    }

    #[inline(always)]
    fn len(&self) -> usize {
        if has_numbers::<S>() {
            self.numbers.len()
        } else {
            self.others.len()
        }
    }

    #[inline(always)]
    fn rehash_slot<H: TextHasher, B: Store<Symbol = S>>(
        &mut self,
        at: usize,
        _count: usize,
        hasher: &H,
        backend: &B,
    ) -> Option<(u64, S)> {
        let symbol = self.symbol_at(at)?;
        Some((hasher.hash_text(backend.resolve_unchecked(symbol)), symbol))
    }

    #[inline(always)]
    fn guess<B: Store<Symbol = S>>(&self, code: u64, _backend: &B) -> Option<S> {
        self.symbol_at(home_of(code, self.len()))
    }

    #[inline(always)]
    fn set(&mut self, at: usize, symbol: S, _code: u64) {
        if !has_numbers::<S>() {
            self.others[at] = Some(symbol);
            return;
        }
        match narrow_number(symbol) {
            Some(number) => self.numbers[at] = number,
            None => {
                self.numbers[at] = u32::MAX;
                self.others[at] = Some(symbol);
            }
        }
    }

    #[inline(always)]
    fn unset(&mut self, at: usize) {
        if !has_numbers::<S>() {
            self.others[at] = None;
            return;
        }
        self.numbers[at] = u32::MAX;
        if !self.others.is_empty() {
            self.others[at] = None;
        }
    }

    fn put(&mut self, home: usize, symbol: S, code: u64) {
        let count = self.len();
        let mut at = home;
        for _step in 0..count {
            if self.symbol_at(at).is_none() {
                self.set(at, symbol, code);
                return;
            }
            at = slot_after(at, count);
        }
    }

    fn clear(&mut self) {
        self.numbers.fill(u32::MAX);
        self.others.fill(None);
    }

    //~ ghost layout_laws = { plain_layout-laws };
}
