//! What a table asks of its slots: how they lie in memory, and how full they may get.

//~ ghost use Rattle.std.specs.Prelude.{◌≡◌, ◌≢◌, ℕ, ◌+◌, ◌%◌, ◌<◌, ◌^◌, ◌↔◌, length, slice_index_or, slice_set, replicate, Contains, [], IsTrue, IfNone, IfOk, IfSome, None, Some};
//~ ghost use Rattle.string_interner.specs.Text.{Text};
//~ ghost use Rattle.string_interner.specs.Entry.{entry_text};
//~ ghost use Rattle.string_interner.specs.Slots.{symbols};
//~ ghost use Rattle.string_interner.specs.LoadFactor.{IsSlotCount};
//~ ghost use Rattle.string_interner.specs.Index.{text_of};
//~ ghost use Rattle.string_interner.specs.Layout.{SlotLayout, Fills, IsLayout};

use crate::rt::prelude::*; use crate::erased::backend::Store;
use crate::erased::hash::TextHasher;
use crate::erased::symbol::Symbol;
use crate::rt::alloc::{AllocError, Global};

/// The slots of a table, each empty or with a symbol, and what is stored beside them.
///
/// A layout decides how full its slots may get, what it stores of a text's code, and, by [`Probe`](super::probe::Probe),
/// what one step of a search does. All else is written once, in [`Table`](super::table::Table) and beside `Probe`, but for a
/// search for a symbol alone, for which a layout may have code of its own ([`Find`](super::probe::Find)).
pub trait Layout<S: Symbol>: Sized + Drop {
    //~ /// What contracts see of the slots.
    //~ ghost layout: { SlotLayout S Self };

    /// Reports whether the load factor allows one entry more than these in so many slots.
    fn has_room(count: usize, entries: usize) -> bool;
        //~ requires { IsSlotCount count }
        //~ ensures { IsTrue result ↔ layout.holds count (entries + 1) };

    /// Makes a list of no slots. Allocates nothing.
    fn new(alloc: Global) -> Self;
        //~ ensures { layout.slots result ≡ [] };

    /// Makes `count` empty slots. Returns `Err` only if an allocation fails.
    fn empty(alloc: Global, count: usize) -> Result<Self, AllocError>;
        //~ requires { IsSlotCount count }
        //~ ensures { IfOk result (λ made. layout.slots made ≡ replicate count None) };

    /// Returns equal slots. Reads no text. Returns `Err` only if an allocation fails.
    fn try_copy(&self) -> Result<Self, AllocError>;
        //~ ensures { IfOk result (λ copy. copy ≡ self.now) };

    /// Returns how many slots there are.
    fn len(&self) -> usize;
        //~ ensures { result ≡ length (layout.slots self.now) };

    /// Returns the symbol of a slot, if any, and a code that has the same home among `count` slots as its text's.
    ///
    /// Takes `&mut self`, so that a look-up, which borrows the slots, cannot call this: it is no look.
    fn rehash_slot<H: TextHasher, B: Store<Symbol = S>>(
        &mut self,
        at: usize,
        count: usize,
        hasher: &H,
        backend: &B,
    ) -> Option<(u64, S)>;
        //~ requires within { at < length (layout.slots self.old) }
        //~ requires fits { layout.fits (entry_text B.numbering (B.texts backend.now))
        //~     (H.code hasher.now) self.old }
        //~ requires some { 0 < count }
        //~ requires count { IsSlotCount count }
        //~ ensures same { self.new ≡ self.old }
        //~ ensures empty { IfNone result (slice_index_or (layout.slots self.old) at None ≡ None) }
        //~ ensures symbol { IfSome result (λ moved. slice_index_or (layout.slots self.old) at None
        //~     ≡ Some moved.1) }
        //~ ensures home { IfSome result (λ moved. moved.0 % count
        //~     ≡ H.code hasher.now
        //~     (text_of (entry_text B.numbering (B.texts backend.now)) moved.1) % count) }
        //~ ensures stored { IfSome result (λ moved. layout.stores moved.0
        //~     ≡ layout.stores (H.code hasher.now
        //~     (text_of (entry_text B.numbering (B.texts backend.now)) moved.1))) };

    /// Returns the symbol that a probe for a text with this code is likely to look at first, if any. Reads no text.
    ///
    /// Takes a backend that the slots fit, so that `Table::find`, which has it in its `Looks` alone, cannot call this: it is
    /// no look.
    fn guess<B: Store<Symbol = S>>(&self, code: u64, backend: &B) -> Option<S>;
        //~ requires some { 0 < length (layout.slots self.now) }
        //~ requires count { IsSlotCount (length (layout.slots self.now)) }
        //~ requires fits { (of : Text → ℕ)
        //~     × layout.fits (entry_text B.numbering (B.texts backend.now)) of self.now }
        //~ ensures { IfSome result (λ symbol. Contains (layout.slots self.now) (Some symbol)) };

    /// Puts the symbol of a text with this code into this slot.
    fn set(&mut self, at: usize, symbol: S, code: u64);
        //~ requires { at < length (layout.slots self.old) }
        //~ ensures slots { layout.slots self.new
        //~     ≡ slice_set (layout.slots self.old) at (Some symbol) }
        //~ ensures stored { layout.stored self.new at ≡ layout.stores code }
        //~ ensures others { (k : ℕ) → k ≢ at → layout.stored self.new k ≡ layout.stored self.old k };

    /// Empties this slot.
    fn unset(&mut self, at: usize);
        //~ requires { at < length (layout.slots self.old) }
        //~ ensures slots { layout.slots self.new ≡ slice_set (layout.slots self.old) at None }
        //~ ensures others { (k : ℕ) → k ≢ at → layout.stored self.new k ≡ layout.stored self.old k };

    /// Puts the symbol of a text with this code into the first empty slot from its home on, wrapping around at the end.
    fn put(&mut self, home: usize, symbol: S, code: u64);
        //~ requires home { home < length (layout.slots self.old) }
        //~ requires free { length (symbols (layout.slots self.old))
        //~     < length (layout.slots self.old) }
        //~ ensures { Fills layout self.old self.new home symbol code };

    /// Empties all slots. Takes no memory and releases none.
    fn clear(&mut self);
        //~ ensures empty { symbols (layout.slots self.new) ≡ [] }
        //~ ensures count { length (layout.slots self.new) ≡ length (layout.slots self.old) };

    //~ /// The layout keeps its laws.
    //~ ghost layout_laws: { IsLayout layout };
}
