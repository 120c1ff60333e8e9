//! Taking a symbol out of the slots, so that probes still find the others.

//~ ghost use Rattle.std.specs.Prelude.{◌≡◌, ◌+◌, ◌<◌, ◌↔◌, length, slice_index_or, Contains, IsSomeAnd, IsTrue, Some, None};
//~ ghost use Rattle.string_interner.specs.Entry.{entry_text};
//~ ghost use Rattle.string_interner.specs.Slots.{symbols};
//~ ghost use Rattle.string_interner.specs.LoadFactor.{IsSlotCount};
//~ ghost use Rattle.string_interner.specs.Index.{RemovesPair, text_of};
//~ ghost use Rattle.string_interner.specs.Probe.{HasFreeSlot, IsBetween};

use crate::rt::prelude::*; use crate::erased::backend::Store;
use crate::erased::dedup::layout::Layout;
use crate::erased::dedup::probe::{home_of, slot_after};
use crate::erased::hash::TextHasher;
use crate::erased::symbol::Symbol;

/// Reports whether a probe from `home` to `at` meets the slot `between`.
#[inline(always)]
fn is_between(home: usize, between: usize, at: usize) -> bool
    //~ ensures { IsTrue result ↔ IsBetween home between at }
{
    if home <= at {
        home <= between && between <= at
    } else {
        home <= between || between <= at
    }
}

/// Returns the slot of a symbol, which is looked for from the home of this code on.
///
/// What is compiled without a proof finds none, if a hasher that panicked before has left the symbol without one.
pub fn slot_of<S: Symbol, L: Layout<S>, H: TextHasher, B: Store<Symbol = S>>(
    slots: &mut L,
    symbol: S,
    code: u64,
    hasher: &H,
    backend: &B,
) -> Option<usize>
    //~ requires fits { L.layout.fits (entry_text B.numbering (B.texts backend.now))
    //~     (H.code hasher.now) slots.old }
    //~ requires count { IsSlotCount (length (L.layout.slots slots.old)) }
    //~ requires there { Contains (L.layout.slots slots.old) (Some symbol) }
    //~ ensures same { slots.new ≡ slots.old }
    //~ ensures found { IsSomeAnd result (λ at. (at < length (L.layout.slots slots.old))
    //~     × (slice_index_or (L.layout.slots slots.old) at None ≡ Some symbol)) }
{
    let count = slots.len();
    let mut at = home_of(code, count);
    for _step in 0..count {
        match slots.rehash_slot(at, count, hasher, backend) {
            Some(moved) if moved.1 == symbol => return Some(at),
            _ => at = slot_after(at, count),
        }
    }
    None
}

/// Empties the slot `at`, which has this symbol, the symbol of a text with this code.
///
/// The probe for another text may meet this slot, so the symbol first changes places with each later one whose probe does, up
/// to the end of the cluster. All slots are filled meanwhile, and each is in the cluster of its text.
pub fn vacate<S: Symbol, L: Layout<S>, H: TextHasher, B: Store<Symbol = S>>(
    slots: &mut L,
    at: usize,
    symbol: S,
    code: u64,
    hasher: &H,
    backend: &B,
)
    //~ requires fits { L.layout.fits (entry_text B.numbering (B.texts backend.now))
    //~     (H.code hasher.now) slots.old }
    //~ requires free { HasFreeSlot (L.layout.slots slots.old) }
    //~ requires within { at < length (L.layout.slots slots.old) }
    //~ requires there { slice_index_or (L.layout.slots slots.old) at None ≡ Some symbol }
    //~ requires code { code ≡ H.code hasher.now
    //~     (text_of (entry_text B.numbering (B.texts backend.now)) symbol) }
    //~ ensures fits { L.layout.fits (entry_text B.numbering (B.texts backend.now))
    //~     (H.code hasher.now) slots.new }
    //~ ensures pair { RemovesPair (entry_text B.numbering (B.texts backend.now))
    //~     (L.layout.slots slots.old) (L.layout.slots slots.new) symbol }
    //~ ensures entries { length (symbols (L.layout.slots slots.old))
    //~     ≡ length (symbols (L.layout.slots slots.new)) + 1 }
    //~ ensures count { length (L.layout.slots slots.new) ≡ length (L.layout.slots slots.old) }
{
    let count = slots.len();
    let mut hole = at;
    let mut next = slot_after(at, count);
    for _step in 0..count {
        let Some(moved) = slots.rehash_slot(next, count, hasher, backend) else {
            slots.unset(hole);
            return;
        };
        if is_between(home_of(moved.0, count), hole, next) {
            slots.set(hole, moved.1, moved.0);
            slots.set(next, symbol, code);
            hole = next;
        }
        next = slot_after(next, count);
    }
}
