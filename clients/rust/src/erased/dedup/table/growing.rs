//! Slot counts and growth: how many slots there are, and moving symbols into new ones.

//~ ghost use Rattle.std.specs.Prelude.{◌≡◌, ◌%◌, ◌<◌, ◌≤◌, ◌^◌, length, IfNone, IfOk, IfSome, OnSome, []};
//~ ghost use Rattle.string_interner.specs.Backend.{IsValidList};
//~ ghost use Rattle.string_interner.specs.Entry.{entry_text};
//~ ghost use Rattle.string_interner.specs.Slots.{symbols};
//~ ghost use Rattle.string_interner.specs.SlotRule.{IsLeastSlotCount};
//~ ghost use Rattle.string_interner.specs.LoadFactor.{GrowsTo, IsSlotCount, rule_by};
//~ ghost use Rattle.string_interner.specs.Text.{IsDistinct};
//~ ghost use Rattle.string_interner.specs.Probe.{HasFreeSlot, IsVacant, Rebuilt};
//~ ghost use Rattle.string_interner.specs.Layout.{Fills, IsTable};

use crate::rt::prelude::*; use crate::erased::backend::{Backend, Store};
use crate::erased::dedup::layout::Layout;
use crate::erased::dedup::probe::{Vacancy, home_of};
use crate::erased::hash::TextHasher;
use crate::erased::symbol::Symbol;
use crate::rt::alloc::{AllocError, Global};

/// Returns the slot count to grow to: 8 from none, and else twice as many. `None` if it does not fit a `usize`.
pub fn next_slot_count(count: usize) -> Option<usize>
    //~ ensures some { IfSome result (GrowsTo count) }
    //~ ensures none { IfNone result (2 ^ 63 ≤ count) }
{
    if count == 0 {
        Some(8)
    } else {
        count.checked_mul(2)
    }
}

/// Returns the least slot count that the load factor allows for `capacity` entries. `None` if it does not fit a
/// `usize`.
pub fn least_slot_count<S: Symbol, L: Layout<S>>(capacity: usize) -> Option<usize>
    //~ ensures least { IfSome result (IsLeastSlotCount (rule_by L.layout.holds) capacity) }
    //~ ensures fits { OnSome result (L.layout.holds (2 ^ 63) capacity) }
    //~ ensures none { IfNone result (¬ L.layout.holds (2 ^ 63) capacity) }
{
    if capacity == 0 {
        return Some(0);
    }
    let mut count: usize = 8;
    while !L::has_room(count, capacity - 1) {
        count = count.checked_mul(2)?;
    }
    Some(count)
}

/// Puts the symbol of a text with this code into the first empty slot from the text's home on.
#[inline]
fn put_by_code<S: Symbol, L: Layout<S>>(slots: &mut L, code: u64, symbol: S)
    //~ requires { HasFreeSlot (L.layout.slots slots.old) }
    //~ ensures { Fills L.layout slots.old slots.new (code % length (L.layout.slots slots.old))
    //~     symbol code }
{
    let home = home_of(code, slots.len());
    slots.put(home, symbol, code);
}

/// Puts a symbol where its vacancy says.
#[inline(always)]
pub fn occupy<S: Symbol, L: Layout<S>>(slots: &mut L, vacancy: Vacancy, symbol: S)
    //~ requires free { HasFreeSlot (L.layout.slots slots.old) }
    //~ requires vacant { IsVacant (L.layout.slots slots.old) vacancy.code vacancy }
    //~ ensures puts { Fills L.layout slots.old slots.new
    //~     (vacancy.code % length (L.layout.slots slots.old)) symbol vacancy.code }
    //~ ensures small { length (L.layout.slots slots.old) < 2 ^ 64 }
{
    if vacancy.slot_count == slots.len() {
        slots.set(vacancy.at, symbol, vacancy.code);
    } else {
        put_by_code(slots, vacancy.code, symbol);
    }
}

/// Returns `count` slots, more than before, into which all symbols are moved. Returns `Err` only if an allocation
/// fails.
#[cold] #[inline(never)]
pub fn rehash<S: Symbol, L: Layout<S>, H: TextHasher, B: Store<Symbol = S>>(
    slots: &mut L,
    count: usize,
    hasher: &H,
    backend: &B,
    alloc: Global,
) -> Result<L, AllocError>
    //~ requires fits { L.layout.fits (entry_text B.numbering (B.texts backend.now))
    //~     (H.code hasher.now) slots.old }
    //~ requires more { length (L.layout.slots slots.old) < count }
    //~ requires count { IsSlotCount count }
    //~ ensures same { slots.new ≡ slots.old }
    //~ ensures made { IfOk result (λ bigger. Rebuilt
    //~     (entry_text B.numbering (B.texts backend.now)) (H.code hasher.now)
    //~     (L.layout.slots slots.old) (L.layout.slots bigger)) }
    //~ ensures fits { IfOk result (λ bigger. L.layout.fits
    //~     (entry_text B.numbering (B.texts backend.now)) (H.code hasher.now) bigger) }
    //~ ensures count { IfOk result (λ bigger. length (L.layout.slots bigger) ≡ count) }
{
    let mut bigger = L::empty(alloc, count)?;
    for at in 0..slots.len() {
        if let Some(moved) = slots.rehash_slot(at, count, hasher, backend) {
            put_by_code(&mut bigger, moved.0, moved.1);
        }
    }
    Ok(bigger)
}

/// Puts the symbol of each entry of a backend into empty slots, in insertion order, and hashes its text once.
pub fn put_all<S: Symbol, L: Layout<S>, H: TextHasher, B: Backend<Symbol = S>>(
    slots: &mut L,
    hasher: &H,
    backend: &B,
)
    //~ requires valid { IsValidList B.numbering.symbol_of B.numbering.place (B.texts backend.now) }
    //~ requires distinct { IsDistinct (B.texts backend.now) }
    //~ requires empty { symbols (L.layout.slots slots.old) ≡ [] }
    //~ requires room { L.layout.holds (length (L.layout.slots slots.old))
    //~     (length (B.texts backend.now)) }
    //~ requires count { IsSlotCount (length (L.layout.slots slots.old)) }
    //~ ensures whole { IsTable L.layout (entry_text B.numbering (B.texts backend.now))
    //~     (H.code hasher.now) slots.new }
    //~ ensures entries { length (symbols (L.layout.slots slots.new)) ≡ length (B.texts backend.now) }
    //~ ensures count { length (L.layout.slots slots.new) ≡ length (L.layout.slots slots.old) }
{
    for (symbol, text) in backend.iter() {
        put_by_code(slots, hasher.hash_text(text), symbol);
    }
}
