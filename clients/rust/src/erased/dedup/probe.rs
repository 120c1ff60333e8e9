//! Linear probing: from the home of a text on, slot by slot, round the end to the first.

//~ ghost use Rattle.std.specs.Prelude.{◌≡◌, ◌+◌, ◌<◌, ◌≤◌, ◌%◌, length};
//~ ghost use Rattle.string_interner.specs.Entry.{entry_text};
//~ ghost use Rattle.string_interner.specs.Slots.{probe_cluster};
//~ ghost use Rattle.string_interner.specs.LoadFactor.{IsSlotCount};
//~ ghost use Rattle.string_interner.specs.Index.{has_text};
//~ ghost use Rattle.string_interner.specs.Layout.{FitsCode};
//~ ghost use Rattle.string_interner.specs.Probe.{FindsFirst, Follows, HasFreeSlot, NamesVacancy, StepsTo};
//~ ghost use Rattle.string_interner.specs.declared.dedup.probe.Step.TheVariants.{On};
//~ ghost use Rattle.string_interner.specs.TextIndex.{found_by};

use crate::rt::prelude::*; use crate::erased::backend::Store;
use crate::erased::dedup::layout::Layout;
use crate::erased::dedup::slots::{Looks, Slots};
use crate::erased::dedup::text_index::Entry;
use crate::erased::symbol::Symbol;

/// Where the symbol of a text goes that was not found.
///
/// It holds the text's code and the empty slot where the probe ended. Growth moves all symbols, so the slot counts only
/// while there are as many slots as there were; after that the code leads. So a vacancy outlives growth, and what holds
/// one need not know of it.
//~ #[derive(Drop)]
pub struct Vacancy {
    pub(super) code: u64,
    /// How many slots there were. None, where no probe ended at a slot.
    pub(super) slot_count: usize,
    pub(super) at: usize,
}

impl Vacancy {
    /// Where the symbol of a text with this code goes, without a probe.
    #[inline]
    pub fn by_code(code: u64) -> Vacancy
        //~ ensures { result ≡ record { code = code; slot_count = 0; at = 0 } }
    {
        Vacancy {
            code,
            slot_count: 0,
            at: 0,
        }
    }
}

/// Returns the slot at which the probe for a text with this code starts.
#[inline(always)]
pub fn home_of(code: u64, slots: usize) -> usize
    //~ requires some { 0 < slots }
    //~ requires count { IsSlotCount slots }
    //~ ensures { result ≡ code % slots }
{
    (code as usize) & (slots - 1)
}

/// Returns the slot after this one: after the last comes the first.
#[inline(always)]
pub fn slot_after(at: usize, count: usize) -> usize
    //~ requires { at < count }
    //~ ensures { Follows count at result }
{
    if at + 1 < count { at + 1 } else { 0 }
}

/// Where a step of a probe leads.
//~ #[derive(Drop)]
pub enum Step<S> {
    /// To the slot of this symbol, which has the text.
    Found(S),
    /// To this empty slot, so no symbol has the text.
    Free(usize),
    /// On to this slot: none that was passed has the text.
    On(usize),
}

/// One step of a search through the slots of a layout.
pub trait Probe<S: Symbol>: Sized + Layout<S> {
    /// Takes one step of a probe for a text with this code: from slot `at` on, up to a slot that has the text or is empty,
    /// or past one slot or more. Takes at most one look.
    fn step<B: Store<Symbol = S>>(
        &self,
        at: usize,
        code: u64,
        looks: &mut Looks<'_, B>,
        text: &str,
    ) -> Step<S>;
        //~ requires within { at < length (Self.layout.slots self.now) }
        //~ requires fits { FitsCode Self.layout
        //~     (entry_text B.numbering (B.texts looks.old.backend)) self.now code text.now }
        //~ ensures leads { StepsTo
        //~     (has_text (entry_text B.numbering (B.texts looks.old.backend)) text.now)
        //~     (Self.layout.slots self.now) at result }
        //~ ensures backend { looks.new.backend ≡ looks.old.backend }
        //~ ensures counts { looks.old.count ≤ looks.new.count }
        //~ ensures looks { looks.new.count ≤ looks.old.count + 1 };
}

/// Probes for a text with this code from its home on, up to the first slot that has its symbol or is empty.
///
/// Takes at most one look more than there are symbols in the probe cluster.
#[inline(always)]
pub fn probe_for<S: Symbol, L: Probe<S>, B: Store<Symbol = S>>(
    slots: &L,
    code: u64,
    looks: &mut Looks<'_, B>,
    text: &str,
) -> Entry<S, Vacancy>
    //~ requires free { HasFreeSlot (L.layout.slots slots.now) }
    //~ requires fits { FitsCode L.layout
    //~     (entry_text B.numbering (B.texts looks.old.backend)) slots.now code text.now }
    //~ ensures found { FindsFirst
    //~     (has_text (entry_text B.numbering (B.texts looks.old.backend)) text.now)
    //~     (L.layout.slots slots.now) code (found_by result) }
    //~ ensures vacant { NamesVacancy (L.layout.slots slots.now) code result }
    //~ ensures backend { looks.new.backend ≡ looks.old.backend }
    //~ ensures counts { looks.old.count ≤ looks.new.count }
    //~ ensures looks { looks.new.count
    //~     ≤ looks.old.count + length (probe_cluster (L.layout.slots slots.now) code) + 1 }
{
    let count = slots.len();
    let home = home_of(code, count);
    // Most probes end with their first step, so it stands before the loop. Inside, the compiler would compute what a
    // comparison needs of the text's length before the loop, and so for each probe.
    match slots.step(home, code, looks, text) {
        Step::Found(symbol) => Entry::Occupied(symbol),
        Step::Free(at) => Entry::Vacant(Vacancy {
            code,
            slot_count: count,
            at,
        }),
        Step::On(at) => probe_on(slots, at, code, looks, text),
    }
}

/// Goes on with a probe for a text with this code, whose first step led on to slot `from`.
///
/// Takes at most as many looks as there are symbols in the probe cluster.
#[cold] #[inline(never)]
pub(super) fn probe_on<S: Symbol, L: Probe<S>, B: Store<Symbol = S>>(
    slots: &L,
    from: usize,
    code: u64,
    looks: &mut Looks<'_, B>,
    text: &str,
) -> Entry<S, Vacancy>
    //~ requires free { HasFreeSlot (L.layout.slots slots.now) }
    //~ requires fits { FitsCode L.layout
    //~     (entry_text B.numbering (B.texts looks.old.backend)) slots.now code text.now }
    //~ requires led { StepsTo (has_text (entry_text B.numbering (B.texts looks.old.backend)) text.now)
    //~     (L.layout.slots slots.now) (code % length (L.layout.slots slots.now)) (On from) }
    //~ ensures found { FindsFirst
    //~     (has_text (entry_text B.numbering (B.texts looks.old.backend)) text.now)
    //~     (L.layout.slots slots.now) code (found_by result) }
    //~ ensures vacant { NamesVacancy (L.layout.slots slots.now) code result }
    //~ ensures backend { looks.new.backend ≡ looks.old.backend }
    //~ ensures counts { looks.old.count ≤ looks.new.count }
    //~ ensures looks { looks.new.count
    //~     ≤ looks.old.count + length (probe_cluster (L.layout.slots slots.now) code) }
{
    let count = slots.len();
    let mut at = from;
    for _step in 0..count {
        match slots.step(at, code, looks, text) {
            Step::Found(symbol) => return Entry::Occupied(symbol),
            Step::Free(at) => {
                return Entry::Vacant(Vacancy {
                    code,
                    slot_count: count,
                    at,
                });
            }
            Step::On(next) => at = next,
        }
    }
    Entry::Vacant(Vacancy::by_code(code))
}

/// A whole search through the slots of a layout, for a symbol alone. It is a trait apart, so that a `find` may call what is
/// written for every [`Probe`].
pub trait Find<S: Symbol>: Sized + Probe<S> {
    /// Returns the symbol of a text with this code, if it is there: what [`probe_for`] finds, perhaps faster, since no one asks
    /// for the place of a new text.
    ///
    /// Takes at most one look more than there are symbols in the probe cluster.
    fn find<B: Store<Symbol = S>>(
        &self,
        code: u64,
        looks: &mut Looks<'_, B>,
        text: &str,
    ) -> Option<S>;
        //~ requires free { HasFreeSlot (Self.layout.slots self.now) }
        //~ requires fits { FitsCode Self.layout
        //~     (entry_text B.numbering (B.texts looks.old.backend)) self.now code text.now }
        //~ ensures found { FindsFirst
        //~     (has_text (entry_text B.numbering (B.texts looks.old.backend)) text.now)
        //~     (Self.layout.slots self.now) code result }
        //~ ensures backend { looks.new.backend ≡ looks.old.backend }
        //~ ensures counts { looks.old.count ≤ looks.new.count }
        //~ ensures looks { looks.new.count
        //~     ≤ looks.old.count + length (probe_cluster (Self.layout.slots self.now) code) + 1 };
}

impl<S: Symbol> Probe<S> for Slots<S> {
    #[inline(always)]
    fn step<B: Store<Symbol = S>>(
        &self,
        at: usize,
        _code: u64,
        looks: &mut Looks<'_, B>,
        text: &str,
    ) -> Step<S> {
        match looks.look(self, at, text) {
            None => Step::Free(at),
            Some(seen) if seen.matches => Step::Found(seen.symbol),
            Some(_) => Step::On(slot_after(at, self.len())),
        }
    }
}

impl<S: Symbol> Find<S> for Slots<S> {
    #[inline(always)]
    fn find<B: Store<Symbol = S>>(
        &self,
        code: u64,
        looks: &mut Looks<'_, B>,
        text: &str,
    ) -> Option<S> {
        probe_for(self, code, looks, text).symbol()
    }
}
