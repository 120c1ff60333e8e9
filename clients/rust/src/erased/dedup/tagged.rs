//! Slots with a tag and 32 bits of a code beside each symbol.

use crate::rt::prelude::*; pub(super) mod tags;

//~ ghost use Rattle.std.specs.Prelude.{◌≡◌, ◌≢◌, ◌+◌, ◌<◌, ◌≤◌, ◌%◌, ℕ, length, slice_index_or, replicate, vec_capacity, vec_len, IfNone, IfSome, None, Some, option_map};
//~ ghost use Rattle.string_interner.specs.Entry.{entry_text};
//~ ghost use Rattle.string_interner.specs.Slots.{probe_cluster, symbols};
//~ ghost use Rattle.string_interner.specs.Index.{has_text};
//~ ghost use Rattle.string_interner.specs.Layout.{Fills, FitsCode};
//~ ghost use Rattle.string_interner.specs.Probe.{FindsFirst, HasFreeSlot, StepsTo};
//~ ghost use Rattle.string_interner.specs.Tagged.{HasAnotherTag, pair_of, symbols_in, tag_of, tagged_layout};
//~ ghost use Rattle.string_interner.specs.Table.{slot_count};
//~ ghost use Rattle.string_interner.specs.declared.dedup.probe.Step.TheVariants.{On};

use crate::erased::backend::Store;
use crate::erased::dedup::index::TaggedIndex;
use crate::erased::dedup::layout::Layout;
use crate::erased::dedup::probe::{Find, Probe, Step, home_of, probe_on, slot_after};
use crate::erased::dedup::slots::Looks;
use crate::erased::hash::TextHasher;
use crate::erased::symbol::Symbol;
use crate::rt::alloc::{AllocError, Global};
use crate::rt::marker::Model;
use tags::{LANES, lanes_passed, stored_code, tag_of};

/// Up to this slot count a home is known by the 32 bits of a stored code.
pub(super) const MOST_SLOTS_BY_STORED_CODE: u64 = 0x1_0000_0000;

/// A symbol and the stored code of its text, which lie together because whoever writes or moves one does so with both.
#[derive(Clone, Copy)]
pub(super) struct CodedSymbol<S> {
    pub(super) symbol: S,
    pub(super) code: u32,
}

/// Slots with a tag and 32 bits of a code beside each symbol, at most seven eighths of which are filled.
///
/// A slot is empty if its tag is 0; what else is stored of it says nothing then. Sixteen more tags stand behind those
/// of the slots, so that sixteen can be read from each slot on. They are 0, so none of them is passed.
///
/// The list of symbols with their codes is empty until the first one is put, which is then written to all slots at
/// once; its memory is asked for with that of the tags. So no symbol is made up for an empty slot, and a symbol type
/// need not have the number 0, or any other.
//~ #[derive(Drop)]
pub struct TaggedSlots<S: Symbol> {
    count: usize,
    items: Vec<CodedSymbol<S>>,
    tags: Vec<u8>,
}

//~ /// Contracts see the list of slots, each empty or with a symbol and its stored code.
//~ impl<S: Symbol> Model for TaggedSlots<S> {
//~     ghost use Rattle.std.specs.Prelude.{vec_capacity};
//~     ghost use Rattle.string_interner.specs.Tagged.{IsTagged, TaggedContents, slots_of};
//~
//~     ghost Value = { TaggedContents S };
//~
//~     ghost view = { λ s. slots_of s.count s.tags.items s.items.items };
//~
//~     ghost invariant = { λ s. IsTagged s.count s.tags.items s.items.items (vec_capacity s.items) };
//~ }

/// Fills an empty list up to `count` with this item. Allocates nothing, since the capacity is there.
#[inline(never)]
fn fill_empty<S: Symbol>(items: &mut Vec<CodedSymbol<S>>, count: usize, item: CodedSymbol<S>)
    //~ requires room { count ≤ vec_capacity items.old }
    //~ requires empty { vec_len items.old ≡ 0 }
    //~ ensures filled { items.new.items ≡ replicate count item }
    //~ ensures capacity { vec_capacity items.old ≤ vec_capacity items.new }
{
    let _ = items.resize(count, item);
}

/// Fills the list up to `count` with this item if it has none. Allocates nothing, since the capacity is there.
#[inline(always)]
fn fill_items<S: Symbol>(items: &mut Vec<CodedSymbol<S>>, count: usize, item: CodedSymbol<S>)
    //~ requires room { count ≤ vec_capacity items.old }
    //~ ensures filled { vec_len items.old ≡ 0 → items.new.items ≡ replicate count item }
    //~ ensures same { 0 < vec_len items.old → items.new.items ≡ items.old.items }
    //~ ensures capacity { vec_capacity items.old ≤ vec_capacity items.new }
{
    if items.is_empty() {
        fill_empty(items, count, item);
    }
}

/// Has the processor fetch an item, so that whoever reads it soon waits less. Does nothing here: `tools/erase` gives it a body.
#[inline(always)]
fn ask_for<T>(_items: &[T], _at: usize) { crate::unchecked::ask_for(_items, _at) }

impl<S: Symbol> TaggedSlots<S> {
    /// Returns what is in a slot, if anything.
    #[inline(always)]
    fn item_at(&self, at: usize) -> Option<CodedSymbol<S>>
        //~ requires { at < length self.now }
        //~ ensures { result ≡ slice_index_or self.now at None }
    {
        if self.tags[at] == 0 {
            return None;
        }
        Some(self.items[at])
    }

    /// Returns what is in a slot, if it has this tag. The slot behind the last one has none.
    #[inline(always)]
    fn item_with(&self, at: usize, tag: u8) -> Option<CodedSymbol<S>>
        //~ requires within { at ≤ length self.now }
        //~ requires some { 0 < length self.now }
        //~ requires set { 0 < tag }
        //~ ensures within { IfSome result (λ item. at < length self.now) }
        //~ ensures filled { IfSome result (λ item. slice_index_or self.now at None ≡ Some item) }
        //~ ensures other { IfNone result ((item : CodedSymbol S)
        //~     → slice_index_or self.now at None ≡ Some item → tag_of item.code ≢ tag) }
    {
        if *unsafe { self.tags.at_unchecked(at) } == tag {
            return Some(*unsafe { self.items.at_unchecked(at) });
        }
        None
    }

    /// Returns the first slot from `at` on that is empty or has this tag, as far as sixteen tags tell: the slot behind
    /// them if none of these is, and the slot count if the slots end before. All slots that it passes have other tags.
    #[inline(always)]
    fn pass(&self, at: usize, tag: u8) -> usize
        //~ requires { at < length self.now }
        //~ ensures from { at ≤ result }
        //~ ensures within { result ≤ length self.now }
        //~ ensures passed { (k : ℕ) → at ≤ k → k < result → HasAnotherTag self.now tag k }
    {
        at + lanes_passed(&self.tags, at, tag)
    }

    /// Puts the symbol of a text with this code into the first empty slot from its home on. Filled slots are passed up to
    /// sixteen at once. Few symbols come here, so it is a call.
    #[inline(never)]
    fn put_behind(&mut self, home: usize, symbol: S, code: u64)
        //~ requires home { home < length (symbols_in self.old) }
        //~ requires free { length (symbols (symbols_in self.old)) < length (symbols_in self.old) }
        //~ ensures { Fills tagged_layout self.old self.new home symbol code }
    {
        let count = self.len();
        let mut at = home;
        for _step in 0..count {
            let reached = self.pass(at, 0);
            if reached == count {
                at = 0;
            } else if self.item_at(reached).is_none() {
                self.set(reached, symbol, code);
                return;
            } else {
                at = slot_after(reached, count);
            }
        }
    }

    /// Takes the step that [`Probe::step`] promises. Slots of other tags are passed without a look, up to sixteen at once.
    #[inline(always)]
    fn reach<B: Store<Symbol = S>>(
        &self,
        at: usize,
        code: u64,
        looks: &mut Looks<'_, B>,
        text: &str,
    ) -> Step<S>
        //~ requires within { at < length (symbols_in self.now) }
        //~ requires fits { FitsCode tagged_layout
        //~     (entry_text B.numbering (B.texts looks.old.backend)) self.now code text.now }
        //~ ensures leads { StepsTo
        //~     (has_text (entry_text B.numbering (B.texts looks.old.backend)) text.now)
        //~     (symbols_in self.now) at result }
        //~ ensures backend { looks.new.backend ≡ looks.old.backend }
        //~ ensures counts { looks.old.count ≤ looks.new.count }
        //~ ensures looks { looks.new.count ≤ looks.old.count + 1 }
    {
        let count = self.len();
        let tag = tag_of(stored_code(code));
        let reached = self.pass(at, tag);
        // A known text is most often here, so what else may stop a step is tested behind it.
        match self.item_with(reached, tag) {
            Some(item) if looks.has_text(item.symbol, text) => Step::Found(item.symbol),
            Some(_) => Step::On(slot_after(reached, count)),
            None if reached == count => Step::On(0),
            None if self.item_at(reached).is_none() => Step::Free(reached),
            None => Step::On(slot_after(reached, count)),
        }
    }

    /// Goes on with a search, whose first step led on to slot `from`. Few texts come here, so it is a call.
    #[cold]
    #[inline(never)]
    fn find_on<B: Store<Symbol = S>>(
        &self,
        from: usize,
        code: u64,
        looks: &mut Looks<'_, B>,
        text: &str,
    ) -> Option<S>
        //~ requires free { HasFreeSlot (symbols_in self.now) }
        //~ requires fits { FitsCode tagged_layout
        //~     (entry_text B.numbering (B.texts looks.old.backend)) self.now code text.now }
        //~ requires led { StepsTo
        //~     (has_text (entry_text B.numbering (B.texts looks.old.backend)) text.now)
        //~     (symbols_in self.now) (code % length (symbols_in self.now)) (On from) }
        //~ ensures found { FindsFirst
        //~     (has_text (entry_text B.numbering (B.texts looks.old.backend)) text.now)
        //~     (symbols_in self.now) code result }
        //~ ensures backend { looks.new.backend ≡ looks.old.backend }
        //~ ensures counts { looks.old.count ≤ looks.new.count }
        //~ ensures looks { looks.new.count
        //~     ≤ looks.old.count + length (probe_cluster (symbols_in self.now) code) }
    {
        probe_on(self, from, code, looks, text).symbol()
    }
}

/// Returns what is in a slot of an index, if anything: a symbol, and the low 32 bits of the hash code of its text. With these another
/// index of the same texts, of at most 2^32 slots, is filled without hashing them.
///
/// ```ignore
/// let coded = coded_symbol(names.index(), 0); // None, or a symbol with its code
/// ```
pub fn coded_symbol<S: Symbol>(index: &TaggedIndex<S>, at: usize) -> Option<(S, u32)>
    //~ requires { at < slot_count tagged_layout index.now }
    //~ ensures { result ≡ option_map pair_of (slice_index_or index.now.slots at None) }
{
    match index.as_slots().item_at(at) {
        Some(item) => Some((item.symbol, item.code)),
        None => None,
    }
}

impl<S: Symbol> Layout<S> for TaggedSlots<S> {
    //~ ghost use Rattle.string_interner.specs.Tagged.{tagged_layout};
    //~ ghost use Rattle.string_interner.specs.LayoutLaws.{tagged_layout-laws};

    //~ ghost layout = { tagged_layout };

    #[inline(always)]
    fn has_room(count: usize, entries: usize) -> bool {
        // Seven eighths, since a slot count is a multiple of 8.
        entries < count - count / 8
    }

    fn new(alloc: Global) -> Self {
        TaggedSlots {
            count: 0,
            items: Vec::new(alloc),
            tags: Vec::new(alloc),
        }
    }

    fn empty(alloc: Global, count: usize) -> Result<Self, AllocError> {
        if count == 0 {
            return Ok(TaggedSlots::new(alloc));
        }
        Ok(TaggedSlots {
            count,
            items: Vec::with_capacity(alloc, count)?,
            tags: Vec::from_elem(alloc, 0u8, count + LANES)?,
        })
    }

    fn try_copy(&self) -> Result<Self, AllocError> {
        let alloc = *self.items.allocator();
        // While no symbol was put this list is empty, and yet has the capacity for all slots.
        let mut items = Vec::with_capacity(alloc, self.count)?;
        items.extend_from_slice(&self.items)?;
        Ok(TaggedSlots {
            count: self.count,
            items,
            tags: Vec::from_slice(alloc, &self.tags)?,
        })
    }

    #[inline(always)]
    fn len(&self) -> usize {
        self.count
    }

    #[inline(always)]
    fn rehash_slot<H: TextHasher, B: Store<Symbol = S>>(
        &mut self,
        at: usize,
        count: usize,
        hasher: &H,
        backend: &B,
    ) -> Option<(u64, S)> {
        let item = self.item_at(at)?;
        if count as u64 <= MOST_SLOTS_BY_STORED_CODE {
            return Some((u64::from(item.code), item.symbol));
        }
        Some((
            hasher.hash_text(backend.resolve_unchecked(item.symbol)),
            item.symbol,
        ))
    }

    #[inline(always)]
    fn guess<B: Store<Symbol = S>>(&self, code: u64, _backend: &B) -> Option<S> {
        let tag = tag_of(stored_code(code));
        let reached = self.pass(home_of(code, self.len()), tag);
        Some(self.item_with(reached, tag)?.symbol)
    }

    #[inline(always)]
    fn set(&mut self, at: usize, symbol: S, code: u64) {
        let code = stored_code(code);
        let item = CodedSymbol { symbol, code };
        fill_items(&mut self.items, self.count, item);
        self.items[at] = item;
        self.tags[at] = tag_of(code);
    }

    #[inline(always)]
    fn unset(&mut self, at: usize) {
        self.tags[at] = 0;
    }

    #[inline(always)]
    fn put(&mut self, home: usize, symbol: S, code: u64) {
        // When a table grows, most homes are empty, which one tag tells.
        if self.item_at(home).is_none() {
            self.set(home, symbol, code);
        } else {
            self.put_behind(home, symbol, code);
        }
    }

    fn clear(&mut self) {
        self.tags.fill(0);
    }

    //~ ghost layout_laws = { tagged_layout-laws };
}

impl<S: Symbol> Probe<S> for TaggedSlots<S> {
    /// Asks for the symbol of the first slot before the tags are read: of a known text it is most often the one that is compared.
    #[inline(always)]
    fn step<B: Store<Symbol = S>>(
        &self,
        at: usize,
        code: u64,
        looks: &mut Looks<'_, B>,
        text: &str,
    ) -> Step<S> {
        ask_for(&self.items, at);
        self.reach(at, code, looks, text)
    }
}

impl<S: Symbol> Find<S> for TaggedSlots<S> {
    /// Nearly all searches end with their first step, and most others by the tags of the next sixteen slots.
    #[inline(always)]
    fn find<B: Store<Symbol = S>>(
        &self,
        code: u64,
        looks: &mut Looks<'_, B>,
        text: &str,
    ) -> Option<S> {
        let count = self.len();
        // An unknown text most often ends here by the tags alone, so nothing else is asked for.
        match self.reach(home_of(code, count), code, looks, text) {
            Step::Found(symbol) => Some(symbol),
            Step::Free(_) => None,
            Step::On(from) => {
                let stop = self.pass(from, tag_of(stored_code(code)));
                if stop < count && self.item_at(stop).is_none() {
                    return None;
                }
                self.find_on(from, code, looks, text)
            }
        }
    }
}
