//! A hash table of symbols over any layout of its slots.

use crate::rt::prelude::*; pub mod growing;
pub mod removing;

//~ ghost use Rattle.std.specs.Prelude.{◌≡◌, ℕ, ◌+◌, ◌<◌, ◌≤◌, ◌^◌, ◌↔◌, length, take, [], Contains, Some, IsOk, IsTrue, IfOk, OnOk, OnErr};
//~ ghost use Rattle.string_interner.specs.Text.{IsDistinct};
//~ ghost use Rattle.string_interner.specs.Entry.{entry_text};
//~ ghost use Rattle.string_interner.specs.Slots.{symbols};
//~ ghost use Rattle.string_interner.specs.SlotRule.{IsLeastSlotCount, Reserves};
//~ ghost use Rattle.string_interner.specs.LoadFactor.{GrowsTo, rule_by};
//~ ghost use Rattle.string_interner.specs.Layout.{FitsCode, IsTable, KeepsFilled};
//~ ghost use Rattle.string_interner.specs.Index.{IsAbsent, SameMap};
//~ ghost use Rattle.string_interner.specs.Probe.{IsVacant};
//~ ghost use Rattle.string_interner.specs.TextIndex.{IfVacant, found_by};
//~ ghost use Rattle.string_interner.specs.Table.{FitsAll, HasRoom, Inserts, InsertsByCode, IsBounded, Moves, Refills, Removes, Seeks, entry_count, slot_count};

use crate::erased::backend::{Backend, Store};
use crate::erased::dedup::layout::Layout;
use crate::erased::dedup::probe::{Find, Vacancy, probe_for};
use crate::erased::dedup::slots::Looks;
use crate::erased::dedup::text_index::{CopyIndex, Entry, TextIndex};
use crate::erased::hash::TextHasher;
use crate::erased::symbol::Symbol;
use growing::{least_slot_count, next_slot_count, occupy, put_all, rehash};
use removing::{slot_of, vacate};
use crate::rt::alloc::{AllocError, Global};
use crate::rt::marker::{Model, PhantomData};

/// A hash index of the entries of a backend, over slots of this layout: it finds the symbol of a text.
///
/// It holds symbols and no texts, and asks the backend for the text of each symbol that a probe looks at, so it is
/// correct under every hasher. Probing is linear: from the text's home on, slot by slot, up to the first empty slot.
///
/// Its calls take a backend and a hasher that it *fits*: its symbols are of that backend's entries, with distinct
/// texts, and were put into slots under that hasher. Without entries it fits every backend and hasher.
//~ #[derive(Drop)]
pub struct Table<S: Symbol, L: Layout<S>> {
    slots: L,
    len: usize,
    put_back: usize,
    /// The greatest number of entries up to the last refill, so that an insertion need not keep it.
    peak: usize,
    alloc: Global,
    of: PhantomData<S>,
}

//~ /// Contracts see the slots, how many symbols growth moved, and the greatest number of entries so far.
//~ impl<S: Symbol, L: Layout<S>> Model for Table<S, L> {
//~     ghost use Rattle.std.specs.Prelude.{max};
//~     ghost use Rattle.string_interner.specs.Table.{IsSoundTable, TableContents};
//~
//~     ghost Value = { TableContents L };
//~
//~     ghost view = { λ t. record {
//~       slots = t.slots;
//~       put_back = t.put_back;
//~       greatest = max t.peak t.len;
//~     } };
//~
//~     ghost invariant = { λ t. IsSoundTable L.layout (record {
//~       slots = t.slots;
//~       put_back = t.put_back;
//~       greatest = max t.peak t.len;
//~     }) t.len };
//~ }

impl<S: Symbol, L: Find<S>> Table<S, L> {
    /// Makes an index without slots. Takes no memory.
    pub fn new(alloc: Global) -> Self
        //~ ensures slots { L.layout.slots result.slots ≡ [] }
        //~ ensures put_back { result.put_back ≡ 0 }
        //~ ensures greatest { result.greatest ≡ 0 }
        //~ ensures fits { FitsAll L.layout result.slots }
    {
        Table {
            slots: L::new(alloc),
            len: 0,
            put_back: 0,
            peak: 0,
            alloc,
            of: PhantomData,
        }
    }

    /// Makes an index without entries, with the least slot count that the load factor allows for `capacity` of them:
    /// none for 0, and else a power of two from 8 on. With three quarters, 8 for 6 entries and 16 for 7; with
    /// seven eighths, 8 for 7 and 16 for 8.
    ///
    /// Returns `Err` only if an allocation fails or that count does not fit a `usize`.
    pub fn with_capacity(alloc: Global, capacity: usize) -> Result<Self, AllocError>
        //~ ensures slots { IfOk result (λ index. IsLeastSlotCount (rule_by L.layout.holds) capacity
        //~     (slot_count L.layout index)) }
        //~ ensures count { IfOk result (λ index. entry_count L.layout index ≡ 0) }
        //~ ensures put_back { IfOk result (λ index. index.put_back ≡ 0) }
        //~ ensures greatest { IfOk result (λ index. index.greatest ≡ 0) }
        //~ ensures fits { IfOk result (λ index. FitsAll L.layout index.slots) }
        //~ ensures fits_usize { OnOk result (L.layout.holds (2 ^ 63) capacity) }
        //~ ensures slots_fit { IfOk result (λ index. slot_count L.layout index < 2 ^ 64) }
    {
        let count = least_slot_count::<S, L>(capacity).ok_or(AllocError)?;
        Ok(Table {
            slots: L::empty(alloc, count)?,
            len: 0,
            put_back: 0,
            peak: 0,
            alloc,
            of: PhantomData,
        })
    }

    /// Lends the slots, for what their layout does beside a search. Of every table holds what its clause `bounded` says.
    #[inline(always)]
    pub(super) fn as_slots(&self) -> &L
        //~ ensures value { result.now ≡ self.now.slots }
        //~ ensures bounded { IsBounded L.layout self.now }
    {
        &self.slots
    }

    /// Returns how many slots there are.
    ///
    /// Its clause `bounded` is what holds of every table.
    pub fn slots(&self) -> usize
        //~ ensures value { result ≡ slot_count L.layout self.now }
        //~ ensures bounded { IsBounded L.layout self.now }
    {
        // Opens the value for the proof, which needs what holds of it.
        let _ = &self.len;
        self.slots.len()
    }

    /// Returns how many symbols were moved as the table grew, since the index was made.
    pub fn put_back(&self) -> usize
        //~ ensures value { result ≡ self.now.put_back }
    {
        self.put_back
    }

    /// Returns the greatest number of entries that there were since the index was made.
    pub fn greatest(&self) -> usize
        //~ ensures value { result ≡ self.now.greatest }
    {
        self.peak.max(self.len)
    }

    /// Looks for a text with this code, and returns its symbol, or where the symbol of a text that is not there goes.
    #[inline(always)]
    fn entry<B: Store<Symbol = S>>(
        &self,
        code: u64,
        looks: &mut Looks<'_, B>,
        text: &str,
    ) -> Entry<S, Vacancy>
        //~ requires { FitsCode L.layout
        //~     (entry_text B.numbering (B.texts looks.old.backend)) self.now.slots code text.now }
        //~ ensures seeks { Seeks L.layout (entry_text B.numbering (B.texts looks.old.backend)) self.now
        //~     code text.now looks.old looks.new (found_by result) }
        //~ ensures vacant { IfVacant result (IsVacant (L.layout.slots self.now.slots) code) }
    {
        if self.slots.len() == 0 {
            return Entry::Vacant(Vacancy::by_code(code));
        }
        probe_for(&self.slots, code, looks, text)
    }

    /// Looks for a text with this code, and returns its symbol alone.
    #[inline(always)]
    fn symbol_of<B: Store<Symbol = S>>(
        &self,
        code: u64,
        looks: &mut Looks<'_, B>,
        text: &str,
    ) -> Option<S>
        //~ requires { FitsCode L.layout
        //~     (entry_text B.numbering (B.texts looks.old.backend)) self.now.slots code text.now }
        //~ ensures { Seeks L.layout (entry_text B.numbering (B.texts looks.old.backend)) self.now
        //~     code text.now looks.old looks.new result }
    {
        if self.slots.len() == 0 {
            return None;
        }
        self.slots.find(code, looks, text)
    }

    /// Returns the symbol whose text this is, if any. Hashes the text once.
    ///
    /// Takes at most one look more than there are slots in the probe cluster from the text's home on, and so at most
    /// one more than there are entries; takes none if there are no slots.
    pub fn find<H: TextHasher, B: Store<Symbol = S>>(
        &self,
        hasher: &H,
        looks: &mut Looks<'_, B>,
        text: &str,
    ) -> Option<S>
        //~ requires { L.layout.fits (entry_text B.numbering (B.texts looks.old.backend))
        //~     (H.code hasher.now) self.now.slots }
        //~ ensures { Seeks L.layout (entry_text B.numbering (B.texts looks.old.backend)) self.now
        //~     (H.code hasher.now text.now) text.now looks.old looks.new result }
    {
        self.symbol_of(hasher.hash_text(text), looks, text)
    }

    /// Makes room for one more entry: does nothing if the load factor allows one more, and else grows from no slots to
    /// 8, or to twice as many, and moves the symbols.
    ///
    /// Returns `Err` only if an allocation fails or the slot count does not fit a `usize`. Nothing changes then.
    #[inline(always)]
    pub fn reserve_one<H: TextHasher, B: Store<Symbol = S>>(
        &mut self,
        hasher: &H,
        backend: &B,
    ) -> Result<(), AllocError>
        //~ requires { L.layout.fits (entry_text B.numbering (B.texts backend.now))
        //~     (H.code hasher.now) self.old.slots }
        //~ ensures fits { L.layout.fits (entry_text B.numbering (B.texts backend.now))
        //~     (H.code hasher.now) self.new.slots }
        //~ ensures same { SameMap (entry_text B.numbering (B.texts backend.now))
        //~     (L.layout.slots self.old.slots) (L.layout.slots self.new.slots) }
        //~ ensures reserves { Reserves (rule_by L.layout.holds) (slot_count L.layout)
        //~     (entry_count L.layout) self.old result self.new }
        //~ ensures moved { ¬ HasRoom L.layout self.old
        //~     → OnOk result (Moves L.layout self.old self.new) }

        // An interner makes room between a look-up and the insertion.
        //~ ensures vacant { (code : ℕ) (vacancy : Vacancy)
        //~     → IsVacant (L.layout.slots self.old.slots) code vacancy
        //~     → IsVacant (L.layout.slots self.new.slots) code vacancy }
    {
        if self.has_room() {
            return Ok(());
        }
        let count = next_slot_count(self.slots.len()).ok_or(AllocError)?;
        // The bigger slots are filled before the old ones go, so that nothing changes on `Err`.
        let bigger = rehash(&mut self.slots, count, hasher, backend, self.alloc)?;
        self.grow(bigger);
        Ok(())
    }

    /// Adds the symbol of an entry whose text is not in the index. There must be room for one more. Allocates nothing.
    pub fn insert<H: TextHasher, B: Store<Symbol = S>>(
        &mut self,
        hasher: &H,
        backend: &B,
        symbol: S,
    )
        //~ requires fits { L.layout.fits (entry_text B.numbering (B.texts backend.now))
        //~     (H.code hasher.now) self.old.slots }
        //~ requires room { HasRoom L.layout self.old }
        //~ requires absent { IsAbsent (entry_text B.numbering (B.texts backend.now))
        //~     (L.layout.slots self.old.slots) symbol }
        //~ ensures { Inserts L.layout (entry_text B.numbering (B.texts backend.now))
        //~     (H.code hasher.now) self.old self.new symbol }
    {
        let text = backend.resolve_unchecked(symbol);
        Table::insert_at(self, Vacancy::by_code(hasher.hash_text(text)), symbol);
    }

    /// Removes the symbol of an entry, and returns `true`. As many slots stay. Allocates nothing. What is compiled without a proof
    /// returns `false`, and changes nothing, if a hasher that panicked before has left the symbol without a slot.
    ///
    /// Costs one look-up, in which `Slots` hash each text that it passes, and a hash code of each symbol behind it in its probe
    /// cluster.
    pub fn remove<H: TextHasher, B: Store<Symbol = S>>(
        &mut self,
        hasher: &H,
        backend: &B,
        symbol: S,
    ) -> bool
        //~ requires fits { L.layout.fits (entry_text B.numbering (B.texts backend.now))
        //~     (H.code hasher.now) self.old.slots }
        //~ requires there { Contains (L.layout.slots self.old.slots) (Some symbol) }
        //~ ensures done { IsTrue result }
        //~ ensures removes { Removes L.layout (entry_text B.numbering (B.texts backend.now))
        //~     (H.code hasher.now) self.old self.new symbol }
    {
        let code = hasher.hash_text(backend.resolve_unchecked(symbol));
        let Some(at) = slot_of(&mut self.slots, symbol, code, hasher, backend) else {
            return false;
        };
        vacate(&mut self.slots, at, symbol, code, hasher, backend);
        self.peak = self.peak.max(self.len);
        self.len -= 1;
        true
    }

    /// Removes the symbols of all texts of the backend from the index `len` on, as `remove` does, and returns `true`.
    fn remove_last<H: TextHasher, B: Backend<Symbol = S>>(
        &mut self,
        hasher: &H,
        backend: &B,
        len: usize,
    ) -> bool
        //~ requires whole { IsTable L.layout (entry_text B.numbering (B.texts backend.now))
        //~     (H.code hasher.now) self.old.slots }
        //~ requires within { len ≤ length (B.texts backend.now) }
        //~ ensures done { IsTrue result }
        //~ ensures whole { IsTable L.layout
        //~     (entry_text B.numbering (take len (B.texts backend.now)))
        //~     (H.code hasher.now) self.new.slots }
        //~ ensures count { entry_count L.layout self.new + length (B.texts backend.now)
        //~     ≡ entry_count L.layout self.old + len }
        //~ ensures slots { slot_count L.layout self.new ≡ slot_count L.layout self.old }
    {
        let mut at = backend.place_of(len);
        for _entry in len..backend.count() {
            let (symbol, _text, next) = backend.entry_at(at);
            if !Table::remove(self, hasher, backend, symbol) {
                return false;
            }
            at = next;
        }
        true
    }

    /// Empties all slots, and adds the symbol of every entry of the backend, whose texts are distinct and within the
    /// load factor. Takes no memory: as many slots stay, and none of it counts as growth.
    pub fn refill<H: TextHasher, B: Backend<Symbol = S>>(&mut self, hasher: &H, backend: &B)
        //~ requires distinct { IsDistinct (B.texts backend.now) }
        //~ requires room { L.layout.holds (slot_count L.layout self.old)
        //~     (length (B.texts backend.now)) }
        //~ ensures { Refills L.layout (entry_text B.numbering (B.texts backend.now))
        //~     (H.code hasher.now) self.old self.new (length (B.texts backend.now)) }
    {
        self.slots.clear();
        self.peak = self.peak.max(self.len);
        self.len = backend.count();
        put_all(&mut self.slots, hasher, backend);
    }

    /// Adds the symbol of a text that was not found. There must be room for one more. Hashes and allocates nothing.
    #[inline(always)]
    fn insert_at(&mut self, vacancy: Vacancy, symbol: S)
        //~ requires room { HasRoom L.layout self.old }
        //~ requires vacant { IsVacant (L.layout.slots self.old.slots) vacancy.code vacancy }
        //~ ensures inserts { InsertsByCode L.layout vacancy.code self.old self.new symbol }
        //~ ensures kept { KeepsFilled L.layout self.old.slots self.new.slots }
        //~ ensures count { entry_count L.layout self.new ≡ entry_count L.layout self.old + 1 }
        //~ ensures slots { slot_count L.layout self.new ≡ slot_count L.layout self.old }
    {
        occupy(&mut self.slots, vacancy, symbol);
        self.len += 1;
    }

    /// Reports whether the load factor allows one more entry.
    #[inline]
    fn has_room(&self) -> bool
        //~ ensures { IsTrue result ↔ HasRoom L.layout self.now }
    {
        L::has_room(self.slots.len(), self.len)
    }

    /// Moves to bigger slots, into which all symbols were moved.
    #[inline(never)]
    fn grow(&mut self, bigger: L)
        //~ requires full { ¬ HasRoom L.layout self.old }
        //~ requires count { GrowsTo (slot_count L.layout self.old) (length (L.layout.slots bigger)) }
        //~ requires symbols { length (symbols (L.layout.slots bigger))
        //~     ≡ entry_count L.layout self.old }
        //~ requires small { length (L.layout.slots bigger) < 2 ^ 64 }
        //~ ensures slots { self.new.slots ≡ bigger }
        //~ ensures moved { Moves L.layout self.old self.new }
        //~ ensures room { HasRoom L.layout self.new }
    {
        self.slots = bigger;
        self.put_back += self.len;
    }
}

impl<S: Symbol, L: Find<S>> TextIndex<S> for Table<S, L> {
    //~ ghost use Rattle.string_interner.specs.Layout.{IsTable};
    //~ ghost use Rattle.string_interner.specs.LoadFactorLaws.{rule_by-laws};

    type Vacancy = Vacancy;

    //~ ghost indexes = { λ index entry code. IsTable L.layout entry code index.slots };

    //~ ghost entries = { λ index. entry_count L.layout index };

    //~ ghost slots = { λ index. slot_count L.layout index };

    //~ ghost rule = { rule_by L.layout.holds };

    //~ ghost is_vacant = { λ index code vacancy. IsVacant (L.layout.slots index.slots) code vacancy };

    fn new(alloc: Global) -> Self {
        Table::new(alloc)
    }

    fn with_capacity(alloc: Global, capacity: usize) -> Result<Self, AllocError> {
        Table::with_capacity(alloc, capacity)
    }

    fn allocator(&self) -> Global {
        self.alloc
    }

    #[inline]
    fn len(&self) -> usize {
        self.len
    }

    #[inline(always)]
    fn entry<B: Store<Symbol = S>>(&self, code: u64, backend: &B, text: &str) -> Entry<S, Vacancy> {
        Table::entry(self, code, &mut Looks::new(backend), text)
    }

    #[inline(always)]
    fn find<B: Store<Symbol = S>>(&self, code: u64, backend: &B, text: &str) -> Option<S> {
        self.symbol_of(code, &mut Looks::new(backend), text)
    }

    #[inline(always)]
    fn guess<B: Store<Symbol = S>>(&self, code: u64, backend: &B) -> Option<S> {
        if self.slots.len() == 0 {
            return None;
        }
        self.slots.guess(code, backend)
    }

    #[inline(always)]
    fn reserve_one<H: TextHasher, B: Store<Symbol = S>>(
        &mut self,
        hasher: &H,
        backend: &B,
    ) -> Result<(), AllocError> {
        Table::reserve_one(self, hasher, backend)
    }

    #[inline(always)]
    fn insert_at(&mut self, vacancy: Vacancy, symbol: S) {
        Table::insert_at(self, vacancy, symbol);
    }

    fn refill<H: TextHasher, B: Backend<Symbol = S>>(&mut self, hasher: &H, backend: &B) {
        Table::refill(self, hasher, backend);
    }

    /// Removes if at least eight times as many texts stay as go. Otherwise it costs less to fill the index anew.
    fn remove_from<H: TextHasher, B: Backend<Symbol = S>>(
        &mut self,
        hasher: &H,
        backend: &B,
        len: usize,
    ) -> bool {
        if backend.count() - len > len / 8 {
            return false;
        }
        self.remove_last(hasher, backend, len)
    }

    //~ ghost rule_laws = { rule_by-laws L.layout.holds L.layout_laws.load };
}

impl<S: Symbol, L: Find<S>> CopyIndex<S> for Table<S, L> {
    fn try_copy(&self) -> Result<Self, AllocError> {
        Ok(Table {
            slots: self.slots.try_copy()?,
            len: self.len,
            put_back: self.put_back,
            peak: self.peak,
            alloc: self.alloc,
            of: PhantomData,
        })
    }
}
