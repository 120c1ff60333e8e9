//! What an interner asks of an index of its texts.

//~ ghost use Rattle.std.specs.Prelude.{◌≡◌, ℕ, ◌+◌, ◌<◌, ◌≤◌, ◌^◌, length, take, Option, None, IsOk, IsSome, IsTrue, IfOk, IfSome, OnOk, OnErr};
//~ ghost use Rattle.string_interner.specs.Text.{Text, IsDistinct};
//~ ghost use Rattle.string_interner.specs.Entry.{entry_text};
//~ ghost use Rattle.string_interner.specs.SlotRule.{SlotRule, IsLoaded, IsLeastSlotCount, IsSlotRule, Reserves};
//~ ghost use Rattle.string_interner.specs.TextIndex.{AddsEntry, FindsEntry, HasCode, IfVacant, found_by};

use crate::rt::prelude::*; use crate::erased::backend::{Backend, Store};
use crate::erased::hash::TextHasher;
use crate::erased::symbol::Symbol;
use crate::rt::alloc::{AllocError, Global};

/// What a look-up found.
//~ #[derive(Drop)]
pub enum Entry<S, V> {
    /// The text is that of this symbol.
    Occupied(S),
    /// The text is new, and its symbol goes here.
    Vacant(V),
}

impl<S, V: Drop> Entry<S, V> {
    /// Returns the symbol, if the text was found.
    #[inline(always)]
    pub fn symbol(self) -> Option<S>
        //~ ensures { result ≡ found_by self }
    {
        match self {
            Entry::Occupied(symbol) => Some(symbol),
            Entry::Vacant(_) => None,
        }
    }
}

/// A map from the texts of a backend's entries to their symbols: what an interner asks of its index.
///
/// An index holds symbols, and asks the backend for their texts. It counts its slots by a rule of its own: which slot
/// counts there are, how many entries these hold, and what they grow to. [`DefaultIndex`](super::DefaultIndex) is the one
/// that an interner has if no other is named.
///
/// Its calls take the backend of the entries that it has, and their hasher or the code that it gives the text.
pub trait TextIndex<S: Symbol>: Sized {
    /// Where the symbol of a text goes that was not found.
    type Vacancy: Drop;

    //~ /// The index has the text of each entry under its symbol, and nothing else, under a hasher with these codes.
    //~ ghost indexes: { Self → (S → Option Text) → (Text → ℕ) → Type 0 };

    //~ /// How many entries there are.
    //~ ghost entries: { Self → ℕ };

    //~ /// How many slots there are.
    //~ ghost slots: { Self → ℕ };

    //~ /// How slots are counted.
    //~ ghost rule: { SlotRule };

    //~ /// The symbol of a text with this code goes there.
    //~ ghost is_vacant: { Self → ℕ → Self.Vacancy → Type 0 };

    /// Makes an index without slots. Takes no memory.
    fn new(alloc: Global) -> Self;
        //~ ensures slots { slots result ≡ 0 }
        //~ ensures count { entries result ≡ 0 }
        //~ ensures empty { (code : Text → ℕ) → indexes result (λ _. None) code };

    /// Makes an index without entries, with the least slot count that the load factor allows for `capacity` of them.
    ///
    /// Returns `Err` only if an allocation fails or that count does not fit a `usize`.
    fn with_capacity(alloc: Global, capacity: usize) -> Result<Self, AllocError>;
        //~ ensures slots { IfOk result (λ index. IsLeastSlotCount rule capacity (slots index)) }
        //~ ensures count { IfOk result (λ index. entries index ≡ 0) }
        //~ ensures empty { IfOk result (λ index. (code : Text → ℕ) → indexes index (λ _. None) code) }
        //~ ensures slots_fit { IfOk result (λ index. slots index < 2 ^ 64) };

    /// Returns the allocator that the index was made with.
    fn allocator(&self) -> Global;

    /// Returns how many entries there are.
    fn len(&self) -> usize;
        //~ ensures value { result ≡ entries self.now }

        // What holds of every index.
        //~ ensures loaded { IsLoaded rule (slots self.now) (entries self.now) };

    /// Looks up a text with this code. Returns its symbol or, if it is new, where its symbol goes, which `insert_at` takes.
    /// [`TextIndex::find`] returns a symbol alone.
    fn entry<B: Store<Symbol = S>>(
        &self,
        code: u64,
        backend: &B,
        text: &str,
    ) -> Entry<S, Self::Vacancy>;
        //~ requires { HasCode (indexes self.now) B.numbering (B.texts backend.now) code text.now }
        //~ ensures found { FindsEntry (entry_text B.numbering (B.texts backend.now)) text.now
        //~     (found_by result) }
        //~ ensures vacant { IfVacant result (is_vacant self.now code) };

    /// Looks a text up, which has this code, and returns its symbol: `Some` exactly if an entry has the text.
    ///
    /// It is for a text that is not inserted if it is new. A [`TaggedIndex`](super::TaggedIndex) finds it faster than by
    /// `entry`, since it need not tell where the symbol of a new text goes. By default it asks `entry`.
    #[inline(always)]
    fn find<B: Store<Symbol = S>>(&self, code: u64, backend: &B, text: &str) -> Option<S>
        //~ requires { HasCode (indexes self.now) B.numbering (B.texts backend.now) code text.now }
        //~ ensures { FindsEntry (entry_text B.numbering (B.texts backend.now)) text.now result }
    {
        self.entry(code, backend, text).symbol()
    }

    /// Returns the symbol that a look-up of a text with this code is likely to find, if any. Reads no text, so the symbol
    /// may have another one; but it is that of an entry.
    ///
    /// To look up many texts, ask for all guesses first, and then read the texts of the symbols, so that they wait for
    /// memory at the same time. By default there is no guess.
    fn guess<B: Store<Symbol = S>>(&self, code: u64, backend: &B) -> Option<S>
        //~ requires { (of : Text → ℕ)
        //~     × indexes self.now (entry_text B.numbering (B.texts backend.now)) of }
        //~ ensures { IfSome result (λ symbol.
        //~     IsSome (entry_text B.numbering (B.texts backend.now) symbol)) }
    {
        let _ = code;
        let _ = backend;
        None
    }

    /// Makes room for one more entry: does nothing if the load factor allows one more, and else grows once.
    ///
    /// Returns `Err` only if an allocation fails or the slot count does not fit a `usize`. Nothing changes then.
    fn reserve_one<H: TextHasher, B: Store<Symbol = S>>(
        &mut self,
        hasher: &H,
        backend: &B,
    ) -> Result<(), AllocError>;
        //~ requires { indexes self.old (entry_text B.numbering (B.texts backend.now))
        //~     (H.code hasher.now) }
        //~ ensures same { indexes self.new (entry_text B.numbering (B.texts backend.now))
        //~     (H.code hasher.now) }
        //~ ensures reserves { Reserves rule slots entries self.old result self.new }

        // An interner makes room between a look-up and the insertion.
        //~ ensures vacant { (code : ℕ) (vacancy : Self.Vacancy) → is_vacant self.old code vacancy
        //~     → is_vacant self.new code vacancy };

    /// Adds the symbol of a text that was not found. There must be room for one more. Allocates nothing.
    fn insert_at(&mut self, vacancy: Self::Vacancy, symbol: S);
        //~ requires room { rule.holds (slots self.old) (entries self.old + 1) }
        //~ requires vacant { (code : ℕ) × is_vacant self.old code vacancy }
        //~ ensures adds { (entry more : S → Option Text) (code : Text → ℕ) (text : Text)
        //~     → AddsEntry entry more symbol text
        //~     → indexes self.old entry code → is_vacant self.old (code text) vacancy
        //~     → indexes self.new more code }
        //~ ensures count { entries self.new ≡ entries self.old + 1 }
        //~ ensures slots { slots self.new ≡ slots self.old };

    /// Empties all slots, and adds the symbol of every entry of the backend, whose texts are distinct and within the
    /// load factor. Takes no memory: as many slots stay.
    fn refill<H: TextHasher, B: Backend<Symbol = S>>(&mut self, hasher: &H, backend: &B);
        //~ requires distinct { IsDistinct (B.texts backend.now) }
        //~ requires room { rule.holds (slots self.old) (length (B.texts backend.now)) }
        //~ ensures whole { indexes self.new (entry_text B.numbering (B.texts backend.now))
        //~     (H.code hasher.now) }
        //~ ensures count { entries self.new ≡ length (B.texts backend.now) }
        //~ ensures slots { slots self.new ≡ slots self.old };

    /// Removes the symbols of all texts of the backend from the index `len` on, and reports whether it did: an index may leave
    /// it to a `refill` once the backend has forgotten these texts, as it does by default. As many slots stay. Allocates nothing.
    fn remove_from<H: TextHasher, B: Backend<Symbol = S>>(
        &mut self,
        hasher: &H,
        backend: &B,
        len: usize,
    ) -> bool
        //~ requires whole { indexes self.old (entry_text B.numbering (B.texts backend.now))
        //~     (H.code hasher.now) }
        //~ requires count { entries self.old ≡ length (B.texts backend.now) }
        //~ requires within { len ≤ length (B.texts backend.now) }
        //~ ensures whole { IsTrue result
        //~     → indexes self.new (entry_text B.numbering (take len (B.texts backend.now)))
        //~     (H.code hasher.now) }
        //~ ensures count { IsTrue result → entries self.new ≡ len }
        //~ ensures slots { slots self.new ≡ slots self.old }
        //~ ensures same { ¬ IsTrue result → self.new ≡ self.old }
    {
        let _ = hasher;
        let _ = backend;
        let _ = len;
        false
    }

    //~ /// The rule keeps its laws.
    //~ ghost rule_laws: { IsSlotRule rule };
}

/// An index that can be copied.
pub trait CopyIndex<S: Symbol>: Sized + TextIndex<S> {
    /// Returns an equal index. Hashes and reads no text. Returns `Err` only if an allocation fails.
    fn try_copy(&self) -> Result<Self, AllocError>;
        //~ ensures { IfOk result (λ copy. copy ≡ self.now) };
}
