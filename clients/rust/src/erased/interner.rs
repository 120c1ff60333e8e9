//! An interner: each text once, with the symbol that stands for it.

use crate::rt::prelude::*; pub mod extend;
pub mod given;
pub mod intern_all;
pub mod intern_slice;
pub mod look_ahead;
pub mod new_text;
pub mod part;
pub mod touch;

//~ ghost use Rattle.std.specs.Prelude.{◌≡◌, ℕ, ◌≤◌, ◌&&◌, ◌↔◌, List, [], ◌∷◌, length, take, IsTrue, IsSome, IfOk, IfSome, Some, None};
//~ ghost use Rattle.std.specs.Option.{option_copied};
//~ ghost use Rattle.std.specs.Cmp.{partial_equiv_from_equiv, on_equiv};
//~ ghost use Rattle.string_interner.specs.Text.{Text, first, texts_eq, texts_eq-IsEquivalence};
//~ ghost use Rattle.string_interner.specs.Iter.{iter_over};
//~ ghost use Rattle.string_interner.specs.Backend.{IsPlace};
//~ ghost use Rattle.string_interner.specs.Interner.{IsInternerList, contents_of, Finds, HasLeastSlots, HoldsOfEvery, InternerContents, InternsInto, IsCopyOf, IsMadeFor, IsNew, KeepsMemory, Resolves};
//~ ghost use Rattle.string_interner.specs.StandsFor.{StandsFor};
//~ ghost use Rattle.string_interner.specs.Given.{given_text};

use crate::erased::backend::{Backend, CopyBackend, InternError, Iter, Store};
use crate::erased::dedup::{CopyIndex, DefaultIndex, Entry, TextIndex};
use crate::erased::equal_texts::texts_are_equal;
use crate::erased::hash::{CopyHasher, DefaultHashBuilder, TextHasher};
use crate::erased::symbol::Symbol;
use given::Given;
pub use intern_slice::Stopped;
pub use look_ahead::{BLOCK_LEN, FEWEST_FOR_BLOCKS};
use new_text::intern_coded;
use crate::rt::alloc::{AllocError, Global};
use crate::rt::marker::Model;
use crate::rt::mem::replace;

/// A list of distinct texts over a backend, each found by its text and by its symbol.
///
/// Texts are looked up in an index of the entries, which is correct under every hasher. The last type parameter chooses
/// it; slots are counted by its rule.
///
/// ```ignore
/// let mut names = <DefaultStringInterner>::new(alloc);
/// let width = names.get_or_intern("width")?;
/// let same = names.get_or_intern("width")? == width; // true
/// let text = names.resolve(width); // Some("width")
/// let unknown = names.get("height"); // None
/// ```
//~ #[derive(Drop)]
pub struct StringInterner<
    B: Store,
    H = DefaultHashBuilder,
    I: TextIndex<B::Symbol> = DefaultIndex<<B as Store>::Symbol>,
> {
    backend: B,
    hasher: H,
    index: I,
}

//~ /// Contracts see the texts, the buckets and the room of the backend, and the count of slots.
//~ impl<B: Store, H: TextHasher, I: TextIndex<B::Symbol>> Model for StringInterner<B, H, I> {
//~     ghost use Rattle.string_interner.specs.Interner.{InternerContents, IsSoundInterner};
//~
//~     ghost Value = { InternerContents };
//~
//~     ghost view = { λ i. record {
//~       texts = B.texts i.backend;
//~       buckets = B.buckets i.backend;
//~       room = B.room i.backend;
//~       slot_count = I.slots i.index;
//~     } };
//~
//~     ghost invariant = { λ i. IsSoundInterner B.numbering
//~         (λ entry. I.indexes i.index entry (H.code i.hasher))
//~         (I.entries i.index) (B.texts i.backend) };
//~ }

impl<B: Backend, H: TextHasher + Default, I: TextIndex<B::Symbol>> StringInterner<B, H, I> {
    /// Makes an empty interner without spare capacity, under the hasher's default. Takes no memory.
    pub fn new(alloc: Global) -> Self
        //~ ensures { IsNew result }
    {
        StringInterner::with_hasher(alloc, H::default())
    }
}

impl<B: Backend, H: TextHasher + Default + Drop, I: TextIndex<B::Symbol> + Drop> StringInterner<
    B,
    H,
    I,
> {
    /// Makes an empty interner, under the hasher's default, whose backend and index have room for `capacity` texts.
    ///
    /// Returns `Err` if a size does not fit a `usize`, and else only if an allocation fails.
    pub fn with_capacity(alloc: Global, capacity: usize) -> Result<Self, AllocError>
        //~ ensures { IfOk result (IsMadeFor I.rule capacity (B.grant capacity)) }
    {
        StringInterner::with_capacity_and_hasher(alloc, capacity, H::default())
    }
}

impl<B: Backend, H: TextHasher + Drop, I: TextIndex<B::Symbol> + Drop> StringInterner<B, H, I> {
    /// Makes an empty interner, under this hasher, whose backend and index have room for `capacity` texts.
    ///
    /// Returns `Err` if a size does not fit a `usize`, and else only if an allocation fails.
    pub fn with_capacity_and_hasher(
        alloc: Global,
        capacity: usize,
        hasher: H,
    ) -> Result<Self, AllocError>
        //~ ensures { IfOk result (IsMadeFor I.rule capacity (B.grant capacity)) }
    {
        let index = I::with_capacity(alloc, capacity)?;
        let backend = B::with_capacity(alloc, capacity)?;
        Ok(StringInterner {
            backend,
            hasher,
            index,
        })
    }
}

impl<B: Backend, H: TextHasher, I: TextIndex<B::Symbol>> StringInterner<B, H, I> {
    /// Makes an empty interner without spare capacity, under this hasher. Takes no memory.
    pub fn with_hasher(alloc: Global, hasher: H) -> Self
        //~ ensures { IsNew result }
    {
        StringInterner {
            backend: B::new(alloc),
            hasher,
            index: I::new(alloc),
        }
    }
}

impl<B: Store, H: TextHasher, I: TextIndex<B::Symbol>> StringInterner<B, H, I> {
    /// Makes an interner over a store and an index that have no texts, under this hasher.
    pub fn from_parts(backend: B, hasher: H, index: I) -> Self
        //~ requires texts { B.texts backend ≡ [] }
        //~ requires count { I.entries index ≡ 0 }
        //~ requires empty { (code : Text → ℕ) → I.indexes index (λ _. None) code }
        //~ ensures { result ≡ contents_of [] (B.buckets backend) (B.room backend) (I.slots index) }
    {
        StringInterner {
            backend,
            hasher,
            index,
        }
    }

    /// Returns the symbol of a text: `Some` exactly if the text is known. Allocates nothing.
    #[inline(always)]
    pub fn get(&self, text: &str) -> Option<B::Symbol>
        //~ ensures { Finds B.numbering self.now.texts text.now result }
    {
        let code = self.hasher.hash_text(text);
        self.index.find(code, &self.backend, text)
    }

    /// Returns the symbol of a text if the index's guess is right: `None` does not say that the text is new.
    ///
    /// It is for a loop over texts most of which are known: it is inlined, and up to 16 bytes are compared without a call. What
    /// it does not find, `get` or `get_or_intern` must look for. An index that has no guesses finds nothing. Allocates nothing.
    ///
    /// ```ignore
    /// let symbol = match interner.get_by_guess("red") {
    ///     Some(symbol) => symbol,
    ///     None => interner.get_or_intern("red")?,
    /// };
    /// ```
    #[inline(always)]
    pub fn get_by_guess(&self, text: &str) -> Option<B::Symbol>
        //~ ensures { IfSome result (λ symbol.
        //~     Finds B.numbering self.now.texts text.now (Some symbol)) }
    {
        let code = self.hasher.hash_text(text);
        let Some(symbol) = self.index.guess(code, &self.backend) else {
            return None;
        };
        if texts_are_equal(self.backend.resolve_unchecked(symbol), text) {
            Some(symbol)
        } else {
            None
        }
    }

    /// Reports whether a text is known. Allocates nothing.
    pub fn contains(&self, text: &str) -> bool
        //~ ensures { IsTrue result ↔ IsSome (first self.now.texts text.now) }
    {
        self.get(text).is_some()
    }

    /// Returns the symbol of a text. A new text is appended.
    ///
    /// A known text allocates nothing and changes nothing. A new one returns `NoSymbol` exactly if the symbol type has
    /// no symbol for the next place, before any allocation, and `Memory` only if an allocation fails or a size does not
    /// fit a `usize`. On `Err` texts and buckets are unchanged. The index grows at most once, and not if the load
    /// factor allows one more entry.
    #[inline(always)]
    pub fn get_or_intern(&mut self, text: &str) -> Result<B::Symbol, InternError>
        //~ ensures { InternsInto B.numbering I.rule self.old text.now result self.new }
    {
        self.intern_given(Given::Copied(text))
    }

    /// Returns the symbol of a text, as `get_or_intern` does. A new text is appended by the backend's `intern_static`,
    /// which may store the reference instead of a copy.
    pub fn get_or_intern_static(&mut self, text: &'static str) -> Result<B::Symbol, InternError>
        //~ ensures { InternsInto B.numbering I.rule self.old text.now result self.new }
    {
        self.intern_given(Given::Static(text))
    }

    /// Returns the symbol of a text, and appends the text if it is new.
    #[inline(always)]
    fn intern_given(&mut self, given: Given<'_>) -> Result<B::Symbol, InternError>
        //~ ensures { InternsInto B.numbering I.rule self.old (given_text given.entry) result self.new }
    {
        let code = self.hasher.hash_text(given.text());
        intern_coded(
            &mut self.backend,
            &self.hasher,
            &mut self.index,
            given,
            code,
            None,
        )
    }
}

impl<B: Store, H, I: TextIndex<B::Symbol>> StringInterner<B, H, I> {
    /// Returns the number of texts.
    ///
    /// Its clause `holds` is what holds of every interner: the texts are distinct, symbols that stand for texts are
    /// equal exactly if the texts are, a later entry has a greater number, and the slots are within the load factor. A
    /// proof that needs it calls `let _ = interner.len();`.
    pub fn len(&self) -> usize
        //~ ensures value { result ≡ length self.now.texts }
        //~ ensures holds { HoldsOfEvery B.numbering B.Symbol.eq I.rule self.now }
    {
        self.index.len()
    }

    /// Reports whether there is no text.
    pub fn is_empty(&self) -> bool
        //~ ensures { IsTrue result ↔ (self.now.texts ≡ []) }
    {
        self.len() == 0
    }

    /// Releases memory of the backend that no text needs, if it can. Texts, symbols, buckets and slot count are
    /// unchanged.
    pub fn shrink_to_fit(&mut self)
        //~ ensures texts { self.new.texts ≡ self.old.texts }
        //~ ensures buckets { self.new.buckets ≡ self.old.buckets }
        //~ ensures slots { self.new.slot_count ≡ self.old.slot_count }
    {
        self.backend.shrink_to_fit();
    }

    /// Returns what the backend reads at a symbol's number, for any symbol. For the symbol of an entry this is its
    /// text.
    pub fn resolve(&self, symbol: B::Symbol) -> Option<&str>
        //~ ensures { Resolves B.numbering self.now.texts symbol (option_copied result) }
    {
        self.backend.resolve(symbol)
    }

    /// Returns the text of an entry by its symbol, without checking the symbol: it must be that of an entry.
    pub fn resolve_unchecked(&self, symbol: B::Symbol) -> &str
        //~ requires { IsPlace B.numbering.place self.now.texts (B.numbering.number symbol) }
        //~ ensures { StandsFor B.numbering self.now.texts symbol result.now }
    {
        self.backend.resolve_unchecked(symbol)
    }

    /// Returns the hasher.
    pub fn hasher(&self) -> &H {
        &self.hasher
    }

    /// Returns the index, to read what only an index of its kind has.
    pub fn index(&self) -> &I
        //~ ensures { I.slots result.now ≡ self.now.slot_count }
    {
        &self.index
    }

    /// Returns the backend, which has the texts, to read what only a backend of its kind has.
    pub fn backend(&self) -> &B
        //~ ensures texts { B.texts result.now ≡ self.now.texts }
        //~ ensures buckets { B.buckets result.now ≡ self.now.buckets }
        //~ ensures room { B.room result.now ≡ self.now.room }
    {
        &self.backend
    }
}

impl<B: Backend, H: TextHasher, I: TextIndex<B::Symbol>> StringInterner<B, H, I> {
    /// Returns the symbol that the next new text gets: `None` exactly if the symbol type has no symbol for the next
    /// place, and interning a new text then returns `NoSymbol`.
    pub fn next_symbol(&self) -> Option<B::Symbol>
        //~ ensures { result ≡ B.numbering.symbol_of (B.numbering.place self.now.texts) }
    {
        self.backend.next_symbol()
    }

    /// Keeps the first `len` texts with their symbols, and drops the rest, which are then new again. Does nothing if
    /// there are at most `len`.
    ///
    /// Allocates and releases nothing. If at least eight times as many texts stay as go, each that goes costs about a look-up.
    /// Otherwise, or if the index is your own and has no `remove_from`, each that stays is hashed again. A `BufferBackend` also
    /// reads the length of each that stays.
    pub fn truncate(&mut self, len: usize)
        //~ ensures texts { self.new.texts ≡ take len self.old.texts }
        //~ ensures same { length self.old.texts ≤ len → self.new ≡ self.old }
        //~ ensures memory { KeepsMemory self.old self.new }
    {
        if len < self.index.len() {
            let removed = self.index.remove_from(&self.hasher, &self.backend, len);
            self.backend.truncate(len);
            if !removed {
                self.index.refill(&self.hasher, &self.backend);
            }
        }
    }

    /// Iterates over the entries in insertion order, each with its symbol.
    pub fn iter(&self) -> Iter<'_, B>
        //~ ensures { result ≡ iter_over self.now.texts }
    {
        self.backend.iter()
    }
}

impl<B: Store, H: TextHasher, I: TextIndex<B::Symbol> + Drop> StringInterner<B, H, I> {
    /// Forgets all texts: takes another store and another index, which have none, and returns the store that it had.
    pub fn restart(&mut self, backend: B, index: I) -> B
        //~ requires texts { B.texts backend ≡ [] }
        //~ requires count { I.entries index ≡ 0 }
        //~ requires empty { (code : Text → ℕ) → I.indexes index (λ _. None) code }
        //~ ensures new { self.new
        //~     ≡ contents_of [] (B.buckets backend) (B.room backend) (I.slots index) }
        //~ ensures texts { B.texts result ≡ self.old.texts }
        //~ ensures buckets { B.buckets result ≡ self.old.buckets }
        //~ ensures room { B.room result ≡ self.old.room }
    {
        self.index = index;
        replace(&mut self.backend, backend)
    }

    /// Returns the backend, as `into_backend` does, and the hasher. Drops the index alone.
    pub fn into_parts(self) -> (B, H)
        //~ ensures texts { B.texts result.0 ≡ self.texts }
        //~ ensures buckets { B.buckets result.0 ≡ self.buckets }
        //~ ensures room { B.room result.0 ≡ self.room }
        //~ ensures distinct { IsInternerList B.numbering (B.texts result.0) }
    {
        (self.backend, self.hasher)
    }
}

impl<B: Store + Drop, H: TextHasher + Drop, I: TextIndex<B::Symbol> + Drop> StringInterner<
    B,
    H,
    I,
> {
    /// Returns the backend, with all texts and their symbols, and drops the index and the hasher. This is for a program
    /// that has interned its last text, and from then on resolves symbols.
    ///
    /// Releases the memory of the slots: with `Index` and the default symbol, four bytes for each slot. Allocates nothing.
    pub fn into_backend(self) -> B
        //~ ensures texts { B.texts result ≡ self.texts }
        //~ ensures buckets { B.buckets result ≡ self.buckets }
        //~ ensures room { B.room result ≡ self.room }
        //~ ensures distinct { IsInternerList B.numbering (B.texts result) }
    {
        self.backend
    }
}

impl<
    B: Backend + CopyBackend + Drop,
    H: TextHasher + Clone + Drop,
    I: TextIndex<B::Symbol> + Drop,
> StringInterner<B, H, I> {
    /// Makes an interner with an equal list, and so with the same symbols. Its index is made anew under the clone's own
    /// hasher, whatever codes that gives, with the least slots for its texts. Its buckets are those of a copy of the
    /// backend, where static texts stay references.
    ///
    /// Hashes each text once. Where the hasher is a `CopyHasher` and the index a `CopyIndex`,
    /// [`try_copy`](StringInterner::try_copy) hashes none. Returns `Err` only if an allocation fails or a size does not
    /// fit a `usize`.
    pub fn clone(&self) -> Result<Self, AllocError>
        //~ ensures copy { IfOk result (IsCopyOf B.copies self.now) }
        //~ ensures slots { IfOk result (HasLeastSlots I.rule) }
    {
        let hasher = self.hasher.clone()?;
        let mut index = I::with_capacity(self.index.allocator(), self.len())?;
        let backend = self.backend.try_copy()?;
        index.refill(&hasher, &backend);
        Ok(StringInterner {
            backend,
            hasher,
            index,
        })
    }
}

impl<B: CopyBackend + Drop, H: CopyHasher, I: CopyIndex<B::Symbol> + Drop> StringInterner<B, H, I> {
    /// Makes an interner with an equal list, and so with the same symbols, under the same hasher. Its index is a copy,
    /// with as many slots. Its buckets are those of a copy of the backend, where static texts stay references.
    ///
    /// Hashes no text, and reads none to find where it goes. Returns `Err` only if an allocation fails or a size does
    /// not fit a `usize`.
    pub fn try_copy(&self) -> Result<Self, AllocError>
        //~ ensures copy { IfOk result (IsCopyOf B.copies self.now) }
        //~ ensures slots { IfOk result (λ copy. copy.slot_count ≡ self.now.slot_count) }
    {
        let index = self.index.try_copy()?;
        Ok(StringInterner {
            backend: self.backend.try_copy()?,
            hasher: self.hasher.same(),
            index,
        })
    }
}

impl<'a, B: Backend, H: TextHasher, I: TextIndex<B::Symbol>> IntoIterator
    for &'a StringInterner<B, H, I> {
    type Item = (B::Symbol, &'a str);

    type IntoIter = Iter<'a, B>;

    //~ ghost into_iter_gives = { λ interner iter. iter ≡ iter_over interner.now.texts };

    fn into_iter(self) -> Iter<'a, B> {
        self.iter()
    }
}

/// Reports whether the next text of an iterator is this one, and advances past it.
fn next_is<B: Backend>(iter: &mut Iter<'_, B>, text: &str) -> bool
    //~ ensures { (texts : List Text) → texts_eq (text.now ∷ texts) iter.old.ahead
    //~     ≡ (result && texts_eq texts iter.new.ahead) }
{
    match iter.next() {
        Some((_, found)) => text == found,
        None => false,
    }
}

/// Equal exactly if the lists of texts are, whatever the spare capacities and hashers.
impl<B: Backend, H: TextHasher, I: TextIndex<B::Symbol>> PartialEq for StringInterner<B, H, I> {
    //~ ghost eq = { λ a b. texts_eq a.texts b.texts };

    //~ ghost laws = { partial_equiv_from_equiv
    //~     (on_equiv (λ (i : InternerContents). i.texts) texts_eq-IsEquivalence) };

    fn eq(&self, other: &Self) -> bool {
        if self.len() != other.len() {
            return false;
        }
        let mut theirs = other.iter();
        for (_, text) in self.iter() {
            if !next_is(&mut theirs, text) {
                return false;
            }
        }
        theirs.next().is_none()
    }
}

impl<B: Backend, H: TextHasher, I: TextIndex<B::Symbol>> Eq for StringInterner<B, H, I> {
    //~ ghost laws = { on_equiv (λ (i : InternerContents). i.texts) texts_eq-IsEquivalence };
}
