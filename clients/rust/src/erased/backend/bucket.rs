//! Texts in append-only buckets of bytes, and static texts by reference.

use crate::rt::prelude::*; pub mod buckets;
pub mod copies;
pub mod entries;
pub mod fixed_str;
pub mod interned_str;
pub mod lasting;

//~ ghost use Rattle.std.specs.Prelude.{◌≡◌, ◌+◌, ◌^◌, ◌<◌, ◌≤◌, [], ◌∷◌, ◌++◌, length, take, map, true, false, IfOk, OnOk, OnErr, refl};
//~ ghost use Rattle.std.specs.Cmp.{partial_equiv_from_equiv, on_equiv};
//~ ghost use Rattle.std.proofs.Common.{rules};
//~ ghost use Rattle.string_interner.specs.Backend.{IsValidList};
//~ ghost use Rattle.string_interner.specs.Text.{texts_eq, texts_eq-IsEquivalence};
//~ ghost use Rattle.string_interner.specs.Iter.{iter_over};
//~ ghost use Rattle.string_interner.specs.ByIndexLaws.{length_grows, reads_at_length};
//~ ghost use Rattle.string_interner.specs.BucketBackend.{BucketContents, bucket_numbering, empty_contents, buckets_of, AppendsText, AreBounded, CopiesBuckets, HasTextAt, JoinsBuckets, KeepsBuckets, Puts, Stays, interned_text};

use crate::erased::backend::{Backend, CopyBackend, InternError, Iter, Store};
use crate::erased::symbol::{DefaultSymbol, Symbol};
use buckets::{interned_text, piece_text, store};
use copies::{copies_of, joint_capacity};
use entries::{Entries, is_long};
use fixed_str::FixedString;
use interned_str::InternedStr;
use crate::rt::alloc::{AllocError, Global};
use crate::rt::marker::{Model, PhantomData};
use crate::rt::mem::size_of;

/// Stores texts in append-only buckets of bytes, and static texts by reference.
///
/// Best where texts are long or many, since a text is copied once and not moved after that, and where static texts are
/// common, since those are not copied at all. Places are 0, 1, 2, .. without gaps. An entry takes 16 bytes, and 24 more if
/// its text takes 4 GiB or more; a text that is not static also takes its bytes. Resolving reads the entry and makes the
/// slice.
///
/// A text is appended to the last bucket, the head, if it fits the head's capacity. Else it begins a new head, whose
/// capacity in bytes is the least power of two above both the old head's capacity and the text's length: the rule of
/// the Rust crate string-interner. A capacity is the one that was requested, whatever more was granted. All capacities
/// add up to at most that of the first bucket or four times the bytes in buckets, whichever is more.
///
/// So after `new`, `"abc"` begins a head of capacity 4, and `"de"`, for which one byte is left, one of 8.
//~ #[derive(Drop)]
pub struct BucketBackend<S: Symbol = DefaultSymbol> {
    entries: Entries,
    full: Vec<FixedString>,
    head: FixedString,
    symbols: PhantomData<S>,
}

//~ /// Contracts see the texts, which of them are static, the buckets, and as room the lesser of the head's spare bytes and the
//~ /// spare entries; more than 2^32 - 1 of these count only as far as each may be that of a long text.
//~ impl<S: Symbol> Model for BucketBackend<S> {
//~     ghost use Rattle.std.specs.Prelude.{◌-◌, min, length, map};
//~     ghost use Rattle.string_interner.specs.BucketBackend.{BucketContents, buckets_of, entry_room, interned_text, is_static, IsInBuckets};
//~
//~     ghost Value = { BucketContents };
//~
//~     ghost view = { λ b. record {
//~       texts = map (interned_text (buckets_of b.full.items b.head)) b.entries.items;
//~       statics = map is_static b.entries.items;
//~       full = b.full.items;
//~       head = b.head;
//~       room = min (b.head.capacity - length b.head.bytes)
//~           (entry_room b.entries.spare b.entries.long_spare);
//~     } };
//~
//~     ghost invariant = { λ b. IsInBuckets S.symbol_of b.full.items b.head b.entries.items };
//~ }

impl<S: Symbol> BucketBackend<S> {
    /// Returns how many bytes of memory the entries and the buckets take, with what is spare. Reads the capacity of each bucket.
    ///
    /// ```ignore
    /// let bytes = names.backend().memory_used();
    /// ```
    pub fn memory_used(&self) -> usize {
        let mut bytes = self
            .full
            .capacity()
            .saturating_mul(size_of::<FixedString>());
        for bucket in self.full.iter() {
            bytes = bytes.saturating_add(bucket.memory_used());
        }
        bytes
            .saturating_add(self.head.memory_used())
            .saturating_add(self.entries.memory_used())
    }

    /// Returns the text of entry `index`.
    #[inline]
    fn text_at(&self, index: usize) -> &str
        //~ requires { index < length self.now.texts }
        //~ ensures text { HasTextAt self.now index result.now }
        //~ ensures valid { IsValidList S.symbol_of length self.now.texts }
    {
        // Of most entries this is all that is read.
        match self.entries.piece(index) {
            Some(piece) => piece_text(&self.full, &self.head, piece),
            None => self.other_text(index),
        }
    }

    /// Returns the text of an entry of any kind. It is a call, so that `text_at` stays short where it is used.
    #[inline(never)]
    fn other_text(&self, index: usize) -> &str
        //~ requires { index < length self.now.texts }
        //~ ensures { HasTextAt self.now index result.now }
    {
        interned_text(&self.full, &self.head, self.entries.get(index))
    }
}

impl<S: Symbol> Store for BucketBackend<S> {
    type Symbol = S;

    //~ ghost texts = { λ b. b.texts };

    //~ ghost room = { λ b. b.room };

    //~ ghost numbering = { bucket_numbering S.symbol_of S.number };

    //~ ghost buckets = { λ b. buckets_of b.full b.head };

    #[inline(always)]
    fn is_full(&self) -> bool {
        S::try_from_usize(self.entries.len()).is_none()
    }

    /// Appends a copy of the text to the head, or to a new head if it does not fit. No stored byte changes its value or its
    /// index.
    #[inline(always)]
    fn intern(&mut self, text: &str) -> Result<S, InternError>
        //~ ensures appends { AppendsText S.symbol_of S.number self.old text.now result self.new }
        //~ ensures statics { OnOk result (self.new.statics ≡ self.old.statics ++ false ∷ []) }
        //~ ensures puts { OnOk result (Puts text.now self.old.full self.old.head
        //~     self.new.full self.new.head) }
        //~ ensures stays { Stays (buckets_of self.old.full self.old.head)
        //~     (buckets_of self.new.full self.new.head) }
        //~ ensures err { OnErr result (self.new ≡ record self.old { room = self.new.room }) }
    {
        // Asks for the symbol and allocates before it stores anything, so that nothing changes on `Err`.
        let symbol = self.next_symbol().ok_or(InternError::NoSymbol)?;
        let is_long = is_long(text.len());
        self.entries.reserve(is_long)?;
        let interned = store(&mut self.full, &mut self.head, text)?;
        self.entries.push_reserved(interned);
        Ok(symbol)
    }

    /// Appends a reference to the text. No bucket changes.
    fn intern_static(&mut self, text: &'static str) -> Result<S, InternError>
        //~ ensures appends { AppendsText S.symbol_of S.number self.old text.now result self.new }
        //~ ensures statics { OnOk result (self.new.statics ≡ self.old.statics ++ true ∷ []) }
        //~ ensures keeps { KeepsBuckets self.old self.new }
        //~ ensures err { OnErr result (self.new ≡ record self.old { room = self.new.room }) }
    {
        let symbol = self.next_symbol().ok_or(InternError::NoSymbol)?;
        self.entries.push(InternedStr::Static(text.as_bytes()))?;
        Ok(symbol)
    }

    fn resolve(&self, symbol: S) -> Option<&str> {
        let index = symbol.to_usize();
        if index < self.entries.len() {
            Some(self.text_at(index))
        } else {
            None
        }
    }

    fn resolve_unchecked(&self, symbol: S) -> &str {
        self.text_at(symbol.to_usize())
    }

    /// Releases spare capacity of the lists of entries and of older buckets. The buckets are unchanged, with the spare
    /// bytes of the head and the bytes of dropped texts.
    fn shrink_to_fit(&mut self)
        //~ ensures room { self.new.room ≤ self.old.room }
        //~ ensures frees { self.old.texts ≡ [] → self.new.room ≡ 0 }
        //~ ensures same { self.new ≡ record self.old { room = self.new.room } }
    {
        self.entries.shrink_to_fit();
        self.full.shrink_to_fit();
    }

    //~ ghost symbols = { (refl, refl) };

    //~ ghost starts = { refl };

    //~ ghost grows = { length_grows };

    //~ ghost costs = { λ text. Prim.search rules };

    //~ ghost reads = { λ texts i valid within. reads_at_length texts i within };
}

impl<S: Symbol> Backend for BucketBackend<S> {
    //~ ghost grant = { λ capacity. capacity };

    /// Makes an empty backend, with a head of capacity 0. Allocates nothing.
    fn new(alloc: Global) -> Self
        //~ ensures { result ≡ empty_contents 0 0 }
    {
        BucketBackend {
            entries: Entries::new(alloc),
            full: Vec::new(alloc),
            head: FixedString::new(alloc),
            symbols: PhantomData,
        }
    }

    /// Makes an empty backend with capacity for `capacity` entries and a head of `capacity` bytes: 17 bytes for each, and 41
    /// from 2^32 entries on, since so many may have texts of 4 GiB or more.
    ///
    /// Returns `Err` only if an allocation fails or a size does not fit a `usize`.
    fn with_capacity(alloc: Global, capacity: usize) -> Result<Self, AllocError>
        //~ ensures room { IfOk result (λ backend. capacity ≤ backend.room) }
        //~ ensures fits { OnOk result (capacity < 2 ^ 64) }
        //~ ensures empty { IfOk result (λ backend. backend ≡ empty_contents capacity backend.room) }
    {
        let long = if is_long(capacity) { capacity } else { 0 };
        Ok(BucketBackend {
            entries: Entries::with_capacity(alloc, capacity, long)?,
            full: Vec::new(alloc),
            head: FixedString::with_capacity(alloc, capacity)?,
            symbols: PhantomData,
        })
    }

    /// Returns the number of texts, repeats included. Its clause `bounded` holds of the buckets of every
    /// `BucketBackend`.
    fn count(&self) -> usize
        //~ ensures value { result ≡ length self.now.texts }
        //~ ensures valid { IsValidList S.symbol_of length self.now.texts }
        //~ ensures statics { length self.now.statics ≡ result }
        //~ ensures bounded { AreBounded (buckets_of self.now.full self.now.head) }
    {
        self.entries.len()
    }

    fn next_symbol(&self) -> Option<S> {
        S::try_from_usize(self.entries.len())
    }

    fn entry_at(&self, at: usize) -> (S, &str, usize) {
        let text = self.text_at(at);
        (S::try_from_usize(at).unwrap(), text, at + 1)
    }

    #[inline]
    fn place_of(&self, index: usize) -> usize {
        index
    }

    fn truncate(&mut self, len: usize)
        //~ ensures texts { self.new.texts ≡ take len self.old.texts }
        //~ ensures same { length self.old.texts ≤ len → self.new ≡ self.old }
        //~ ensures room { self.old.room ≤ self.new.room }

        // The buckets stay, with the bytes of dropped texts.
        //~ ensures statics { self.new.statics ≡ take len self.old.statics }
        //~ ensures keeps { KeepsBuckets self.old self.new }
    {
        self.entries.truncate(len);
    }
}

impl<S: Symbol> BucketBackend<S> {
    /// Returns a backend with an equal list, whose texts in buckets are copied into one head. Static texts stay
    /// references.
    ///
    /// The capacity of that head is this head's capacity plus the bytes in the older buckets. Returns `Err` only if an
    /// allocation fails or that capacity does not fit a `usize`.
    pub fn clone(&self) -> Result<Self, AllocError>
        //~ ensures { IfOk result (JoinsBuckets self.now) }
    {
        let alloc = *self.full.allocator();
        let capacity = joint_capacity(&self.full, &self.head).ok_or(AllocError)?;
        let (entries, head) = copies_of(alloc, &self.entries, &self.full, &self.head, capacity)?;
        Ok(BucketBackend {
            entries,
            full: Vec::new(alloc),
            head,
            symbols: PhantomData,
        })
    }
}

impl<S: Symbol> CopyBackend for BucketBackend<S> {
    //~ ghost copies = { CopiesBuckets };

    fn try_copy(&self) -> Result<Self, AllocError>
        //~ ensures joins { IfOk result (JoinsBuckets self.now) }
        //~ ensures texts { IfOk result (λ copy. copy.texts ≡ self.now.texts) }
        //~ ensures buckets { IfOk result (λ copy. CopiesBuckets self.now.texts
        //~     (buckets_of self.now.full self.now.head)
        //~     (buckets_of copy.full copy.head)) }
    {
        // For the proof: states that each text is told as static or not.
        let _ = self.count();
        self.clone()
    }
}

impl<'a, S: Symbol> IntoIterator for &'a BucketBackend<S> {
    type Item = (S, &'a str);

    type IntoIter = Iter<'a, BucketBackend<S>>;

    //~ ghost into_iter_gives = { λ backend iter. iter ≡ iter_over backend.now.texts };

    fn into_iter(self) -> Iter<'a, BucketBackend<S>> {
        Iter::new(self)
    }
}

/// Equal exactly if the lists of texts are, wherever the texts lie in memory.
impl<S: Symbol> PartialEq for BucketBackend<S> {
    //~ ghost eq = { λ a b. texts_eq a.texts b.texts };

    //~ ghost laws = { partial_equiv_from_equiv
    //~     (on_equiv (λ (b : BucketContents). b.texts) texts_eq-IsEquivalence) };

    fn eq(&self, other: &Self) -> bool {
        let count = self.count();
        if count != other.count() {
            return false;
        }
        for i in 0..count {
            if self.text_at(i) != other.text_at(i) {
                return false;
            }
        }
        true
    }
}

impl<S: Symbol> Eq for BucketBackend<S> {
    //~ ghost laws = { on_equiv (λ (b : BucketContents). b.texts) texts_eq-IsEquivalence };
}
