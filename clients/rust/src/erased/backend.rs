//! Backends: how texts are stored, and which symbol each gets.
//!
//! A backend is a list of texts. It neither looks texts up nor notices repeats: the interner over it does. Choose one of
//! the three by memory and by speed, or write your own by the traits [`Store`] and [`Backend`]. A program that has interned
//! its last text may keep the backend alone, by `StringInterner::into_backend`.

use crate::rt::prelude::*; pub mod bucket;
pub mod buffer;
pub mod iter;
pub(crate) mod reserve;
pub mod string;

//~ ghost use Rattle.std.specs.Prelude.{◌≡◌, ℕ, ◌+◌, ◌^◌, ◌<◌, ◌≤◌, List, [], ◌∷◌, ◌++◌, length, take, slice_get, Option, Some, None, IfOk, OnOk, IsTrue, ◌↔◌};
//~ ghost use Rattle.std.specs.Option.{option_copied};
//~ ghost use Rattle.string_interner.specs.Text.{Text};
//~ ghost use Rattle.string_interner.specs.Iter.{iter_over};

use crate::erased::symbol::{DefaultSymbol, Symbol};
pub use bucket::BucketBackend;
pub use buffer::{BufferBackend, spelling_law};
pub use iter::Iter;
use crate::rt::alloc::{AllocError, Global};
pub use string::StringBackend;
//~ use thiserror::Error;

/// Why interning a text failed. That text left the list unchanged.
#[derive(Clone, Copy, Debug, PartialEq, Eq)]
pub enum InternError {
    /// The symbol type has no symbol for the next place.
    //~ #[error("no symbol is left")]
    NoSymbol,
    /// An allocation failed, or the next place does not fit a `usize`.
    //~ #[error("out of memory")]
    Memory(AllocError),
} impl ::core::error::Error for InternError {} impl ::core::fmt::Display for InternError { fn fmt(&self, f: &mut ::core::fmt::Formatter<'_>) -> ::core::fmt::Result { match self { Self::NoSymbol { .. } => f.write_str("no symbol is left"), Self::Memory { .. } => f.write_str("out of memory"), } } }

/// A refused allocation is `Memory`, so that `?` turns an `AllocError` into an `InternError`.
impl From<AllocError> for InternError {
    //~ ghost use Rattle.string_interner.specs.declared.backend.InternError.TheVariants.{Memory};

    //~ ghost from_gives = { λ error refusal. refusal ≡ Memory error };

    fn from(error: AllocError) -> InternError {
        InternError::Memory(error)
    }
}

/// The backend that serves most uses well.
pub type DefaultBackend = StringBackend<DefaultSymbol>;

/// Holds a list of texts in insertion order, each with a symbol: what interning texts and resolving symbols need.
///
/// A backend does not deduplicate: a text that is interned twice is in its list twice. The number of an entry's symbol
/// is the *place* of the entry, which depends on the texts before it alone.
pub trait Store: Sized {
    /// The type of the symbols.
    type Symbol: Symbol;

    //~ ghost use Rattle.string_interner.specs.Backend.{Bucket, BeginsAt, IsPlace, IsValidList, AppendsInto};
    //~ ghost use Rattle.string_interner.specs.Numbering.{Numbering};

    //~ /// The texts, in insertion order.
    //~ ghost texts: { Self → List Text };

    //~ /// How it numbers texts: the place of each, its symbol, what is read at a number, and what a text costs.
    //~ ghost numbering: { Numbering Self.Symbol };

    //~ /// Spare capacity, counted in costs: appending a text whose cost fits does not fail for memory.
    //~ ghost room: { Self → ℕ };

    //~ /// The buckets of bytes: none, unless the backend has buckets.
    //~ ghost buckets: { Self → List Bucket } = { λ _. [] };

    /// Reports whether the symbol type has no symbol for the next place.
    #[inline(always)]
    fn is_full(&self) -> bool;
        //~ ensures { IsTrue result ↔ (numbering.symbol_of (numbering.place (texts self.now)) ≡ None) };

    /// Appends a text, without looking for an equal one, and returns the symbol of its place.
    ///
    /// Returns `NoSymbol` exactly if it is full, before any allocation. Returns `Memory` only if an
    /// allocation fails or the place after the text does not fit a `usize`. On `Err` texts and buckets are unchanged.
    fn intern(&mut self, text: &str) -> Result<Self::Symbol, InternError>;
        //~ ensures { AppendsInto numbering texts buckets room self.old text.now result self.new };

    /// Appends a text as `intern` does. A backend may store the reference instead of a copy.
    fn intern_static(&mut self, text: &'static str) -> Result<Self::Symbol, InternError>
        //~ ensures { AppendsInto numbering texts buckets room self.old text.now result self.new }
    {
        self.intern(text)
    }

    /// Returns the text at a symbol's number, if any. For the symbol of an entry this is the entry's text.
    fn resolve(&self, symbol: Self::Symbol) -> Option<&str>;
        //~ ensures { option_copied result
        //~     ≡ numbering.read (texts self.now) (numbering.number symbol) };

    /// Returns the text of an entry by its symbol, without checking the symbol: it must be that of an entry.
    fn resolve_unchecked(&self, symbol: Self::Symbol) -> &str;
        //~ requires { IsPlace numbering.place (texts self.now) (numbering.number symbol) }
        //~ ensures { (i : ℕ) → BeginsAt numbering.place (texts self.now) (numbering.number symbol) i
        //~     → slice_get (texts self.now) i ≡ Some result.now };

    /// Releases memory that no text needs, if it can; a backend need not release any. Texts, symbols and buckets are
    /// unchanged.
    fn shrink_to_fit(&mut self);
        //~ ensures texts { texts self.new ≡ texts self.old }
        //~ ensures buckets { buckets self.new ≡ buckets self.old };

    //~ /// The numbering's symbols are those of the symbol type, with their numbers.
    //~ ghost symbols: { (numbering.symbol_of ≡ Self.Symbol.symbol_of)
    //~     × (numbering.number ≡ Self.Symbol.number) };

    //~ /// The first entry is at place 0.
    //~ ghost starts: { numbering.place [] ≡ 0 };

    //~ /// Each text raises the next place.
    //~ ghost grows: { (texts : List Text) (text : Text)
    //~     → numbering.place texts < numbering.place (texts ++ text ∷ []) };

    //~ /// Each text costs more than 0.
    //~ ghost costs: { (text : Text) → 0 < numbering.cost text };

    //~ /// Reading at the place of an entry gives its text.
    //~ ghost reads: { (texts : List Text) (i : ℕ)
    //~     → IsValidList numbering.symbol_of numbering.place texts → i < length texts
    //~     → numbering.read texts (numbering.place (take i texts)) ≡ slice_get texts i };
}

/// A store that begins empty, is read in order, and can forget its last texts: what all calls of an interner need.
pub trait Backend: Sized + Store {
    //~ ghost use Rattle.string_interner.specs.Backend.{BeginsAt, IsPlace, IsValidList};

    //~ /// The spare capacity that `with_capacity` grants, at least.
    //~ ghost grant: { ℕ → ℕ };

    /// Makes an empty backend without spare capacity. Allocates nothing.
    fn new(alloc: Global) -> Self;
        //~ ensures texts { Self.texts result ≡ [] }
        //~ ensures room { Self.room result ≡ 0 };

    /// Makes an empty backend with spare capacity for `capacity` texts of usual length, as each backend says.
    ///
    /// Returns `Err` if a size does not fit a `usize`, and else only if an allocation fails.
    fn with_capacity(alloc: Global, capacity: usize) -> Result<Self, AllocError>;
        //~ ensures texts { IfOk result (λ backend. Self.texts backend ≡ []) }
        //~ ensures room { IfOk result (λ backend. grant capacity ≤ Self.room backend) }
        //~ ensures fits { OnOk result (grant capacity < 2 ^ 64) };

    /// Returns the number of texts, repeats included.
    fn count(&self) -> usize;
        //~ ensures value { result ≡ length (Self.texts self.now) }
        //~ ensures valid { IsValidList Self.numbering.symbol_of Self.numbering.place
        //~     (Self.texts self.now) };

    /// Returns the symbol of the next place: `None` exactly if the symbol type has no symbol with that number.
    fn next_symbol(&self) -> Option<Self::Symbol>;
        //~ ensures { result ≡ Self.numbering.symbol_of (Self.numbering.place (Self.texts self.now)) };

    /// Returns the entry that begins at a place: its symbol, its text, and the place of the next entry. An entry must
    /// begin there.
    fn entry_at(&self, at: usize) -> (Self::Symbol, &str, usize);
        //~ requires { IsPlace Self.numbering.place (Self.texts self.now) at }
        //~ ensures symbol { Self.numbering.symbol_of at ≡ Some result.0 }
        //~ ensures text { (i : ℕ) → BeginsAt Self.numbering.place (Self.texts self.now) at i
        //~     → slice_get (Self.texts self.now) i ≡ Some result.1.now }
        //~ ensures next { (i : ℕ) → BeginsAt Self.numbering.place (Self.texts self.now) at i
        //~     → result.2 ≡ Self.numbering.place (take (i + 1) (Self.texts self.now)) };

    /// Returns the place of the entry with this index, and the next place for the count of texts.
    ///
    /// By default it goes through the entries before it.
    fn place_of(&self, index: usize) -> usize
        //~ requires { index ≤ length (Self.texts self.now) }
        //~ ensures { result ≡ Self.numbering.place (take index (Self.texts self.now)) }
    {
        let mut at = 0;
        for _entry in 0..index {
            at = self.entry_at(at).2;
        }
        at
    }

    /// Keeps the first `len` texts with their symbols, and drops the rest. Does nothing if there are at most `len`.
    /// Allocates nothing. Buckets are unchanged, and keep the bytes of dropped texts.
    fn truncate(&mut self, len: usize);
        //~ ensures texts { Self.texts self.new ≡ take len (Self.texts self.old) }
        //~ ensures same { length (Self.texts self.old) ≤ len → self.new ≡ self.old }
        //~ ensures buckets { Self.buckets self.new ≡ Self.buckets self.old }
        //~ ensures room { Self.room self.old ≤ Self.room self.new };

    /// Iterates over the entries in insertion order, each with its symbol.
    fn iter(&self) -> Iter<'_, Self>
    where
        Self: Sized,
        //~ ensures { result ≡ iter_over (Self.texts self.now) }
    {
        Iter::new(self)
    }
}

/// A backend that can be copied.
pub trait CopyBackend: Sized + Store {
    //~ ghost use Rattle.string_interner.specs.Backend.{Bucket};

    //~ /// What the buckets of a copy are, by the texts and the buckets that are copied: none, unless the backend has
    //~ /// buckets.
    //~ ghost copies: { List Text → List Bucket → List Bucket → Type 0 } = { λ _ _ copy. copy ≡ [] };

    /// Returns a backend with an equal list, and so with the same symbols.
    ///
    /// Returns `Err` only if an allocation fails or a size does not fit a `usize`.
    fn try_copy(&self) -> Result<Self, AllocError>;
        //~ ensures texts { IfOk result (λ copy. Self.texts copy ≡ Self.texts self.now) }
        //~ ensures buckets { IfOk result (λ copy. copies (Self.texts self.now) (Self.buckets self.now)
        //~     (Self.buckets copy)) };
}
