//! Interning the texts of a slice.

//~ ghost use Rattle.std.specs.Prelude.{◌≡◌, ◌≤◌, length};
//~ ghost use Rattle.string_interner.specs.Interner.{IsSoundIndex, contents_in};
//~ ghost use Rattle.string_interner.specs.InternAll.{InternsSlice, LooksAtNone};

use crate::rt::prelude::*; use super::StringInterner;
use super::given::Given;
use super::look_ahead::Ahead;
use super::new_text::intern_coded;
use crate::erased::backend::{InternError, Store};
use crate::erased::dedup::TextIndex;
use crate::erased::hash::TextHasher;
use crate::erased::symbol::Symbol;
//~ use thiserror::Error;

/// Interning the texts of a slice stopped at one that failed. Those before it stay interned.
#[derive(Clone, Copy, Debug, PartialEq, Eq)]
//~ #[error("{error}")]
pub struct Stopped {
    /// How many texts were interned before the one that failed.
    pub done: usize,
    /// Why that one failed.
    pub error: InternError,
} impl ::core::error::Error for Stopped {} impl ::core::fmt::Display for Stopped { fn fmt(&self, f: &mut ::core::fmt::Formatter<'_>) -> ::core::fmt::Result { match self {Self { error, .. } => ::core::write!(f, "{error}") } } }

impl<B: Store, H: TextHasher, I: TextIndex<B::Symbol>> StringInterner<B, H, I> {
    /// Interns texts in order, and writes the number of the symbol of each to the front of `numbers`. Stops at the first text
    /// that fails, as `get_or_intern` does.
    ///
    /// - On `Err` the texts before the failed one stay, and their numbers are written: `done` says how many.
    /// - The rest of `numbers`, which must be as long as `texts` at least, is unchanged.
    /// - It writes numbers, not symbols, because every symbol type has an array of numbers to begin with: of zeros.
    ///
    /// In an interner of 2^15 texts or more it is faster than a loop over `get_or_intern`, if many of the texts are known. Hand
    /// over a long list in parts of 512 texts or more.
    ///
    /// ```ignore
    /// let mut numbers = [0; 3];
    /// interner.intern_slice(&["red", "green", "red"], &mut numbers)?; // two texts, three numbers
    /// ```
    pub fn intern_slice(&mut self, texts: &[&str], numbers: &mut [usize]) -> Result<(), Stopped>
        //~ requires { length texts.now ≤ length numbers.old }
        //~ ensures { InternsSlice B.numbering I.rule texts.now (self.old, numbers.old) result
        //~     (self.new, numbers.new) }
    {
        intern_front(
            &mut self.backend,
            &self.hasher,
            &mut self.index,
            texts,
            numbers,
            &mut Ahead::new(),
        )
    }
}

/// Interns texts in order, and writes their numbers, as `intern_slice` does.
pub fn intern_front<B: Store, H: TextHasher, I: TextIndex<B::Symbol>>(
    backend: &mut B,
    hasher: &H,
    index: &mut I,
    texts: &[&str],
    numbers: &mut [usize],
    ahead: &mut Ahead,
) -> Result<(), Stopped>
    //~ requires sound { IsSoundIndex B.numbering I.indexes (H.code hasher.now) I.entries
    //~     index.old (B.texts backend.old) }
    //~ requires room { length texts.now ≤ length numbers.old }
    //~ requires none_ahead { LooksAtNone ahead.old }
    //~ ensures interns { InternsSlice B.numbering I.rule texts.now
    //~     (contents_in B.texts B.buckets B.room I.slots backend.old index.old, numbers.old) result
    //~     (contents_in B.texts B.buckets B.room I.slots backend.new index.new, numbers.new) }
    //~ ensures sound { IsSoundIndex B.numbering I.indexes (H.code hasher.now) I.entries
    //~     index.new (B.texts backend.new) }
{
    // For the proof: states the load factor before the first text.
    let _ = index.len();
    for at in 0..texts.len() {
        let (code, known) = ahead.find(backend, hasher, index, texts, at);
        let given = Given::Copied(texts[at]);
        match intern_coded(backend, hasher, index, given, code, known) {
            Ok(symbol) => numbers[at] = symbol.to_usize(),
            Err(error) => return Err(Stopped { done: at, error }),
        }
        let _ = index.len();
    }
    Ok(())
}
