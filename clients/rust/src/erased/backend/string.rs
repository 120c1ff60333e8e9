//! All texts joined in one string, with a list of their ends.

use crate::rt::prelude::*; pub mod ends;

//~ ghost use Rattle.std.specs.Prelude.{◌≡◌, ◌*◌, ◌^◌, ◌<◌, ◌≤◌, [], length, slice_get, Some, IfOk, IfSome, OnOk, refl};
//~ ghost use Rattle.std.specs.Option.{option_copied};
//~ ghost use Rattle.std.specs.Cmp.{partial_equiv_from_equiv, on_equiv};
//~ ghost use Rattle.std.proofs.Common.{rules};
//~ ghost use Rattle.string_interner.specs.Backend.{Contents, IsValidList, Shrinks};
//~ ghost use Rattle.string_interner.specs.Text.{texts_eq, texts_eq-IsEquivalence};
//~ ghost use Rattle.string_interner.specs.Iter.{iter_over};
//~ ghost use Rattle.string_interner.specs.StringBackend.{IsCut, string_numbering};
//~ ghost use Rattle.string_interner.specs.ByIndexLaws.{length_grows, reads_at_length};

use crate::erased::backend::reserve::grow_bytes;
use crate::erased::backend::{Backend, CopyBackend, InternError, Iter, Store};
use crate::erased::number_list::NumberList;
use crate::erased::symbol::{DefaultSymbol, Symbol};
use ends::{find_narrow_span, span, start_of};
use crate::rt::alloc::{AllocError, Global};
use crate::rt::marker::{Model, PhantomData};

/// Stores all texts joined in one string, with the end of each.
///
/// Places are 0, 1, 2, .. without gaps. A text takes its bytes and four bytes for its end, or eight from the first end
/// on that does not fit 32 bits. A backend that was made with a capacity for more than 4 GiB of texts takes eight for
/// each, and one that was truncated from beyond 4 GiB for each new one, until shrinking releases that room. Interning
/// appends a copy, and may move the string; resolving reads two ends and makes the slice.
//~ #[derive(Drop)]
pub struct StringBackend<S: Symbol = DefaultSymbol> {
    joined: String,
    ends: NumberList,
    symbols: PhantomData<S>,
}

//~ /// Contracts see the texts, and as room the smallest of the spare bytes, five times the spare ends, and the bytes from
//~ /// the last end to the greatest that these can store.
//~ impl<S: Symbol> Model for StringBackend<S> {
//~     ghost use Rattle.std.specs.Prelude.{◌-◌, ◌*◌, min};
//~     ghost use Rattle.std.specs.String.{string_bytes, string_len, string_capacity};
//~     ghost use Rattle.string_interner.specs.Backend.{Contents};
//~     ghost use Rattle.string_interner.specs.StringBackend.{cut, IsJoined};
//~
//~     ghost Value = { Contents };
//~
//~     ghost view = { λ b. record {
//~       texts = cut 0 (string_bytes b.joined) b.ends.items;
//~       room = min (string_capacity b.joined - string_len b.joined)
//~           (min (5 * b.ends.spare) (b.ends.limit - string_len b.joined));
//~     } };
//~
//~     ghost invariant = { λ b. IsJoined S.symbol_of (string_bytes b.joined) b.ends.items
//~         (cut 0 (string_bytes b.joined) b.ends.items) };
//~ }

impl<S: Symbol> StringBackend<S> {
    /// Returns all texts joined, and the end of each in bytes: a text begins where the one before it ends. Takes constant time.
    ///
    /// ```ignore
    /// let (joined, ends) = names.backend().as_parts();
    /// let second = &joined[ends.at(0)..ends.at(1)];
    /// ```
    pub fn as_parts(&self) -> (&str, &NumberList)
        //~ ensures { IsCut result.0.now result.1.now.items self.now.texts }
    {
        (&self.joined, &self.ends)
    }

    /// Returns how many bytes of memory the texts and their ends take, with what is spare. Takes constant time.
    ///
    /// ```ignore
    /// let bytes = names.backend().memory_used();
    /// ```
    pub fn memory_used(&self) -> usize {
        self.joined
            .capacity()
            .saturating_add(self.ends.memory_used())
    }

    /// Returns the text of entry `index`.
    #[inline(always)]
    fn text_at(&self, index: usize) -> &str
        //~ requires { index < length self.now.texts }
        //~ ensures text { slice_get self.now.texts index ≡ Some result.now }
        //~ ensures valid { IsValidList S.symbol_of length self.now.texts }
    {
        let (start, end) = span(&self.ends, index);
        unsafe { crate::unchecked::cut_unchecked(&self.joined, start..end) }
    }

    /// Returns the text of entry `index`, if there is one and its end takes four bytes. Calls no other function, so that a caller
    /// which tries this first saves no registers.
    #[inline(always)]
    fn narrow_text(&self, index: usize) -> Option<&str>
        //~ ensures { IfSome result (λ text. slice_get self.now.texts index ≡ Some text.now) }
    {
        match find_narrow_span(&self.ends, index) {
            Some((start, end)) => Some(unsafe { crate::unchecked::cut_unchecked(&self.joined, start..end) }),
            None => None,
        }
    }

    /// Returns the text of entry `index`, and `None` if there are at most `index` entries.
    #[inline(always)]
    fn find_text(&self, index: usize) -> Option<&str>
        //~ ensures { option_copied result ≡ slice_get self.now.texts index }
    {
        match self.narrow_text(index) {
            Some(text) => Some(text),
            None if index < self.ends.len() => Some(self.text_at(index)),
            None => None,
        }
    }
}

//~ #[tactic(auto, using(crate::proofs::Lemmas::StringBackend::IsCut::cut_length))]
impl<S: Symbol> Store for StringBackend<S> {
    type Symbol = S;

    //~ ghost texts = { λ b. b.texts };

    //~ ghost room = { λ b. b.room };

    //~ ghost numbering = { string_numbering S.symbol_of S.number };

    #[inline(always)]
    fn is_full(&self) -> bool {
        S::try_from_usize(self.ends.len()).is_none()
    }

    /// Appends a copy of the text to the string, and its end to the list of ends.
    #[inline(always)]
    fn intern(&mut self, text: &str) -> Result<S, InternError> {
        let symbol = self.next_symbol().ok_or(InternError::NoSymbol)?;
        // Allocates before it stores anything, so that nothing changes on `Err`.
        if text.len() > self.joined.capacity() - self.joined.len() {
            grow_bytes(&mut self.joined, text.len())?;
        }
        let end = self.joined.len() + text.len();
        self.ends.reserve(end)?;
        self.joined.push_str(text).unwrap();
        self.ends.push_reserved(end);
        Ok(symbol)
    }

    fn resolve(&self, symbol: S) -> Option<&str> {
        self.find_text(symbol.to_usize())
    }

    fn resolve_unchecked(&self, symbol: S) -> &str {
        self.text_at(symbol.to_usize())
    }

    /// Reduces spare capacity if it can: leaves no more than there was, and none if there are no texts.
    fn shrink_to_fit(&mut self)
        //~ ensures { Shrinks self.old self.new }
    {
        self.joined.shrink_to_fit();
        self.ends.shrink_to_fit();
    }

    //~ ghost symbols = { (refl, refl) };

    //~ ghost starts = { refl };

    //~ ghost grows = { length_grows };

    //~ ghost costs = { λ text. Prim.search rules };

    //~ ghost reads = { λ texts i valid within. reads_at_length texts i within };
}

//~ #[tactic(auto, using(crate::proofs::Lemmas::StringBackend::IsCut::cut_length))]
impl<S: Symbol> Backend for StringBackend<S> {
    //~ ghost grant = { λ capacity. 5 * capacity };

    fn new(alloc: Global) -> Self {
        StringBackend {
            joined: String::new(alloc),
            ends: NumberList::new(alloc),
            symbols: PhantomData,
        }
    }

    /// Makes an empty backend with capacity for `capacity` ends and five times as many bytes.
    ///
    /// Returns `Err` only if an allocation fails or a size does not fit a `usize`.
    fn with_capacity(alloc: Global, capacity: usize) -> Result<Self, AllocError>
        //~ ensures texts { IfOk result (λ backend. backend.texts ≡ []) }
        //~ ensures room { IfOk result (λ backend. 5 * capacity ≤ backend.room) }
        //~ ensures fits { OnOk result (5 * capacity < 2 ^ 64) }
    {
        let bytes = capacity.checked_mul(5).ok_or(AllocError)?;
        Ok(StringBackend {
            joined: String::with_capacity(alloc, bytes)?,
            ends: NumberList::with_capacity(alloc, capacity, bytes)?,
            symbols: PhantomData,
        })
    }

    fn count(&self) -> usize {
        self.ends.len()
    }

    fn next_symbol(&self) -> Option<S> {
        S::try_from_usize(self.ends.len())
    }

    fn entry_at(&self, at: usize) -> (S, &str, usize) {
        let text = self.text_at(at);
        (S::try_from_usize(at).unwrap(), text, at + 1)
    }

    #[inline]
    fn place_of(&self, index: usize) -> usize {
        index
    }

    fn truncate(&mut self, len: usize) {
        if len < self.ends.len() {
            self.joined.truncate(start_of(&self.ends, len));
            self.ends.truncate(len);
        }
    }
}

impl<S: Symbol> StringBackend<S> {
    /// Returns a backend with an equal list. Returns `Err` only if an allocation fails.
    pub fn clone(&self) -> Result<Self, AllocError>
        //~ ensures { IfOk result (λ copy. copy.texts ≡ self.now.texts) }
    {
        Ok(StringBackend {
            joined: self.joined.clone()?,
            ends: self.ends.clone()?,
            symbols: PhantomData,
        })
    }
}

impl<S: Symbol> CopyBackend for StringBackend<S> {
    fn try_copy(&self) -> Result<Self, AllocError> {
        self.clone()
    }
}

impl<'a, S: Symbol> IntoIterator for &'a StringBackend<S> {
    type Item = (S, &'a str);

    type IntoIter = Iter<'a, StringBackend<S>>;

    //~ ghost into_iter_gives = { λ backend iter. iter ≡ iter_over backend.now.texts };

    fn into_iter(self) -> Iter<'a, StringBackend<S>> {
        Iter::new(self)
    }
}

/// Equal exactly if the lists of texts are, whatever the spare capacities.
impl<S: Symbol> PartialEq for StringBackend<S> {
    //~ ghost eq = { λ a b. texts_eq a.texts b.texts };

    //~ ghost laws = { partial_equiv_from_equiv
    //~     (on_equiv (λ (b : Contents). b.texts) texts_eq-IsEquivalence) };

    fn eq(&self, other: &Self) -> bool {
        self.ends == other.ends && self.joined == other.joined
    }
}

impl<S: Symbol> Eq for StringBackend<S> {
    //~ ghost laws = { on_equiv (λ (b : Contents). b.texts) texts_eq-IsEquivalence };
}
