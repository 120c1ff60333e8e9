//! All texts in one byte buffer, each behind its length.

use crate::rt::prelude::*; pub mod leb128;

//~ ghost use Rattle.std.specs.Prelude.{◌≡◌, ℕ, ◌+◌, ◌*◌, ◌^◌, ◌<◌, ◌≤◌, ◌↔◌, List, [], ◌++◌, length, take, slice_get, Option, Some, SomeIff, IsTrue, IfOk, OnOk, refl};
//~ ghost use Rattle.std.specs.Option.{option_copied};
//~ ghost use Rattle.std.specs.Cmp.{partial_equiv_from_equiv, on_equiv};
//~ ghost use Rattle.string_interner.specs.Text.{Text, texts_eq, texts_eq-IsEquivalence};
//~ ghost use Rattle.string_interner.specs.Iter.{iter_over};
//~ ghost use Rattle.string_interner.specs.Backend.{Contents, Shrinks, BeginsAt, IsValidList};
//~ ghost use Rattle.string_interner.specs.Spelling.{digits, IsLeastDigitCount};
//~ ghost use Rattle.string_interner.specs.BufferBackend.{buffer_numbering, entry_of, bytes_of, entry_len, place_of, Reads, read_front, read_at, HasEntryAt};
//~ ghost use Rattle.string_interner.specs.BufferLaws.{entry_len-positive, place_grows, reads_at_place};

use crate::erased::backend::reserve::reserve_items;
use crate::erased::backend::{Backend, CopyBackend, InternError, Iter, Store};
use crate::erased::symbol::{DefaultSymbol, Symbol};
use leb128::{digit_count, number_at, push_number};
use crate::rt::alloc::{AllocError, Global};
use crate::rt::marker::{Model, PhantomData};

/// Stores all texts in one byte buffer, each behind its length in unsigned LEB128.
///
/// The smallest of the backends: a text shorter than 128 bytes takes one byte beside its own, and there is no list of
/// ends beside the buffer. Choose it where memory counts most.
///
/// An entry is the length of its text in bytes, written in base 128, and then the text. The lowest digit comes first,
/// and bit 7 is set on every byte of the length but the last. A length has the fewest digits, and at least one, so two
/// digits start at the length 128. The format is that of the Rust crate string-interner.
///
/// So `"ab"` and then `"c"` are stored as the bytes 2, 97, 98, 1, 99, and their symbols have the numbers 0 and 3.
///
/// The place of an entry is the offset of its first byte. So the numbers have gaps, and a symbol type runs out of them
/// by bytes and not by texts. Interning appends a copy, and may move the buffer. Resolving reads the length and makes
/// the slice; since any number may be asked for, it also validates UTF-8, in time linear in the text's length. Where
/// the entry is known, as in iteration, nothing is validated.
//~ #[derive(Drop)]
pub struct BufferBackend<S: Symbol = DefaultSymbol> {
    count: usize,
    bytes: Vec<u8>,
    symbols: PhantomData<S>,
}

//~ /// Contracts see the texts, and as room the spare capacity in bytes.
//~ impl<S: Symbol> Model for BufferBackend<S> {
//~     ghost use Rattle.std.specs.Prelude.{◌-◌, vec_len, vec_capacity};
//~     ghost use Rattle.string_interner.specs.Backend.{Contents};
//~     ghost use Rattle.string_interner.specs.BufferBackend.{front_texts, IsSpelled};
//~
//~     ghost Value = { Contents };
//~
//~     ghost view = { λ b. record {
//~       texts = front_texts b.count b.bytes.items;
//~       room = vec_capacity b.bytes - vec_len b.bytes;
//~     } };
//~
//~     ghost invariant = { λ b. IsSpelled S.symbol_of b.bytes.items
//~         (front_texts b.count b.bytes.items) };
//~ }

/// Returns the text at the front, behind its length: `None` unless the length can be decoded and the text is complete
/// and UTF-8.
#[inline]
fn front_text(bytes: &[u8]) -> Option<&str>
    //~ ensures { option_copied result ≡ read_front bytes.now }
{
    let spelled = number_at(bytes)?;
    let text = bytes[spelled.len..].get(..spelled.number)?;
    str::from_utf8(text).ok()
}

/// Returns the text of the entry at a place, and the place of the next entry.
#[inline]
fn text_and_next(bytes: &[u8], at: usize) -> (&str, usize)
    //~ requires { HasEntryAt bytes.now at }
    //~ ensures text { (texts : List Text) (i : ℕ) → bytes.now ≡ bytes_of texts
    //~     → BeginsAt place_of texts at i
    //~     → slice_get texts i ≡ Some result.0.now }
    //~ ensures next { (texts : List Text) (i : ℕ) → bytes.now ≡ bytes_of texts
    //~     → BeginsAt place_of texts at i
    //~     → result.1 ≡ place_of (take (i + 1) texts) }
{
    let front = &bytes[at..];
    let spelled = number_at(front).unwrap();
    let body = &front[spelled.len..];
    let text = &body[..spelled.number];
    // What was interned is UTF-8, which the unsafe call asks and the contract proves, so it is not tested again.
    (
        unsafe { str::from_utf8_unchecked(text) },
        at + spelled.len + spelled.number,
    )
}

impl<S: Symbol> BufferBackend<S> {
    /// Returns the buffer: the entries of all texts in order, each a length in LEB128 and then the text.
    #[inline]
    pub fn as_bytes(&self) -> &[u8]
        //~ ensures spelled { result.now ≡ bytes_of self.now.texts }
        //~ ensures len { length result.now ≡ place_of self.now.texts }
        //~ ensures valid { IsValidList S.symbol_of place_of self.now.texts }
    {
        &self.bytes
    }

    /// Returns how many bytes of memory the texts take, with what is spare. Takes constant time.
    ///
    /// ```ignore
    /// let bytes = names.backend().memory_used();
    /// ```
    pub fn memory_used(&self) -> usize
        //~ ensures { result ≡ place_of self.now.texts + self.now.room }
    {
        self.bytes.capacity()
    }

    /// Returns how many bytes an entry takes whose text has this length, if a `usize` can hold that. So the next place is so
    /// much greater.
    #[inline(always)]
    pub fn entry_len(text_len: usize) -> Option<usize>
        //~ ensures { SomeIff result (digits text_len + text_len < 2 ^ 64)
        //~     (digits text_len + text_len) }
    {
        digit_count(text_len).checked_add(text_len)
    }

    /// Returns the place of entry `index`. Reads the length of each entry before it.
    fn place_at(&self, index: usize) -> usize
        //~ requires { index ≤ length self.now.texts }
        //~ ensures { result ≡ place_of (take index self.now.texts) }
    {
        let bytes = self.as_bytes();
        let mut at = 0;
        for _entry in 0..index {
            at = text_and_next(bytes, at).1;
        }
        at
    }
}

impl<S: Symbol> Store for BufferBackend<S> {
    type Symbol = S;

    //~ ghost texts = { λ b. b.texts };

    //~ ghost room = { λ b. b.room };

    //~ ghost numbering = { buffer_numbering S.symbol_of S.number };

    #[inline(always)]
    fn is_full(&self) -> bool {
        S::try_from_usize(self.as_bytes().len()).is_none()
    }

    /// Appends the length of the text and a copy of it.
    fn intern(&mut self, text: &str) -> Result<S, InternError> {
        let symbol = self.next_symbol().ok_or(InternError::NoSymbol)?;
        let len = Self::entry_len(text.len()).ok_or(AllocError)?;
        // Allocates before it stores anything, so that nothing changes on `Err`.
        reserve_items(&mut self.bytes, len)?;
        push_number(&mut self.bytes, text.len());
        self.bytes.extend_from_slice(text.as_bytes()).unwrap();
        self.count += 1;
        Ok(symbol)
    }

    /// Returns the text that is decoded at the symbol's number, if any. For the symbol of an entry this is its text.
    ///
    /// Any other number gives `None`, or a text from the middle of an entry or across two: whatever follows bytes that
    /// decode as its length, in at most ten digits. Such a length may have more digits than it needs.
    fn resolve(&self, symbol: S) -> Option<&str>
        //~ ensures value { option_copied result ≡ read_at self.now.texts (S.number symbol) }
        //~ ensures reads { (text : Text) → (option_copied result ≡ Some text)
        //~     ↔ Reads (bytes_of self.now.texts) (S.number symbol) text }
    {
        front_text(self.as_bytes().get(symbol.to_usize()..)?)
    }

    fn resolve_unchecked(&self, symbol: S) -> &str {
        text_and_next(self.as_bytes(), symbol.to_usize()).0
    }

    /// Reduces spare capacity if it can: leaves no more than there was, and none if there are no texts.
    fn shrink_to_fit(&mut self)
        //~ ensures { Shrinks self.old self.new }
    {
        self.bytes.shrink_to_fit();
    }

    //~ ghost symbols = { (refl, refl) };

    //~ ghost starts = { refl };

    //~ ghost grows = { place_grows };

    //~ ghost costs = { entry_len-positive };

    //~ ghost reads = { reads_at_place S.symbol_of };
}

impl<S: Symbol> Backend for BufferBackend<S> {
    //~ ghost grant = { λ capacity. 13 * capacity };

    fn new(alloc: Global) -> Self {
        BufferBackend {
            count: 0,
            bytes: Vec::new(alloc),
            symbols: PhantomData,
        }
    }

    /// Makes an empty backend with capacity for `13 * capacity` bytes: for each text 5, and 8 for its length.
    ///
    /// Returns `Err` only if an allocation fails or a size does not fit a `usize`.
    fn with_capacity(alloc: Global, capacity: usize) -> Result<Self, AllocError>
        //~ ensures texts { IfOk result (λ backend. backend.texts ≡ []) }
        //~ ensures room { IfOk result (λ backend. 13 * capacity ≤ backend.room) }
        //~ ensures fits { OnOk result (13 * capacity < 2 ^ 64) }
    {
        let bytes = capacity.checked_mul(13).ok_or(AllocError)?;
        Ok(BufferBackend {
            count: 0,
            bytes: Vec::with_capacity(alloc, bytes)?,
            symbols: PhantomData,
        })
    }

    fn count(&self) -> usize {
        self.count
    }

    fn next_symbol(&self) -> Option<S> {
        S::try_from_usize(self.as_bytes().len())
    }

    fn entry_at(&self, at: usize) -> (S, &str, usize) {
        let (text, next) = text_and_next(self.as_bytes(), at);
        (S::try_from_usize(at).unwrap(), text, next)
    }

    fn place_of(&self, index: usize) -> usize {
        self.place_at(index)
    }

    fn truncate(&mut self, len: usize) {
        if len < self.count {
            let end = self.place_at(len);
            self.bytes.truncate(end);
            self.count = len;
        }
    }
}

impl<S: Symbol> BufferBackend<S> {
    /// Returns a backend with an equal list. Returns `Err` only if an allocation fails.
    pub fn clone(&self) -> Result<Self, AllocError>
        //~ ensures { IfOk result (λ copy. copy.texts ≡ self.now.texts) }
    {
        Ok(BufferBackend {
            count: self.count,
            bytes: Vec::from_slice(*self.bytes.allocator(), &self.bytes)?,
            symbols: PhantomData,
        })
    }
}

impl<S: Symbol> CopyBackend for BufferBackend<S> {
    fn try_copy(&self) -> Result<Self, AllocError> {
        self.clone()
    }
}

impl<'a, S: Symbol> IntoIterator for &'a BufferBackend<S> {
    type Item = (S, &'a str);

    type IntoIter = Iter<'a, BufferBackend<S>>;

    //~ ghost into_iter_gives = { λ backend iter. iter ≡ iter_over backend.now.texts };

    fn into_iter(self) -> Iter<'a, BufferBackend<S>> {
        Iter::new(self)
    }
}

/// Equal exactly if the lists of texts are, whatever the spare capacities. Compares bytes and decodes nothing.
impl<S: Symbol> PartialEq for BufferBackend<S> {
    //~ ghost eq = { λ a b. texts_eq a.texts b.texts };

    //~ ghost laws = { partial_equiv_from_equiv
    //~     (on_equiv (λ (b : Contents). b.texts) texts_eq-IsEquivalence) };

    fn eq(&self, other: &Self) -> bool
        //~ ensures value { result ≡ texts_eq self.now.texts other.now.texts }
        //~ ensures lists { IsTrue result ↔ (self.now.texts ≡ other.now.texts) }
    {
        self.as_bytes() == other.as_bytes()
    }
}

impl<S: Symbol> Eq for BufferBackend<S> {
    //~ ghost laws = { on_equiv (λ (b : Contents). b.texts) texts_eq-IsEquivalence };
}

/// Does nothing. Its clauses are laws of the bytes that `as_bytes` returns: no entry is a proper prefix of another, so
/// equal bytes encode equal lists, and a length has the fewest digits.
pub fn spelling_law()
    //~ ensures entries { (t u : Text) (x y : List ℕ) → entry_of t ++ x ≡ entry_of u ++ y → t ≡ u }
    //~ ensures bytes { (l m : List Text) → (bytes_of l ≡ bytes_of m) ↔ (l ≡ m) }
    //~ ensures lengths { (n : ℕ) → IsLeastDigitCount n (digits n) }
{}
