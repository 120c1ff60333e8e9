//! The dictionary of a column: distinct texts, each with its index.

//~ ghost use Rattle.std.specs.Prelude.{◌≡◌, ◌≤◌, ◌<◌, List, [], length, slice_get, Some, Ok, Err, IfOk, MatchResult};
//~ ghost use Rattle.string_interner.specs.Text.{Text};
//~ ghost use Rattle.string_interner.specs.Extend.{texts_of};
//~ ghost use Rattle.string_column.specs.Ahead.{IsAhead, PutsRows, TakesRows};
//~ ghost use Rattle.string_column.specs.Entries.{FindsIndex};

use crate::rt::prelude::*; use crate::string_column::code_list::Codes;
use crate::string_column::symbols::SymbolList;
use crate::rt::alloc::{AllocError, Global};
use crate::rt::marker::Model;
use crate::erased::backend::{Backend, DefaultBackend, InternError, Store};
use crate::erased::dedup::{FoldState, TaggedIndex, TextHasher, TextIndex};
use crate::erased::{Stopped, StringInterner, Symbol};

/// How many texts a block has at most. Interning looks for 32 of them at a time, or leaves that if it finds few; with more texts
/// in a block it does so less often, with fewer they stay in the processor's cache.
pub const BLOCK_LEN: usize = 256;

/// From so many texts on a block pays. Its codes take a pass of their own.
pub const FEWEST_FOR_BLOCKS: usize = 2 * crate::erased::FEWEST_FOR_BLOCKS;

/// A list of texts that are read by their indexes.
pub trait TextList: Sized {
    //~ /// The texts.
    //~ ghost texts: { Self → List Text };

    /// Returns the number of texts.
    fn len(&self) -> usize;
        //~ ensures { result ≡ length (texts self.now) };

    /// Returns the text at an index.
    fn text_at(&self, index: usize) -> &str;
        //~ requires { index < length (texts self.now) }
        //~ ensures { slice_get (texts self.now) index ≡ Some result.now };
}

/// Texts from outside.
impl<'a, 't> TextList for &'a [&'t str] {
    //~ ghost texts = { λ s. texts_of s.now };

    fn len(&self) -> usize {
        (**self).len()
    }

    fn text_at(&self, index: usize) -> &str {
        self[index]
    }
}

/// Distinct texts in the order of first appearance, each with its index: the dictionary of a column, or of a list of your own that
/// has something for each distinct text.
///
/// The number of a symbol need not be the index of its text: over `BufferBackend` it is an offset. So the symbols are stored here
/// from the first on whose number is another. Their numbers ascend, so a binary search finds the index of one.
///
/// ```ignore
/// let mut words = Dictionary::<BufferBackend>::with_hasher(alloc, FoldState::default());
/// let index = words.intern("red")?; // 0, and the same again
/// let other = words.intern("green")?; // 1
/// ```
//~ #[derive(Drop)]
pub struct Dictionary<
    B: Backend = DefaultBackend,
    H: TextHasher = FoldState,
    I: TextIndex<B::Symbol> = TaggedIndex<<B as Store>::Symbol>,
> {
    interner: StringInterner<B, H, I>,
    /// The symbol of each entry.
    symbols: SymbolList<B::Symbol>,
}

//~ /// Contracts see the texts.
//~ impl<B: Backend, H: TextHasher, I: TextIndex<B::Symbol>> Model for Dictionary<B, H, I> {
//~     ghost use Rattle.std.specs.Prelude.{List};
//~     ghost use Rattle.string_interner.specs.Text.{Text};
//~     ghost use Rattle.string_column.specs.Entries.{AreNumbered};
//~
//~     ghost Value = { List Text };
//~
//~     ghost view = { λ e. e.interner.texts };
//~
//~     ghost invariant = { λ e. AreNumbered B.numbering e.interner.texts e.symbols };
//~ }

/// Appends the index of each symbol with these numbers to codes, and each symbol that is new to the list.
///
/// Returns `Err` only if an allocation fails. Then this is done for the numbers before one.
fn take_numbers<B: Backend>(
    symbols: &mut SymbolList<B::Symbol>,
    numbers: &[usize],
    codes: &mut Codes,
) -> Result<(), AllocError>
    //~ requires { (front entries texts : List Text)
    //~     × IsAhead B.numbering front entries symbols.old texts numbers.now }
    //~ ensures { (front entries texts : List Text)
    //~     → IsAhead B.numbering front entries symbols.old texts numbers.now
    //~     → TakesRows B.numbering front entries texts codes.old.items result
    //~     (symbols.new, codes.new.items) }
{
    for at in 0..numbers.len() {
        let Some(symbol) = B::Symbol::try_from_usize(numbers[at]) else {
            unreachable!()
        };
        // Before the symbol is stored, so that nothing has to be undone.
        codes.reserve(symbols.len())?;
        let index = symbols.find_or_push(symbol)?;
        codes.push_reserved(index);
    }
    Ok(())
}

/// Returns how many texts of a slice were interned, and what interning one by one would have returned.
fn count_done(texts: usize, ended: Result<(), Stopped>) -> (usize, Result<(), InternError>)
    //~ ensures { MatchResult ended (λ _. result ≡ (texts, Ok tt))
    //~     (λ stopped. result ≡ (stopped.done, Err stopped.error)) }
{
    match ended {
        Ok(()) => (texts, Ok(())),
        Err(stopped) => (stopped.done, Err(stopped.error)),
    }
}

impl<B: Backend, H: TextHasher, I: TextIndex<B::Symbol>> Dictionary<B, H, I> {
    /// Makes an empty dictionary with this hasher. Allocates nothing.
    ///
    /// ```ignore
    /// let mut words = Dictionary::<BufferBackend>::with_hasher(alloc, FoldState::default());
    /// ```
    pub fn with_hasher(alloc: Global, hasher: H) -> Self
        //~ ensures { result ≡ [] }
    {
        Dictionary {
            interner: StringInterner::with_hasher(alloc, hasher),
            symbols: SymbolList::new(alloc),
        }
    }

    /// Returns the interner of the texts, which has their number, and yields them in order.
    ///
    /// ```ignore
    /// let count = words.interner().len(); // 2, for red and green
    /// ```
    pub fn interner(&self) -> &StringInterner<B, H, I>
        //~ ensures { result.now.texts ≡ self.now }
    {
        &self.interner
    }

    /// Returns the index of a text. Appends the text if it is new.
    ///
    /// Returns `NoSymbol` only if the text is new and the symbol type has no symbol left for it. Returns `Memory` only if an
    /// allocation fails or a size does not fit a `usize`. On `Err` the texts are unchanged.
    ///
    /// Hashes the text once. Over a backend whose symbols have other numbers than their indexes, a known text also takes a binary
    /// search.
    ///
    /// ```ignore
    /// let index = words.intern("red")?; // 0
    /// ```
    #[inline]
    pub fn intern(&mut self, text: &str) -> Result<usize, InternError>
        //~ ensures { FindsIndex B.numbering self.old text.now result self.new }
    {
        let count = self.interner.len();
        let symbol = self.interner.get_or_intern(text)?;
        match self.symbols.find_or_push(symbol) {
            Ok(index) => Ok(index),
            Err(error) => {
                // The text has no index.
                self.interner.truncate(count);
                Err(InternError::Memory(error))
            }
        }
    }

    /// Appends the index of each of at most [`BLOCK_LEN`] texts to codes. Appends the texts that are new. Stops at the first text
    /// that `intern` fails for, or whose index cannot be stored.
    ///
    /// In a large dictionary the texts are looked for together. From [`FEWEST_FOR_BLOCKS`] texts on this takes less time than
    /// `intern` of each.
    ///
    /// ```ignore
    /// let mut codes = Codes::new(alloc);
    /// words.intern_block(&["red", "green", "red"], &mut codes)?; // 0, 1, 0
    /// ```
    pub fn intern_block(&mut self, texts: &[&str], codes: &mut Codes) -> Result<(), InternError>
        //~ requires { length texts.now ≤ 256 }
        //~ ensures { PutsRows B.numbering texts.now (self.old, codes.old.items) result
        //~     (self.new, codes.new.items) }
    {
        // For the proof: states that the texts are distinct.
        let _ = self.interner.len();
        let mut numbers = [0; BLOCK_LEN];
        let ended = self.interner.intern_slice(texts, &mut numbers);
        let (done, outcome) = count_done(texts.len(), ended);
        // For the proof: states that the next number fits.
        let _ = self.interner.len();
        if let Err(error) = take_numbers::<B>(&mut self.symbols, &numbers[..done], codes) {
            // The other texts have no code.
            self.interner.truncate(self.symbols.len());
            return Err(InternError::Memory(error));
        }
        outcome
    }

    /// Drops all entries. Releases no memory.
    pub(crate) fn clear(&mut self)
        //~ ensures { self.new ≡ [] }
    {
        self.interner.truncate(0);
        self.symbols.clear();
    }
}

impl<B: Backend + Drop, H: TextHasher + Drop, I: TextIndex<B::Symbol> + Drop> Dictionary<B, H, I> {
    /// Makes a dictionary of the texts of an interner, in their order.
    ///
    /// Returns `Err` only if it cannot allocate the list of their symbols.
    pub(crate) fn from_interner(
        alloc: Global,
        interner: StringInterner<B, H, I>,
    ) -> Result<Self, AllocError>
        //~ ensures { IfOk result (λ entries. entries ≡ interner.texts) }
    {
        // For the proof: states that the next number fits.
        let _ = interner.len();
        let mut symbols = SymbolList::new(alloc);
        for (symbol, _) in &interner {
            symbols.find_or_push(symbol)?;
        }
        Ok(Dictionary { interner, symbols })
    }
}

impl<B: Backend, H: TextHasher, I: TextIndex<B::Symbol>> TextList for Dictionary<B, H, I> {
    //~ ghost texts = { λ e. e };

    #[inline]
    fn len(&self) -> usize {
        self.interner.len()
    }

    #[inline]
    fn text_at(&self, index: usize) -> &str {
        self.interner.resolve_unchecked(self.symbols.at(index))
    }
}
