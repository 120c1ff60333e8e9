//! A column of texts: each distinct one once, and its index for each row.

use crate::rt::prelude::*; pub mod append;
pub mod iter;
pub mod parts;

//~ ghost use Rattle.std.specs.Prelude.{◌≡◌, ◌↔◌, ◌≤◌, [], length, slice_get, IfOk, IsTrue};
//~ ghost use Rattle.std.specs.Option.{option_copied};
//~ ghost use Rattle.string_interner.specs.Extend.{IsFinite, YieldedBy};
//~ ghost use Rattle.string_interner.specs.InternAll.{Lists};
//~ ghost use Rattle.string_column.specs.Column.{dictionary_of, counts_of, AreCodes, AppendsRow, AppendsYielded};

use crate::string_column::code_list::Codes;
use crate::string_column::dictionary::{BLOCK_LEN, Dictionary, FEWEST_FOR_BLOCKS, TextList};
pub use iter::Iter;
pub use parts::PartsError;
use crate::rt::alloc::{AllocError, Global};
use crate::rt::marker::Model;
use crate::erased::StringInterner;
use crate::erased::backend::{Backend, DefaultBackend, InternError, Store};
use crate::erased::dedup::{FoldState, TaggedIndex, TextHasher, TextIndex};

/// A list of texts, the rows. It stores equal rows once.
///
/// The dictionary has the distinct rows in the order of first appearance. The code of a row is the index of its text in
/// the dictionary ([`Codes`] says how it is stored). If you name no other backend, hasher or index, the dictionary is a
/// `FastStringInterner`.
///
/// ```ignore
/// let mut colors = <Column>::new(alloc);
/// colors.encode(["red", "green", "red"].iter().copied())?;
/// let last = colors.row(2); // Some("red")
/// let code = colors.codes().get(2); // Some(0)
/// ```
//~ #[derive(Drop)]
pub struct Column<
    B: Backend = DefaultBackend,
    H: TextHasher = FoldState,
    I: TextIndex<B::Symbol> = TaggedIndex<<B as Store>::Symbol>,
> {
    dictionary: Dictionary<B, H, I>,
    codes: Codes,
}

//~ /// Contracts see the rows.
//~ impl<B: Backend, H: TextHasher, I: TextIndex<B::Symbol>> Model for Column<B, H, I> {
//~     ghost use Rattle.std.specs.Prelude.{List};
//~     ghost use Rattle.string_interner.specs.Text.{Text};
//~     ghost use Rattle.string_column.specs.Column.{rows_of, IsColumn};
//~
//~     ghost Value = { List Text };
//~
//~     ghost view = { λ c. rows_of c.dictionary c.codes.items };
//~
//~     ghost invariant = { λ c. IsColumn c.dictionary c.codes.items
//~         (rows_of c.dictionary c.codes.items) };
//~ }

impl<B: Backend, H: TextHasher + Default, I: TextIndex<B::Symbol>> Column<B, H, I> {
    /// Makes a column without rows, with the default value of the hasher. Allocates nothing.
    ///
    /// ```ignore
    /// let mut colors = <Column>::new(alloc);
    /// ```
    pub fn new(alloc: Global) -> Self
        //~ ensures { result ≡ [] }
    {
        Column::with_hasher(alloc, H::default())
    }
}

impl<B: Backend, H: TextHasher, I: TextIndex<B::Symbol>> Column<B, H, I> {
    /// Makes a column without rows, with this hasher. Allocates nothing.
    ///
    /// If strangers choose the texts, take a hasher with secret keys.
    ///
    /// ```ignore
    /// let mut colors = Column::<BufferBackend, _>::with_hasher(alloc, SeededHasher::new(SeededState::new(key0, key1)));
    /// ```
    pub fn with_hasher(alloc: Global, hasher: H) -> Self
        //~ ensures { result ≡ [] }
    {
        Column {
            dictionary: Dictionary::with_hasher(alloc, hasher),
            codes: Codes::new(alloc),
        }
    }

    /// Returns the number of rows. Takes constant time.
    ///
    /// ```ignore
    /// let rows = colors.len(); // 3, for red, green, red
    /// ```
    #[inline]
    pub fn len(&self) -> usize
        //~ ensures { result ≡ length self.now }
    {
        self.codes.len()
    }

    /// Returns whether there are no rows. Takes constant time.
    ///
    /// ```ignore
    /// let is_empty = colors.is_empty(); // false
    /// ```
    #[inline]
    pub fn is_empty(&self) -> bool
        //~ ensures { IsTrue result ↔ (self.now ≡ []) }
    {
        self.len() == 0
    }

    /// Returns the number of distinct rows, which is the number of entries of the dictionary. Takes constant time.
    ///
    /// ```ignore
    /// let count = colors.distinct(); // 2, for red, green, red
    /// ```
    #[inline]
    pub fn distinct(&self) -> usize
        //~ ensures { result ≡ length (dictionary_of self.now) }
    {
        self.dictionary.len()
    }

    /// Returns the text of the row at `index`, or `None` if there are at most `index` rows.
    ///
    /// Reads the code of the row, the symbol of its entry, and the text of that symbol. Searches and allocates nothing.
    ///
    /// ```ignore
    /// let second = colors.row(1); // Some("green")
    /// ```
    #[inline]
    pub fn row(&self, index: usize) -> Option<&str>
        //~ ensures { option_copied result ≡ slice_get self.now index }
    {
        match self.codes.get(index) {
            Some(code) => Some(self.dictionary.text_at(code)),
            None => None,
        }
    }

    /// Returns an iterator over the rows in order. A step costs what `row` costs.
    ///
    /// ```ignore
    /// for row in colors.iter() {} // red, green, red
    /// ```
    pub fn iter(&self) -> Iter<'_, B, H, I>
        //~ ensures { result ≡ self.now }
    {
        Iter::new(self)
    }

    /// Returns the interner of the distinct rows, in the order of first appearance.
    ///
    /// The index of an entry is its code. It is also the number of its symbol, except over a backend that numbers
    /// otherwise, such as `BufferBackend`.
    ///
    /// ```ignore
    /// for (_, text) in colors.dictionary() {} // red, green
    /// ```
    pub fn dictionary(&self) -> &StringInterner<B, H, I>
        //~ ensures { result.now.texts ≡ dictionary_of self.now }
    {
        self.dictionary.interner()
    }

    /// Returns the code of each row: the index of its text in the dictionary.
    ///
    /// The column stores these codes, so this takes constant time.
    ///
    /// ```ignore
    /// let (narrow, wide) = colors.codes().as_slices(); // [0, 1, 0], []
    /// ```
    pub fn codes(&self) -> &Codes
        //~ ensures { AreCodes (dictionary_of self.now) result.now.items self.now }
    {
        &self.codes
    }

    /// Returns how many rows each entry of the dictionary has, in the order of the entries.
    ///
    /// Reads each code once. Returns `Err` only if it cannot allocate the list of counts.
    ///
    /// ```ignore
    /// colors.encode(["red", "green", "red"].iter().copied())?;
    /// let counts = colors.counts(alloc)?; // 2, 1
    /// ```
    pub fn counts(&self, alloc: Global) -> Result<Vec<usize>, AllocError>
        //~ ensures { IfOk result (λ counts. counts.items ≡ counts_of self.now) }
    {
        let mut counts = crate::rt::vec![in alloc; 0_usize; self.distinct()]?;
        for index in 0..self.len() {
            let code = self.codes.at(index);
            counts[code] += 1;
        }
        Ok(counts)
    }

    /// Appends a row, and returns its code.
    ///
    /// Returns `NoSymbol` only if the row is new and the symbol type has no symbol left for it. Returns `Memory` only
    /// if an allocation fails or a size does not fit a `usize`. On `Err` the rows are unchanged.
    ///
    /// Hashes the row once. Over a backend whose symbols have other numbers than their indexes, such as
    /// `BufferBackend`, a known row also takes a binary search in the dictionary.
    ///
    /// ```ignore
    /// let code = colors.push("blue")?; // 2
    /// ```
    #[inline]
    pub fn push(&mut self, row: &str) -> Result<usize, InternError>
        //~ ensures { AppendsRow B.numbering self.old row.now result self.new }
    {
        self.codes.reserve(self.dictionary.len())?;
        let code = self.dictionary.intern(row)?;
        self.codes.push_reserved(code);
        Ok(code)
    }

    /// Appends a row for each text of a finite iterator.
    ///
    /// Stops at the first text that `push` fails for, and returns that error. The rows before it stay, so the new
    /// length of the column gives their number. Hashes each text once.
    ///
    /// In a large dictionary many texts are looked for together, which takes less time than one after another. So the iterator
    /// may have been advanced past the text that fails, by up to 255 texts.
    ///
    /// ```ignore
    /// colors.encode(["red", "green", "red"].iter().copied())?;
    /// ```
    pub fn encode<'t, T: IntoIterator<Item = &'t str>>(
        &mut self,
        texts: T,
    ) -> Result<(), InternError>
        //~ requires { IsFinite T.IntoIterator T.IntoIter.Iterator texts }
        //~ ensures { AppendsYielded B.numbering
        //~     (YieldedBy T.IntoIterator T.IntoIter.Iterator texts) self.old result self.new }
    {
        let mut block = [""; BLOCK_LEN];
        let mut len = 0;
        for text in texts {
            // A block that has begun is filled first, so that rows stay in order.
            if len == 0 && self.distinct() < FEWEST_FOR_BLOCKS {
                self.push(text)?;
                continue;
            }
            block[len] = text;
            len += 1;
            if len == BLOCK_LEN {
                self.push_block(&block)?;
                len = 0;
            }
        }
        if len == 0 {
            return Ok(());
        }
        self.push_block(&block[..len])
    }

    /// Appends a row for each text of a block. Stops at the first text that `push` fails for.
    #[inline(never)]
    fn push_block(&mut self, texts: &[&str]) -> Result<(), InternError>
        //~ requires { length texts.now ≤ 256 }
        //~ ensures { AppendsYielded B.numbering (Lists texts.now) self.old result self.new }
    {
        self.dictionary.intern_block(texts, &mut self.codes)
    }
}
