//! A column of a dictionary and codes from outside.

//~ ghost use Rattle.std.specs.Prelude.{◌≡◌, ◌<◌, [], All, List, length, IfOk, IfErr, IsTrue, OnOk};
//~ ghost use Rattle.string_interner.specs.Text.{Text, IsDistinct};
//~ ghost use Rattle.string_interner.specs.Extend.{texts_of};
//~ ghost use Rattle.string_column.specs.Column.{dictionary_of, rows_of};
//~ ghost use Rattle.string_column.specs.Parts.{IsCodeFault, IsEntryFault, IsMadeOf, refused};

use crate::rt::prelude::*; use super::Column;
use crate::string_column::code_list::Codes;
use crate::string_column::dictionary::{Dictionary, TextList};
use crate::rt::alloc::{AllocError, Global};
use crate::rt::fmt;
use crate::erased::StringInterner;
use crate::erased::backend::{Backend, InternError};
use crate::erased::dedup::{TextHasher, TextIndex};

/// Why a dictionary and codes do not make a column.
///
/// ```ignore
/// let fault = <Column>::from_parts(alloc, FoldState::default(), &["red", "red"], codes); // Err(Repeated { index: 1 })
/// ```
#[derive(Clone, Copy, Debug, PartialEq, Eq)]
pub enum PartsError {
    /// The entry at this index equals an earlier one.
    Repeated { index: usize },
    /// The code of this row is not the index of an entry.
    NoEntry { row: usize },
    /// The symbol type has no symbol left for an entry.
    NoSymbol,
    /// An allocation failed, or a size does not fit a `usize`.
    Memory(AllocError),
}

/// Keeps the reason: `NoSymbol` stays `NoSymbol`, and `Memory` stays `Memory`.
impl From<InternError> for PartsError {
    //~ ghost from_gives = { λ error refusal. refusal ≡ refused error };

    fn from(error: InternError) -> PartsError {
        match error {
            InternError::NoSymbol => PartsError::NoSymbol,
            InternError::Memory(error) => PartsError::Memory(error),
        }
    }
}

impl fmt::Display for PartsError {
    fn fmt(&self, f: &mut fmt::Formatter<'_>) -> fmt::Result {
        match self {
            PartsError::Repeated { index } => write!(f, "entry {index} is repeated"),
            PartsError::NoEntry { row } => write!(f, "the code of row {row} has no entry"),
            PartsError::NoSymbol => write!(f, "no symbol is left"),
            PartsError::Memory(_) => write!(f, "out of memory"),
        }
    }
}

/// Reports whether so many entries stand in the order in which the rows first have them, and each has a row.
///
/// Returns `NoEntry` with the first row whose code is not the index of an entry.
fn check_codes(codes: &Codes, count: usize) -> Result<bool, PartsError>
    //~ ensures indexes { OnOk result (All (λ code. code < count) codes.now.items) }
    //~ ensures order { IfOk result (λ is_in_order. IsTrue is_in_order → (entries : List Text)
    //~     → IsDistinct entries → length entries ≡ count
    //~     → dictionary_of (rows_of entries codes.now.items) ≡ entries) }
    //~ ensures err { IfErr result (IsCodeFault count codes.now.items) }
{
    let mut is_in_order = true;
    let mut next = 0;
    for row in 0..codes.len() {
        let code = codes.at(row);
        if code >= count {
            return Err(PartsError::NoEntry { row });
        }
        is_in_order &= code <= next;
        if code == next {
            next += 1;
        }
    }
    Ok(is_in_order & (next == count))
}

/// Interns texts into an empty dictionary, each of which must be new.
fn intern_entries<B: Backend, H: TextHasher, I: TextIndex<B::Symbol>>(
    entries: &mut Dictionary<B, H, I>,
    texts: &[&str],
) -> Result<(), PartsError>
    //~ requires { entries.old ≡ [] }
    //~ ensures all { OnOk result (entries.new ≡ texts_of texts.now) }
    //~ ensures distinct { OnOk result (IsDistinct (texts_of texts.now)) }
    //~ ensures fault { IfErr result (IsEntryFault B.numbering (texts_of texts.now)) }
{
    for (index, text) in texts.iter().enumerate() {
        if entries.intern(text)? != index {
            return Err(PartsError::Repeated { index });
        }
    }
    Ok(())
}

impl<B: Backend + Drop, H: TextHasher + Drop, I: TextIndex<B::Symbol> + Drop> Column<B, H, I> {
    /// Makes a column of a dictionary and a code for each row, with this hasher. A file or another program may have
    /// them from `dictionary` and `codes` of a column.
    ///
    /// If each entry has a row, and the entries are in the order in which the rows first have them, the column takes
    /// the codes as they are. Otherwise it encodes the rows again: entries get other codes, and an entry without a row
    /// is dropped.
    ///
    /// Returns `Repeated` with the first entry that equals an earlier one. If there is none, returns `NoEntry` with the
    /// first row whose code is not the index of an entry. Returns `NoSymbol` and `Memory` as `push` does.
    ///
    /// Hashes each entry once. To encode the rows again, it hashes each entry that has a row once more, and uses 16
    /// bytes for each entry while it runs.
    ///
    /// ```ignore
    /// let colors = <Column>::from_parts(alloc, FoldState::default(), &["red", "green"], codes)?;
    /// ```
    pub fn from_parts(
        alloc: Global,
        hasher: H,
        dictionary: &[&str],
        codes: Codes,
    ) -> Result<Self, PartsError>
        //~ ensures { IsMadeOf B.numbering (texts_of dictionary.now) codes.items result }
    {
        let mut entries = Dictionary::with_hasher(alloc, hasher);
        intern_entries(&mut entries, dictionary)?;
        if check_codes(&codes, dictionary.len())? {
            return Ok(Column {
                dictionary: entries,
                codes,
            });
        }
        entries.clear();
        Column::encode_codes(alloc, entries, &dictionary, &codes)
    }

    /// Makes a column of the texts of an interner and a code for each row, as `from_parts` does of a dictionary and codes. The
    /// column keeps the interner, so that no text is hashed again.
    ///
    /// If it encodes the rows again, it does so in an interner with this hasher, hashes each text that has a row once, uses 16
    /// bytes for each text while it runs, and then drops the interner that you gave. Returns `NoEntry`, `NoSymbol` and `Memory`
    /// as `from_parts` does.
    ///
    /// Allocates a list of the symbols from the first on whose number is not the index of its text.
    ///
    /// ```ignore
    /// let colors = <Column>::from_interner(alloc, FoldState::default(), interner, codes)?;
    /// ```
    pub fn from_interner(
        alloc: Global,
        hasher: H,
        interner: StringInterner<B, H, I>,
        codes: Codes,
    ) -> Result<Self, PartsError>
        //~ ensures { IsMadeOf B.numbering interner.texts codes.items result }
    {
        // For the proof: states that the texts are distinct.
        let _ = interner.len();
        let entries = Dictionary::from_interner(alloc, interner).map_err(PartsError::Memory)?;
        if check_codes(&codes, entries.len())? {
            return Ok(Column {
                dictionary: entries,
                codes,
            });
        }
        Column::encode_codes(
            alloc,
            Dictionary::with_hasher(alloc, hasher),
            &entries,
            &codes,
        )
    }

    /// Makes a column of a row for each code, the index of a text, in a dictionary without entries.
    fn encode_codes<T: TextList>(
        alloc: Global,
        dictionary: Dictionary<B, H, I>,
        texts: &T,
        codes: &Codes,
    ) -> Result<Self, PartsError>
        //~ requires empty { dictionary ≡ [] }
        //~ requires distinct { IsDistinct (T.texts texts.now) }
        //~ requires indexes { All (λ code. code < length (T.texts texts.now)) codes.now.items }
        //~ ensures { IsMadeOf B.numbering (T.texts texts.now) codes.now.items result }
    {
        let mut column = Column {
            dictionary,
            codes: Codes::new(alloc),
        };
        column.append_codes(texts, codes, 0, codes.len())?;
        Ok(column)
    }
}
