//! Appending the rows of another column, and a column of some of the rows.

//~ ghost use Rattle.std.specs.Prelude.{◌≡◌, ◌<◌, ◌≤◌, [], ◌∷◌, ◌++◌, All, length, slice_get, slice_range, Some, OnOk, OnErr};
//~ ghost use Rattle.string_interner.specs.Text.{Text};
//~ ghost use Rattle.string_column.specs.Column.{dictionary_of, rows_of, AppendsRows, MakesColumn};

use crate::rt::prelude::*; use super::Column;
use crate::string_column::code_list::Codes;
use crate::string_column::dictionary::TextList;
use crate::rt::alloc::{AllocError, Global};
use crate::erased::backend::{Backend, InternError};
use crate::erased::dedup::{TextHasher, TextIndex};

impl<B: Backend, H: TextHasher, I: TextIndex<B::Symbol>> Column<B, H, I> {
    /// Appends the rows of another column. They get codes of this column's dictionary.
    ///
    /// Stops at the first row that `push` fails for, and returns that error. The rows before it stay, so the new length
    /// of the column gives their number.
    ///
    /// Hashes each distinct row of the other column once. While it runs it uses 16 bytes for each of them, and returns
    /// `Memory` without appending a row if it cannot allocate these.
    ///
    /// ```ignore
    /// let mut all = <Column>::new(alloc);
    /// all.append(&monday)?;
    /// all.append(&tuesday)?;
    /// ```
    pub fn append(&mut self, other: &Self) -> Result<(), InternError>
        //~ ensures { AppendsRows B.numbering self.old other.now result self.new }
    {
        self.append_range(other, 0, other.len())
    }

    /// Appends the rows of another column from `start` to before `end`, as `append` appends all of them.
    ///
    /// Hashes each distinct row of the part once. While it runs it uses 16 bytes for each distinct row of the other column.
    ///
    /// ```ignore
    /// all.append_range(&monday, 1, monday.len())?;
    /// ```
    pub fn append_range(
        &mut self,
        other: &Self,
        start: usize,
        end: usize,
    ) -> Result<(), InternError>
        //~ requires ordered { start ≤ end }
        //~ requires within { end ≤ length other.now }
        //~ ensures { AppendsRows B.numbering self.old (slice_range other.now start end) result
        //~     self.new }
    {
        self.append_codes(&other.dictionary, &other.codes, start, end)
    }

    /// Appends a row for each code from `start` to before `end`. Each code is an index of one of these entries.
    ///
    /// Hashes each entry of these rows once.
    pub(super) fn append_codes<T: TextList>(
        &mut self,
        entries: &T,
        codes: &Codes,
        start: usize,
        end: usize,
    ) -> Result<(), InternError>
        //~ requires ordered { start ≤ end }
        //~ requires within { end ≤ length codes.now.items }
        //~ requires indexes { All (λ code. code < length (T.texts entries.now)) codes.now.items }
        //~ ensures { AppendsRows B.numbering self.old
        //~     (slice_range (rows_of (T.texts entries.now) codes.now.items) start end) result
        //~     self.new }
    {
        if start == end {
            return Ok(());
        }
        // Our code of each of their entries, once a row had it.
        let mut known = crate::rt::vec![in self.codes.allocator(); None; entries.len()]?;
        for row in start..end {
            let theirs = codes.at(row);
            match known[theirs] {
                Some(ours) => self.push_code(ours)?,
                None => known[theirs] = Some(self.push(entries.text_at(theirs))?),
            }
        }
        Ok(())
    }

    /// Appends a row with a code that is known.
    ///
    /// Returns `Err`, and changes nothing, only if an allocation fails.
    fn push_code(&mut self, code: usize) -> Result<(), AllocError>
        //~ requires { code < length (dictionary_of self.old) }
        //~ ensures ok { (row : Text) → slice_get (dictionary_of self.old) code ≡ Some row
        //~     → OnOk result (self.new ≡ self.old ++ row ∷ []) }
        //~ ensures err { OnErr result (self.new ≡ self.old) }
    {
        self.codes.push(code)
    }
}

impl<B: Backend + Drop, H: TextHasher + Drop, I: TextIndex<B::Symbol> + Drop> Column<B, H, I> {
    /// Makes a column of the rows from `start` to before `end`, with this hasher and a dictionary of its own.
    ///
    /// Returns `Err` if `append` of these rows to an empty column does. Hashes each distinct row of the part once.
    /// While it runs it uses 16 bytes for each distinct row of this whole column.
    ///
    /// ```ignore
    /// let morning = log.slice(alloc, FoldState::default(), 0, 1_000)?;
    /// ```
    pub fn slice(
        &self,
        alloc: Global,
        hasher: H,
        start: usize,
        end: usize,
    ) -> Result<Self, InternError>
        //~ requires ordered { start ≤ end }
        //~ requires within { end ≤ length self.now }
        //~ ensures { MakesColumn B.numbering (slice_range self.now start end) result }
    {
        let mut part = Column::with_hasher(alloc, hasher);
        part.append_range(self, start, end)?;
        Ok(part)
    }
}
