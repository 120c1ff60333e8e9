//! The lines of some rows: of `dict.txt` no more is held than a block, and each of these lines once.

//~ ghost use Rattle.std.specs.Prelude.{◌≡◌, ℕ, ◌+◌, ◌<◌, ◌++◌, ◌∷◌, [], All, List, length, slice_get, slice_index_or, Some, IfErr, IfOk, IfSome, MatchOption, OnOk};
//~ ghost use Rattle.std.specs.Io.KnownBytes.{Appends};
//~ ghost use Rattle.std.specs.List.{Contains};
//~ ghost use Rattle.std.specs.List.Sorted.{IsStrictlyIncreasing};
//~ ghost use Rattle.string_interner.specs.Text.{Text};
//~ ghost use Rattle.string_column.specs.Column.{rows_of};
//~ ghost use Rattle.string_column.specs.Parts.{IsOutside};
//~ ghost use Rattle.dictcol.specs.Blocks.{Takes};
//~ ghost use Rattle.dictcol.specs.Excerpt.{AreDistinct, HasLooked, HoldsRows, IsExcerptFault};
//~ ghost use Rattle.dictcol.specs.Fault.{IsTakeFault, IsWriteFault};
//~ ghost use Rattle.dictcol.specs.Plain.{plain_text, IsLinesFile};
//~ ghost use Rattle.dictcol.specs.TooMany.{IsPastCount};
//~ ghost use Rattle.dictcol.specs.declared.fault.Fault.TheVariants.{Memory};

use crate::rt::prelude::*; use super::dictionary::take_file;
use crate::dictcol::fault::Fault;
use crate::dictcol::input::blocks::{Taker, TakesLines};
use crate::dictcol::input::split::Lines;
use crate::dictcol::lines::push_line;
use crate::dictcol::output::write;
use crate::rt::alloc::Global;
use crate::rt::io::{Read, Write};

/// Some rows, and the lines that have their numbers, as far as they were met.
//~ #[derive(Drop)]
pub struct Excerpt {
    /// For each row the number of its line.
    codes: Vec<u32>,
    /// These numbers, each once, in ascending order.
    numbers: Vec<u32>,
    /// The lines of so many of them were met.
    met: usize,
    /// These lines, and a newline behind each.
    text: Vec<u8>,
    /// Where each of them begins there, and where the last one ends.
    bounds: Vec<usize>,
    /// How many lines were looked at.
    total: usize,
}

/// Lists the numbers, each once, in ascending order.
fn list_distinct(alloc: Global, codes: &[u32]) -> Result<Vec<u32>, Fault>
    //~ ensures ok { IfOk result (λ numbers. AreDistinct codes.now numbers.items) }
    //~ ensures fault { IfErr result (λ fault. fault ≡ Memory) }
{
    let mut numbers = Vec::new(alloc);
    if numbers.extend_from_slice(codes).is_err() {
        return Err(Fault::Memory);
    }
    numbers.sort_unstable();
    numbers.dedup();
    Ok(numbers)
}

/// Returns the index of a number that is one of some in ascending order.
fn find_place(numbers: &[u32], number: u32) -> usize
    //~ requires ascend { IsStrictlyIncreasing numbers.now }
    //~ requires listed { Contains numbers.now number }
    //~ ensures { slice_get numbers.now result ≡ Some number }
{
    numbers.partition_point(|other| *other < number)
}

impl Excerpt {
    /// Makes what looks for the lines of rows with these numbers.
    fn new(alloc: Global, codes: Vec<u32>) -> Result<Self, Fault>
        //~ ensures none { IfOk result (λ excerpt. HasLooked excerpt []) }
        //~ ensures codes { IfOk result (λ excerpt. excerpt.codes.items ≡ codes.items) }
        //~ ensures fault { IfErr result (λ fault. fault ≡ Memory) }
    {
        let numbers = list_distinct(alloc, &codes)?;
        let Ok(bounds) = crate::rt::vec![in alloc; 0_usize; 1] else {
            return Err(Fault::Memory);
        };
        Ok(Excerpt {
            codes,
            numbers,
            met: 0,
            text: Vec::new(alloc),
            bounds,
            total: 0,
        })
    }

    /// Keeps a line.
    fn keep(&mut self, line: &str) -> Result<(), Fault>
        //~ requires { self.old.met < length self.old.numbers.items }
        //~ ensures text { OnOk result
        //~     (self.new.text.items ≡ self.old.text.items ++ line.now ++ 10 ∷ []) }
        //~ ensures bounds { OnOk result
        //~     (self.new.bounds.items ≡ self.old.bounds.items ++ length self.new.text.items ∷ []) }
        //~ ensures met { OnOk result (self.new.met ≡ self.old.met + 1) }
        //~ ensures codes { self.new.codes ≡ self.old.codes }
        //~ ensures numbers { self.new.numbers ≡ self.old.numbers }
        //~ ensures total { self.new.total ≡ self.old.total }
        //~ ensures fault { IfErr result (λ fault. fault ≡ Memory) }
    {
        push_line(&mut self.text, line)?;
        if self.bounds.push(self.text.len()).is_err() {
            return Err(Fault::Memory);
        }
        self.met += 1;
        Ok(())
    }

    /// Looks at a line.
    #[inline]
    fn take(&mut self, line: &str) -> Result<(), Fault>
        //~ ensures taken { OnOk result (Takes HasLooked self.old self.new (line.now ∷ [])) }
        //~ ensures codes { self.new.codes ≡ self.old.codes }
        //~ ensures fault { (lines : List Text) → HasLooked self.old lines
        //~     → IfErr result (IsTakeFault (IsPastCount lines line.now)) }
    {
        let total = self.total.checked_add(1).ok_or(Fault::TooMany)?;
        if self.met < self.numbers.len() && self.numbers[self.met] as usize == self.total {
            self.keep(line)?;
        }
        self.total = total;
        Ok(())
    }

    /// Returns the index of the first row whose number is not that of a line, if there is one.
    fn find_outside(&self) -> Option<usize>
        //~ ensures { MatchOption result
        //~     (All (λ code. code < self.now.total) self.now.codes.items)
        //~     (IsOutside self.now.total self.now.codes.items) }
    {
        for row in 0..self.codes.len() {
            if self.codes[row] as usize >= self.total {
                return Some(row);
            }
        }
        None
    }

    /// Reads the lines with these numbers from a file, whose lines may be there twice. The first of the numbers is that of row `start`.
    pub fn read<R: Read>(
        alloc: Global,
        file: &mut R,
        start: usize,
        codes: Vec<u32>,
    ) -> Result<Self, Fault>
        //~ ensures ok { IfOk result (λ excerpt. (lines : List Text)
        //~     × HoldsRows excerpt lines codes.items
        //~     × IfSome (R.remaining file.old) (IsLinesFile lines)) }
        //~ ensures fault { IfErr result
        //~     (IsExcerptFault start codes.items (R.remaining file.old)) }
    {
        let mut excerpt = Excerpt::new(alloc, codes)?;
        take_file(alloc, file, &mut excerpt)?;
        match excerpt.find_outside() {
            Some(row) => Err(Fault::NotALine(start.saturating_add(row))),
            None => Ok(excerpt),
        }
    }

    /// Returns the line with this number, and the newline behind it.
    fn line(&self, code: u32) -> &[u8]
        //~ requires { (lines : List Text) × HasLooked self.now lines × (code < length lines)
        //~     × Contains self.now.numbers.items code }
        //~ ensures { (lines : List Text) → HasLooked self.now lines
        //~     → result.now ≡ slice_index_or lines code [] ++ 10 ∷ [] }
    {
        let place = find_place(&self.numbers, code);
        &self.text[self.bounds[place]..self.bounds[place + 1]]
    }

    /// Writes the lines of the rows, and a newline behind each but the last one if that is cut.
    pub fn write<W: Write>(&self, is_cut: bool, output: &mut W) -> Result<(), Fault>
        //~ requires { (lines : List Text) × (codes : List ℕ) × HoldsRows self.now lines codes }
        //~ ensures written { (lines : List Text) (codes : List ℕ) → HoldsRows self.now lines codes
        //~     → OnOk result (Appends (W.contents output.old) (W.contents output.new)
        //~     (plain_text (rows_of lines codes) is_cut)) }
        //~ ensures fault { IfErr result IsWriteFault }
    {
        let Some((last, front)) = self.codes.split_last() else {
            return Ok(());
        };
        for code in front {
            write(output, self.line(*code))?;
        }
        let line = self.line(*last);
        let count = if is_cut {
            line.len().saturating_sub(1)
        } else {
            line.len()
        };
        write(output, &line[..count])?;
        output.flush().map_err(Fault::of_write)
    }
}

impl Taker for Excerpt {
    //~ ghost use Rattle.std.specs.Prelude.{ℕ, List};
    //~ ghost use Rattle.dictcol.specs.Excerpt.{HasLooked};
    //~ ghost use Rattle.dictcol.specs.TooMany.{IsPastCount};

    //~ ghost has_taken = { HasLooked };

    //~ ghost refuses = { IsPastCount };

    //~ ghost Kept = { List ℕ };

    //~ ghost kept = { λ excerpt. excerpt.codes.items };
}

impl TakesLines for Excerpt {
    fn take_lines(&mut self, text: &str) -> Result<(), Fault> {
        for line in Lines::new(text) {
            self.take(line)?;
        }
        Ok(())
    }

    fn count_lines(&self) -> usize {
        self.total
    }
}
