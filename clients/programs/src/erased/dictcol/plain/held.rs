//! The rows that plain columns hold, and their text as an input.

//~ ghost use Rattle.std.specs.Prelude.{◌≡◌, ◌≤◌, ◌<◌, [], length, Some, IfErr, IfOk, OnOk};
//~ ghost use Rattle.std.specs.Io.KnownBytes.{Appends};
//~ ghost use Rattle.dictcol.specs.Fault.{IsWriteFault};
//~ ghost use Rattle.dictcol.specs.Plain.{part_text, plain_text, HoldPlain, IsPlainFault};

use crate::rt::prelude::*; use super::{dictionary, npy, rows};
use crate::dictcol::fault::Fault;
use crate::dictcol::input::ready::give;
use crate::rt::alloc::Global;
use crate::rt::io;
use crate::rt::io::{ErrorKind, Read, Write};
use crate::rt::marker::Model;

/// How many bytes of rows are made ready at once, and those of one row more.
const BLOCK: usize = 1 << 16;

/// The rows that the files of plain columns hold.
//~ #[derive(Drop)]
pub struct HeldRows {
    /// The file `dict.txt`.
    dictionary: Vec<u8>,
    /// Where each of its lines begins, and where the last one ends.
    bounds: Vec<usize>,
    /// The file `codes.npy`.
    numbers: Vec<u8>,
    /// Whether the last row has no newline.
    is_cut: bool,
}

//~ /// Contracts see the rows, and whether the last one has no newline.
//~ impl Model for HeldRows {
//~     ghost use Rattle.std.specs.Prelude.{◌≤◌, Bool, List, drop, length};
//~     ghost use Rattle.string_interner.specs.Text.{Text};
//~     ghost use Rattle.dictcol.specs.Plain.{rows_in, AreRows};
//~
//~     ghost Value = { List Text × Bool };
//~
//~     ghost view = { λ h. (rows_in h.dictionary.items (drop 128 h.numbers.items), h.is_cut) };
//~
//~     ghost invariant = { λ h. (128 ≤ length h.numbers.items)
//~         × AreRows h.dictionary.items h.bounds.items (drop 128 h.numbers.items)
//~         (rows_in h.dictionary.items (drop 128 h.numbers.items)) };
//~ }

impl HeldRows {
    /// Returns the rows that two files hold, or finds where these are damaged.
    pub fn new(
        alloc: Global,
        dictionary: Vec<u8>,
        numbers: Vec<u8>,
        is_cut: bool,
    ) -> Result<Self, Fault>
        //~ ensures ok { IfOk result (λ held. HoldPlain dictionary.items numbers.items is_cut
        //~     (plain_text held.0 held.1)) }

        // Files that hold a text are never called damaged, and the first is called not UTF-8 only if it is not.
        //~ ensures err { IfErr result (IsPlainFault dictionary.items numbers.items) }
    {
        let bounds = dictionary::find_bounds(alloc, &dictionary)?;
        let _ = npy::read(alloc, &numbers, bounds.len() - 1)?;
        Ok(HeldRows {
            dictionary,
            bounds,
            numbers,
            is_cut,
        })
    }

    /// Returns how many there are.
    pub fn len(&self) -> usize
        //~ ensures { result ≡ length self.now.0 }
    {
        (self.numbers.len() - npy::HEADER) / 4
    }

    /// Writes the text of the rows from one on before another one.
    pub fn write_part<W: Write>(
        &self,
        start: usize,
        end: usize,
        output: &mut W,
    ) -> Result<(), Fault>
        //~ requires { (start ≤ end) × (end ≤ length self.now.0) }
        //~ ensures written { OnOk result (Appends (W.contents output.old) (W.contents output.new)
        //~     (part_text self.now.0 self.now.1 start end)) }
        //~ ensures fault { IfErr result IsWriteFault }
    {
        let numbers = &self.numbers[npy::HEADER..];
        let part = &numbers[4 * start..4 * end];
        let is_cut = self.is_cut && end == self.len();
        rows::write_rows(output, &self.dictionary, &self.bounds, part, is_cut)
    }

    /// Writes the text of all rows.
    pub fn write<W: Write>(&self, output: &mut W) -> Result<(), Fault>
        //~ ensures written { OnOk result (Appends (W.contents output.old) (W.contents output.new)
        //~     (plain_text self.now.0 self.now.1)) }
        //~ ensures fault { IfErr result IsWriteFault }
    {
        self.write_part(0, self.len(), output)
    }

    /// Returns how long a row is with its newline.
    fn row_len(&self, row: usize) -> usize {
        let at = npy::HEADER.saturating_add(row.saturating_mul(4));
        let number = self
            .numbers
            .get(at..)
            .and_then(|rest| rest.first_chunk::<4>());
        let line = number.map_or(0, |bytes| u32::from_le_bytes(*bytes) as usize);
        match (
            self.bounds.get(line),
            self.bounds.get(line.saturating_add(1)),
        ) {
            (Some(begin), Some(end)) => end.saturating_sub(*begin),
            _ => 0,
        }
    }

    /// Returns the row behind those from one on that are a block, or that behind all if these are fewer.
    fn end_block(&self, start: usize) -> usize
        //~ requires { start ≤ length self.now.0 }
        //~ ensures within { (start ≤ result) × (result ≤ length self.now.0) }
        //~ ensures some { start < length self.now.0 → start < result }
    {
        let mut room = BLOCK;
        for row in start..self.len() {
            let len = self.row_len(row);
            if len >= room {
                return row + 1;
            }
            room -= len;
        }
        self.len()
    }
}

/// Reads the text of rows, of which a block is made ready at once.
//~ #[derive(Drop)]
pub struct HeldText {
    rows: HeldRows,
    /// So many rows were made ready so far.
    next: usize,
    /// The text of the last of them, of which the first bytes were given on.
    ready: Vec<u8>,
    given: usize,
    //~ ghost within: { (next ≤ length rows.0) × (given ≤ length ready.items) },
}

impl HeldText {
    //~ ghost use Rattle.dictcol.specs.Held.{text_left};

    /// Returns the text of rows as an input.
    pub fn new(alloc: Global, rows: HeldRows) -> Self
        //~ ensures { text_left result ≡ plain_text rows.0 rows.1 }
    {
        HeldText {
            rows,
            next: 0,
            ready: Vec::new(alloc),
            given: 0,
        }
    }

    /// Makes a block of rows ready, if all that was ready is given.
    fn make_ready(&mut self) -> io::Result<()>
        //~ ensures same { text_left self.new ≡ text_left self.old }
        //~ ensures some { OnOk result
        //~     (self.new.given ≡ length self.new.ready.items → text_left self.new ≡ []) }
    {
        if self.given < self.ready.len() {
            return Ok(());
        }
        self.ready.clear();
        self.given = 0;
        let end = self.rows.end_block(self.next);
        let outcome = self.rows.write_part(self.next, end, &mut self.ready);
        if outcome.is_err() {
            self.ready.clear();
            return Err(io::Error::from(ErrorKind::OutOfMemory));
        }
        self.next = end;
        Ok(())
    }
}

impl Read for HeldText {
    //~ ghost use Rattle.dictcol.specs.Held.{text_left};

    //~ ghost remaining = { λ text. Some (text_left text) };

    fn read(&mut self, buf: &mut [u8]) -> io::Result<usize> {
        self.make_ready()?;
        Ok(give(&self.ready, &mut self.given, buf))
    }
}
