//! Plain columns: `dict.txt` has the distinct lines, `codes.npy` the number of its line there for each line, and `pair.txt` says
//! which two of them belong together.

use crate::rt::prelude::*; pub mod dictionary;
pub mod excerpt;
pub mod exchange;
pub mod find;
pub mod folder;
pub mod held;
pub mod npy;
pub mod pair;
pub mod rows;

//~ ghost use Rattle.std.specs.Prelude.{◌≡◌, ◌^◌, ◌<◌, ◌≤◌, ◌++◌, ◌⊎◌, ℕ, Bool, List, length, IfOk, IfErr, IfSome, OnOk};
//~ ghost use Rattle.string_interner.specs.Text.{Text};
//~ ghost use Rattle.string_column.specs.Column.{dictionary_of};
//~ ghost use Rattle.dictcol.specs.Blocks.{IsLinesFault};
//~ ghost use Rattle.dictcol.specs.Fault.{IsLinesWriteFault, WritesLast};
//~ ghost use Rattle.dictcol.specs.Lines.{AreLines};
//~ ghost use Rattle.dictcol.specs.Plain.{AreNumbers, IsBegun, IsDictionaryFault, IsOnto, WritesPlain};
//~ ghost use Rattle.dictcol.specs.TooMany.{LacksBehind, LacksLine};

use crate::dictcol::fault::Fault;
use crate::dictcol::hasher::LineHasher;
use crate::dictcol::lines::read_lines;
use crate::dictcol::output::block_writer::BlockWriter;
use crate::rt::alloc::Global;
use crate::rt::io::{Read, Write};
use crate::string_column::Column;
use crate::erased::backend::Backend;

/// So many distinct lines have numbers of four bytes.
const MOST: usize = 1 << 32;

/// The lines of a dictionary from before, and those of a text behind them.
//~ #[derive(Drop)]
pub struct Plain<B: Backend> {
    lines: Column<B, LineHasher>,
    /// How many lines are of the dictionary from before.
    known: usize,
    /// Whether the last row has no newline.
    is_cut: bool,
    //~ ghost within: { known ≤ length lines },
}

/// Appends the lines that an input yields, and returns whether the last one ends in a newline.
fn append_lines<B: Backend + Drop, R: Read>(
    alloc: Global,
    hasher: LineHasher,
    lines: &mut Column<B, LineHasher>,
    input: &mut R,
) -> Result<bool, Fault>
    //~ ensures ok { IfOk result (λ is_ended. (more : List Text) × (lines.new ≡ lines.old ++ more)
    //~     × IfSome (R.remaining input.old) (λ text. AreLines text more is_ended)) }
    //~ ensures kept { length lines.old ≤ length lines.new }
    //~ ensures fault { IfErr result
    //~     (IsLinesFault (LacksBehind B.numbering lines.old) (R.remaining input.old)) }
{
    let (more, is_ended) = read_lines::<B, R>(alloc, hasher, input)?;
    if lines.is_empty() {
        *lines = more;
        return Ok(is_ended);
    }
    match lines.append(&more) {
        Ok(()) => Ok(is_ended),
        Err(error) => Err(Fault::of_intern(error)),
    }
}

impl<B: Backend + Drop> Plain<B> {
    /// Reads a file `dict.txt` from before, which may be empty. Behind its lines there is no text yet. The last of the rows that
    /// stay before those of the text, if there are any, has a newline or not.
    pub fn begin<D: Read>(
        alloc: Global,
        hasher: LineHasher,
        before: &mut D,
        is_cut: bool,
    ) -> Result<Self, Fault>
        //~ ensures ok { IfOk result (λ plain. IfSome (D.remaining before.old) (λ known.
        //~     IsBegun known plain.lines plain.known)) }
        //~ ensures cut { IfOk result (λ plain. plain.is_cut ≡ is_cut) }

        // The file is called damaged only if it is, and not UTF-8 only if it is not.
        //~ ensures err { IfErr result
        //~     (IsDictionaryFault (LacksLine B.numbering) (D.remaining before.old)) }
    {
        let lines = dictionary::read::<B, D>(alloc, hasher, before)?;
        let known = lines.len();
        Ok(Plain {
            lines,
            known,
            is_cut,
        })
    }

    /// Returns how many lines are of the dictionary from before.
    pub fn known(&self) -> usize
        //~ ensures { result ≡ self.now.known }
    {
        self.known
    }

    /// Reads a text behind the lines of the dictionary.
    pub fn read<R: Read>(
        &mut self,
        alloc: Global,
        hasher: LineHasher,
        input: &mut R,
    ) -> Result<(), Fault>
        //~ ensures ok { (before : Text) → IsBegun before self.old.lines self.old.known
        //~     → OnOk result (IfSome (R.remaining input.old) (λ text.
        //~     IsOnto before self.old.is_cut text self.new.lines self.new.known self.new.is_cut)) }
        //~ ensures fault { IfErr result
        //~     (IsLinesFault (LacksBehind B.numbering self.old.lines) (R.remaining input.old)) }
    {
        let is_ended = append_lines(alloc, hasher, &mut self.lines, input)?;
        let is_cut = if self.known < self.lines.len() {
            !is_ended
        } else {
            self.is_cut
        };
        self.is_cut = is_cut;
        Ok(())
    }

    /// Returns whether the last row has no newline: that of the text, or of those before it if it has none.
    pub fn is_cut(&self) -> bool
        //~ ensures { result ≡ self.now.is_cut }
    {
        self.is_cut
    }

    /// Returns the text of the file `pair.txt`, if these are the numbers of the rows before those of the text, four bytes each.
    fn format_pair(&self, alloc: Global, earlier: &[u8]) -> Result<String, Fault> {
        let (numbers, _) = self.lines.codes().as_slices();
        let codes = numbers.get(self.known..).unwrap_or(&[]);
        pair::format_numbers(
            alloc,
            self.lines.dictionary().len(),
            earlier,
            codes,
            self.is_cut,
        )
    }

    /// Writes the files of the text: the distinct lines, and the numbers of its lines behind those of earlier rows, which are
    /// four bytes each.
    pub fn write<D: Write, N: Write>(
        &self,
        alloc: Global,
        earlier: &[u8],
        dictionary: &mut D,
        numbers: &mut N,
    ) -> Result<(), Fault>
        //~ ensures written { (before text : Text) (was_cut : Bool) (rows : List ℕ)
        //~     → IsOnto before was_cut text self.now.lines self.now.known self.now.is_cut
        //~     → AreNumbers self.now.known rows earlier.now
        //~     → OnOk result (WritesPlain before rows was_cut text self.now.is_cut
        //~     (D.contents dictionary.old) (D.contents dictionary.new)
        //~     (N.contents numbers.old) (N.contents numbers.new)) }
        //~ ensures silent { WritesLast result dictionary.old dictionary.new }
        //~ ensures fault { IfErr result
        //~     (IsLinesWriteFault (2 ^ 32 < length (dictionary_of self.now.lines))) }
    {
        let texts = self.lines.dictionary();
        if texts.len() > MOST {
            return Err(Fault::TooMany);
        }
        let (narrow, wide) = self.lines.codes().as_slices();
        if !wide.is_empty() {
            // The codes of so few lines take four bytes each, which no contract says.
            return Err(Fault::Memory);
        }
        let (_, codes) = narrow.split_at(self.known);
        let Some(count) = codes.len().checked_add(earlier.len() / 4) else {
            return Err(Fault::Memory);
        };
        let Ok(header) = npy::format_header(alloc, count) else {
            return Err(Fault::Memory);
        };
        let Ok(mut block) = BlockWriter::new(alloc) else {
            return Err(Fault::Memory);
        };
        dictionary::write_file(&mut block, dictionary, texts).map_err(Fault::of_write)?;
        npy::write_file(&mut block, numbers, &header, earlier, codes).map_err(Fault::of_write)?;
        Ok(())
    }
}
