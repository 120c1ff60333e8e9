//! `merge`: the files that `encode` wrote for some texts become that of the joined text, or its counts.

//~ ghost use Rattle.std.specs.Prelude.{◌≡◌, [], ◌∷◌, ◌++◌, drop, false, Some, IfErr, IfOk, IfSome, OnOk, map};
//~ ghost use Rattle.std.specs.List.{flat_map, join_with_byte, list_any};
//~ ghost use Rattle.string_interner.specs.Text.{Text};
//~ ghost use Rattle.dictcol.specs.Counts.{IsCountsText};
//~ ghost use Rattle.dictcol.specs.Fault.{IsTakeFault, IsWriteFault, WritesLastUnless};
//~ ghost use Rattle.dictcol.specs.File.{DecodesFile, HoldTogether, IsColumnFile, IsFileFault};
//~ ghost use Rattle.dictcol.specs.Lines.{behind_newline, has_newline, lines_of, text_of_lines, AreLines};
//~ ghost use Rattle.dictcol.specs.Merge.{CrowdsBehind, IsInputFault, IsMergeFault, OfJoined};
//~ ghost use Rattle.dictcol.specs.TooMany.{HasRefused, LacksLine};
//~ ghost use Rattle.dictcol.specs.Writes.{Writes};
//~ ghost use Rattle.dictcol.specs.declared.fault.Fault.TheVariants.{Memory};

use crate::rt::prelude::*; use crate::dictcol::command::Rows;
use crate::dictcol::count;
use crate::dictcol::fault::Fault;
use crate::dictcol::hasher::LineHasher;
use crate::dictcol::input::whole::read_whole;
use crate::dictcol::json_form::{file, format};
use crate::dictcol::lines::end_rest;
use crate::rt::alloc::Global;
use crate::rt::io::{Read, Write};
use crate::rt::marker::Model;
use crate::string_column::Column;
use crate::erased::backend::Backend;

/// Why several files that `encode` wrote were not joined.
//~ #[derive(Drop)]
pub struct MergeFault {
    /// The index of the input that the fault is of, if it is of one.
    pub index: Option<usize>,
    pub fault: Fault,
}

/// The text so far: the lines that a newline ends, and what stands behind the last newline.
//~ #[derive(Drop)]
struct TextLines<B: Backend> {
    lines: Column<B, LineHasher>,
    rest: String,
}

//~ /// Contracts see the text.
//~ impl<B: Backend> Model for TextLines<B> {
//~     ghost use Rattle.std.specs.Prelude.{◌≡◌, false, string_bytes};
//~     ghost use Rattle.std.specs.List.{list_any};
//~     ghost use Rattle.string_interner.specs.Text.{Text};
//~     ghost use Rattle.dictcol.specs.Lines.{has_newline, text_of_ended};
//~
//~     ghost Value = { Text };
//~
//~     ghost view = { λ m. text_of_ended m.lines (string_bytes m.rest) };
//~
//~     ghost invariant = { λ m. (list_any has_newline m.lines ≡ false)
//~         × (has_newline (string_bytes m.rest) ≡ false) };
//~ }

impl<B: Backend + Drop> TextLines<B> {
    /// Makes the empty text.
    fn new(alloc: Global, hasher: LineHasher) -> Self
        //~ ensures { result ≡ [] }
    {
        TextLines {
            lines: Column::with_hasher(alloc, hasher),
            rest: String::new(alloc),
        }
    }

    /// Appends a text of one line.
    fn push_text(&mut self, text: &str) -> Result<(), Fault>
        //~ requires { has_newline text.now ≡ false }
        //~ ensures ok { OnOk result (self.new ≡ self.old ++ text.now) }
        //~ ensures fault { IfErr result (λ fault. fault ≡ Memory) }
    {
        match self.rest.push_str(text) {
            Ok(()) => Ok(()),
            Err(_) => Err(Fault::Memory),
        }
    }

    /// Appends a newline.
    fn end_line(&mut self) -> Result<(), Fault>
        //~ ensures ok { OnOk result (self.new ≡ self.old ++ 10 ∷ []) }
        //~ ensures fault { IfErr result
        //~     (IsTakeFault (HasRefused (LacksLine B.numbering) (lines_of (self.old ++ 10 ∷ [])))) }
    {
        match self.lines.push(&self.rest) {
            Ok(_) => {
                self.rest.clear();
                Ok(())
            }
            Err(error) => Err(Fault::of_intern(error)),
        }
    }

    /// Appends the lines but the first, each behind a newline.
    fn append_further(&mut self, lines: &Column<B, LineHasher>) -> Result<(), Fault>
        //~ requires { list_any has_newline lines.now ≡ false }
        //~ ensures ok { OnOk result
        //~     (self.new ≡ self.old ++ flat_map behind_newline (drop 1 lines.now)) }
        //~ ensures fault { IfErr result (IsTakeFault (HasRefused (LacksLine B.numbering)
        //~     (lines_of (self.old ++ flat_map behind_newline (drop 1 lines.now))))) }
    {
        let end = lines.len().saturating_sub(1);
        let Some(last) = lines.row(end) else {
            return Ok(());
        };
        if end == 0 {
            return Ok(());
        }
        self.lines.push(&self.rest).map_err(Fault::of_intern)?;
        self.rest.clear();
        self.lines
            .append_range(lines, 1, end)
            .map_err(Fault::of_intern)?;
        self.push_text(last)
    }

    /// Appends lines with newlines between them.
    fn append_joined(&mut self, lines: &Column<B, LineHasher>) -> Result<(), Fault>
        //~ requires { list_any has_newline lines.now ≡ false }
        //~ ensures ok { OnOk result (self.new ≡ self.old ++ join_with_byte 10 lines.now) }
        //~ ensures fault { IfErr result (IsTakeFault (HasRefused (LacksLine B.numbering)
        //~     (lines_of (self.old ++ join_with_byte 10 lines.now)))) }
    {
        let Some(first) = lines.row(0) else {
            return Ok(());
        };
        self.push_text(first)?;
        self.append_further(lines)
    }

    /// Appends the text of the lines.
    fn append(&mut self, lines: &Column<B, LineHasher>, is_ended: bool) -> Result<(), Fault>
        //~ requires { list_any has_newline lines.now ≡ false }
        //~ ensures ok { OnOk result (self.new ≡ self.old ++ text_of_lines lines.now is_ended) }
        //~ ensures fault { IfErr result (IsTakeFault (HasRefused (LacksLine B.numbering)
        //~     (lines_of (self.old ++ text_of_lines lines.now is_ended)))) }
    {
        self.append_joined(lines)?;
        if is_ended {
            return self.end_line();
        }
        Ok(())
    }

    /// Appends the text that a file holds.
    fn append_file(
        &mut self,
        alloc: Global,
        hasher: LineHasher,
        bytes: Vec<u8>,
    ) -> Result<(), Fault>
        //~ ensures ok { OnOk result ((text : Text) × DecodesFile bytes.items text
        //~     × (self.new ≡ self.old ++ text)) }

        // A file is called damaged only if it holds no text, and not UTF-8 only if it is not.
        //~ ensures err { IfErr result
        //~     (IsFileFault (CrowdsBehind B.numbering self.old) (Some bytes.items)) }
    {
        let (lines, is_ended) = file::read_column(alloc, hasher, bytes)?;
        // The empty text takes ended lines as they are, so that none is hashed again.
        if is_ended && !lines.is_empty() && self.lines.is_empty() && self.rest.is_empty() {
            self.lines = lines;
            return Ok(());
        }
        self.append(&lines, is_ended)
    }
}

/// Appends the text that an input holds. What was read is freed before the lines are appended.
fn append_input<B: Backend + Drop, R: Read>(
    alloc: Global,
    hasher: LineHasher,
    text: &mut TextLines<B>,
    input: &mut R,
) -> Result<(), Fault>
    //~ ensures ok { OnOk result ((more : Text) × (text.new ≡ text.old ++ more)
    //~     × IfSome (R.remaining input.old) (λ file. DecodesFile file more)) }
    //~ ensures fault { IfErr result (IsInputFault B.numbering text.old (R.remaining input.old)) }
{
    let bytes = read_whole(alloc, input)?;
    text.append_file(alloc, hasher, bytes)
}

/// Reads the lines that the inputs hold, one behind the other, and whether the last one ends in a newline.
fn read_files<B: Backend + Drop, R: Read>(
    alloc: Global,
    hasher: LineHasher,
    inputs: &mut [R],
) -> Result<(Column<B, LineHasher>, bool), MergeFault>
    //~ ensures lines { IfOk result (λ lines. (text : Text)
    //~     × HoldTogether (map R.remaining inputs.old) text × AreLines text lines.0 lines.1) }
    //~ ensures fault { IfErr result (IsMergeFault B.numbering (map R.remaining inputs.old)) }
{
    let mut text = TextLines::new(alloc, hasher);
    for at in 0..inputs.len() {
        match append_input(alloc, hasher, &mut text, &mut inputs[at]) {
            Ok(()) => {}
            Err(fault) => {
                let index = Some(at);
                return Err(MergeFault { index, fault });
            }
        }
    }
    let TextLines { mut lines, rest } = text;
    match end_rest(&mut lines, rest.as_str()) {
        Ok(is_ended) => Ok((lines, is_ended)),
        Err(fault) => Err(MergeFault { index: None, fault }),
    }
}

/// Writes one file for several: the one that `encode` writes for the texts that they hold, one behind the other. Nothing is written
/// before all were read.
pub fn merge<B: Backend + Drop, R: Read, W: Write>(
    alloc: Global,
    hasher: LineHasher,
    inputs: &mut [R],
    output: &mut W,
) -> Result<(), MergeFault>
    //~ ensures written { OnOk result (Writes (OfJoined IsColumnFile (map R.remaining inputs.old))
    //~     (W.contents output.old) (W.contents output.new)) }

    // Unless all went well or a write failed, the output was not touched.
    //~ ensures silent { WritesLastUnless (λ ended. IsWriteFault ended.fault) result
    //~     output.old output.new }
    //~ ensures fault { IfErr result (IsMergeFault B.numbering (map R.remaining inputs.old)) }
{
    let (lines, is_ended) = read_files::<B, R>(alloc, hasher, inputs)?;
    match format::write_file(alloc, &lines, is_ended, output) {
        Ok(()) => Ok(()),
        Err(fault) => Err(MergeFault { index: None, fault }),
    }
}

/// Writes what `count` writes for the text that several files hold, one behind the other.
pub fn count_encoded<B: Backend + Drop, R: Read, W: Write>(
    alloc: Global,
    hasher: LineHasher,
    asked: Rows,
    inputs: &mut [R],
    output: &mut W,
) -> Result<(), MergeFault>
    //~ ensures written { OnOk result (Writes (OfJoined (λ text. IsCountsText asked (lines_of text))
    //~     (map R.remaining inputs.old)) (W.contents output.old) (W.contents output.new)) }
    //~ ensures silent { WritesLastUnless (λ ended. IsWriteFault ended.fault) result
    //~     output.old output.new }
    //~ ensures fault { IfErr result (IsMergeFault B.numbering (map R.remaining inputs.old)) }
{
    let (lines, _) = read_files::<B, R>(alloc, hasher, inputs)?;
    match count::write_column_counts(alloc, &lines, asked, output) {
        Ok(()) => Ok(()),
        Err(fault) => Err(MergeFault { index: None, fault }),
    }
}
