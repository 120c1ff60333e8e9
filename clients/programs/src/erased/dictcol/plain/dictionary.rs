//! The file `dict.txt`: distinct lines, of which each ends in a newline.

//~ ghost use Rattle.std.specs.Prelude.{◌≡◌, ◌+◌, List, [], ℕ, IfOk, IfErr, IfSome, MatchOption, OnOk};
//~ ghost use Rattle.std.specs.Io.KnownBytes.{Appends};
//~ ghost use Rattle.string_interner.specs.Text.{Text, IsDistinct};
//~ ghost use Rattle.string_column.specs.Parts.{IsRepeat};
//~ ghost use Rattle.dictcol.specs.Get.{IsPassFault};
//~ ghost use Rattle.dictcol.specs.Lines.{text_of_ended};
//~ ghost use Rattle.dictcol.specs.TooMany.{LacksLine};
//~ ghost use Rattle.dictcol.specs.Plain.{line_bounds, IsBoundsFault, IsDictionary, IsDictionaryFault, IsLinesFile};

use crate::rt::prelude::*; use crate::dictcol::fault::Fault;
use crate::dictcol::hasher::LineHasher;
use crate::dictcol::input::blocks;
use crate::dictcol::input::blocks::{TakesLines, check_utf8};
use crate::dictcol::lines::read_lines;
use crate::dictcol::output::block_writer::BlockWriter;
use crate::memchr::memchr;
use crate::rt::alloc::Global;
use crate::rt::io;
use crate::rt::io::{Read, Write};
use crate::string_column::Column;
use crate::erased::StringInterner;
use crate::erased::backend::Backend;
use crate::erased::dedup::TaggedIndex;

/// Writes a file of texts of one line each through an empty block: each text, and a newline.
pub fn write_file<B: Backend, W: Write>(
    block: &mut BlockWriter,
    output: &mut W,
    texts: &StringInterner<B, LineHasher, TaggedIndex<B::Symbol>>,
) -> io::Result<()>
    //~ requires { block.old ≡ [] }
    //~ ensures written { OnOk result (Appends (W.contents output.old) (W.contents output.new)
    //~     (text_of_ended texts.now.texts [])) }
    //~ ensures empty { OnOk result (block.new ≡ []) }
{
    for (_, text) in texts {
        block.append(output, text.as_bytes())?;
        block.put(b"\n");
    }
    block.write(output)?;
    output.flush()
}

/// Returns the number (1-based) of the first line that equals an earlier one. Returns `None` if all lines are distinct.
fn find_repeat<B: Backend>(lines: &Column<B, LineHasher>) -> Option<usize>
    //~ ensures { MatchOption result (IsDistinct lines.now)
    //~     (λ number. (index : ℕ) × (number ≡ index + 1) × IsRepeat lines.now index) }
{
    if lines.distinct() == lines.len() {
        return None;
    }
    // Up to the first that repeats, each line is an entry of its own, and its code is its index.
    let codes = lines.codes();
    for row in 0..codes.len() {
        if codes.at(row) != row {
            return Some(row + 1);
        }
    }
    None
}

/// Returns a column of the lines of a file.
pub fn read<B: Backend + Drop, R: Read>(
    alloc: Global,
    hasher: LineHasher,
    file: &mut R,
) -> Result<Column<B, LineHasher>, Fault>
    //~ ensures ok { IfOk result (λ lines. IfSome (R.remaining file.old) (IsDictionary lines)) }
    //~ ensures distinct { IfOk result IsDistinct }
    //~ ensures err { IfErr result
    //~     (IsDictionaryFault (LacksLine B.numbering) (R.remaining file.old)) }
{
    let (lines, is_ended) = match read_lines::<B, R>(alloc, hasher, file) {
        Ok(read) => read,
        Err(fault) => return Err(Fault::of_dictionary(fault)),
    };
    if !is_ended && !lines.is_empty() {
        return Err(Fault::NotEnded);
    }
    match find_repeat(&lines) {
        None => Ok(lines),
        Some(number) => Err(Fault::RepeatedLine(number)),
    }
}

/// Gives the lines of a file, which may be there twice, to what takes them.
pub fn take_file<R: Read, L: TakesLines>(
    alloc: Global,
    file: &mut R,
    taker: &mut L,
) -> Result<(), Fault>
    //~ requires { L.has_taken taker.old [] }
    //~ ensures ok { OnOk result ((lines : List Text) × L.has_taken taker.new lines
    //~     × IfSome (R.remaining file.old) (IsLinesFile lines)) }
    //~ ensures same { L.kept taker.new ≡ L.kept taker.old }
    //~ ensures fault { IfErr result (IsPassFault L.refuses (R.remaining file.old)) }
{
    match blocks::read_lines(alloc, file, taker) {
        Ok(rest) if rest.is_empty() => Ok(()),
        Ok(_) => Err(Fault::NotEnded),
        Err(fault) => Err(Fault::of_dictionary(fault)),
    }
}

/// Returns where each line of a file begins, and where the last one ends. Lines may be there twice.
pub fn find_bounds(alloc: Global, file: &[u8]) -> Result<Vec<usize>, Fault>
    //~ ensures ok { IfOk result (λ bounds. (lines : List Text)
    //~     × IsLinesFile lines file.now × (bounds.items ≡ line_bounds 0 lines)) }
    //~ ensures err { IfErr result (IsBoundsFault file.now) }
{
    if let Err(fault) = check_utf8(0, file) {
        return Err(Fault::of_dictionary(fault));
    }
    let Ok(mut bounds) = crate::rt::vec![in alloc; 0_usize; 1] else {
        return Err(Fault::Memory);
    };
    let mut end = 0;
    'lines: while let Some(at) = memchr(b'\n', &file[end..]) {
        end += at + 1;
        if bounds.push(end).is_err() {
            return Err(Fault::Memory);
        }
    }
    if end < file.len() {
        return Err(Fault::NotEnded);
    }
    Ok(bounds)
}
