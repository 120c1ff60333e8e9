//! `count`: how often each line occurs.

//~ ghost use Rattle.std.specs.Prelude.{◌≡◌, ◌≤◌, ℕ, List, [], ◌∷◌, ◌++◌, IfOk, IfErr, IfSome, OnOk, length, map, nat_le};
//~ ghost use Rattle.std.specs.Io.KnownBytes.{Appends};
//~ ghost use Rattle.std.specs.List.{count_by, filter, flat_map, zip};
//~ ghost use Rattle.string_interner.specs.Text.{Text};
//~ ghost use Rattle.string_interner.specs.Extend.{texts_of};
//~ ghost use Rattle.string_column.specs.Column.{counts_of};
//~ ghost use Rattle.dictcol.specs.Blocks.{IsLinesFault, IsLinesTaskFault};
//~ ghost use Rattle.dictcol.specs.Counts.{AreSorted, HasCounted, IsCountedBy, IsCountsText, counted, count_line, is_often, row_of};
//~ ghost use Rattle.dictcol.specs.Fault.{IsOutputFault, IsTakeFault, IsWriteFault, WritesLast};
//~ ghost use Rattle.dictcol.specs.Lines.{lines_of};
//~ ghost use Rattle.dictcol.specs.TooMany.{HasRefused, LacksCount};
//~ ghost use Rattle.dictcol.specs.Writes.{Writes};
//~ ghost use Rattle.dictcol.specs.declared.fault.Fault.TheVariants.{Memory};

use crate::rt::prelude::*; use crate::dictcol::command::{Order, Rows};
use crate::dictcol::fault::Fault;
use crate::dictcol::hasher::LineHasher;
use crate::dictcol::input::blocks;
use crate::dictcol::input::blocks::{Taker, TakesLines};
use crate::dictcol::input::line_blocks::{TakesBlocks, take_blocks};
use crate::dictcol::output::write;
use crate::itoa::Buffer;
use crate::rt::alloc::{AllocError, Global};
use crate::rt::io::{Read, Write};
use crate::rt::marker::Model;
use crate::string_column::{Codes, Column, Dictionary};
use crate::erased::StringInterner;
use crate::erased::backend::Backend;
use crate::erased::dedup::TaggedIndex;

/// The distinct lines of those that were counted, with how often each occurred. A line that occurs again takes no memory.
//~ #[derive(Drop)]
struct Counts<B: Backend> {
    lines: Dictionary<B, LineHasher>,
    /// How often each occurred, in the same order.
    counts: Vec<usize>,
    /// How many lines were counted.
    total: usize,
    /// The codes of the lines of a block, while these are counted.
    codes: Codes,
}

//~ /// Contracts see the distinct lines, the counts and the total.
//~ impl<B: Backend> Model for Counts<B> {
//~     ghost use Rattle.dictcol.specs.Counts.{CountsContents, contents_of};
//~
//~     ghost Value = { CountsContents };
//~
//~     ghost view = { λ c. contents_of c.lines c.counts.items c.total };
//~ }

/// Counts a line for each code, which is the index of its entry: an entry without a count is that of the first code from then on.
fn count_codes(counts: &mut Vec<usize>, codes: &Codes) -> Result<(), AllocError>
    //~ ensures { OnOk result ((lines more : List Text)
    //~     → IsCountedBy lines more counts.old.items codes.now.items
    //~     → counts.new.items ≡ counts_of (lines ++ more)) }
{
    for at in 0..codes.len() {
        let code = codes.at(at);
        if code < counts.len() {
            // No count is above the number of lines.
            counts[code] = counts[code].saturating_add(1);
            continue;
        }
        counts.push(1)?;
    }
    Ok(())
}

impl<B: Backend> Counts<B> {
    /// Makes counts of no lines.
    fn new(alloc: Global, hasher: LineHasher) -> Self
        //~ ensures { HasCounted result [] }
    {
        Counts {
            lines: Dictionary::with_hasher(alloc, hasher),
            counts: Vec::new(alloc),
            total: 0,
            codes: Codes::new(alloc),
        }
    }
}

impl<B: Backend> Taker for Counts<B> {
    //~ ghost use Rattle.dictcol.specs.Counts.{HasCounted};
    //~ ghost use Rattle.dictcol.specs.TooMany.{LacksCount};

    //~ ghost has_taken = { HasCounted };

    //~ ghost refuses = { LacksCount B.numbering };

    //~ ghost kept = { λ _. tt };
}

impl<B: Backend> TakesBlocks for Counts<B> {
    #[inline]
    fn add(&mut self, line: &str) -> Result<(), Fault> {
        let total = self.total.checked_add(1).ok_or(Fault::TooMany)?;
        let index = self.lines.intern(line).map_err(Fault::of_intern)?;
        self.total = total;
        if index < self.counts.len() {
            // No count is above the total.
            self.counts[index] = self.counts[index].saturating_add(1);
            return Ok(());
        }
        self.counts.push(1).map_err(|_| Fault::Memory)?;
        Ok(())
    }

    #[inline(never)]
    fn add_block(&mut self, block: &[&str]) -> Result<(), Fault> {
        let total = self.total.checked_add(block.len()).ok_or(Fault::TooMany)?;
        self.codes.truncate(0);
        self.lines
            .intern_block(block, &mut self.codes)
            .map_err(Fault::of_intern)?;
        count_codes(&mut self.counts, &self.codes).map_err(|_| Fault::Memory)?;
        self.total = total;
        Ok(())
    }

    #[inline]
    fn count_entries(&self) -> usize {
        self.counts.len()
    }
}

impl<B: Backend> TakesLines for Counts<B> {
    fn take_lines(&mut self, text: &str) -> Result<(), Fault> {
        take_blocks(self, text)
    }

    fn count_lines(&self) -> usize {
        self.total
    }
}

/// Counts the lines of all that an input yields.
fn count_input<B: Backend + Drop, R: Read>(
    alloc: Global,
    hasher: LineHasher,
    input: &mut R,
) -> Result<Counts<B>, Fault>
    //~ ensures ok { IfOk result (λ counts. IfSome (R.remaining input.old)
    //~     (λ all. HasCounted counts (lines_of all))) }
    //~ ensures each { IfOk result (λ counts. length counts.counts ≡ length counts.entries) }
    //~ ensures fault { IfErr result
    //~     (IsLinesFault (LacksCount B.numbering) (R.remaining input.old)) }
{
    let mut counts = Counts::new(alloc, hasher);
    let rest = blocks::read_lines(alloc, input, &mut counts)?;
    if !rest.is_empty() {
        counts.add(&rest)?;
    }
    Ok(counts)
}

/// Sorts rows: the most frequent first, and equally frequent ones stay in their order.
fn sort_rows(rows: &mut Vec<(usize, &str)>) -> Result<(), Fault>
    //~ ensures sorted { OnOk result
    //~     (AreSorted (map row_of rows.old.items) (map row_of rows.new.items)) }
    //~ ensures fault { IfErr result (λ fault. fault ≡ Memory) }
{
    match rows.sort_by(|a, b| b.0.cmp(&a.0)) {
        Ok(()) => Ok(()),
        Err(_) => Err(Fault::Memory),
    }
}

/// Returns how many counts are not below a number.
fn count_often(counts: &[usize], at_least: usize) -> usize
    //~ ensures { result ≡ count_by (nat_le at_least) counts.now }
{
    let mut often = 0;
    for count in counts {
        if *count >= at_least {
            often += 1;
        }
    }
    often
}

/// Returns each text that occurs often enough behind its count.
fn list_rows<'t, B: Backend>(
    alloc: Global,
    counts: &[usize],
    texts: &'t StringInterner<B, LineHasher, TaggedIndex<B::Symbol>>,
    at_least: usize,
) -> Result<Vec<(usize, &'t str)>, Fault>
    //~ requires { length counts.now ≡ length texts.now.texts }
    //~ ensures rows { IfOk result (λ rows. map row_of rows.items
    //~     ≡ filter (is_often at_least) (zip counts.now texts.now.texts)) }
    //~ ensures fault { IfErr result (λ fault. fault ≡ Memory) }
{
    let len = count_often(counts, at_least);
    let mut rows = Vec::with_capacity(alloc, len).map_err(|_| Fault::Memory)?;
    let mut at = 0;
    for (_, text) in texts {
        let count = counts[at];
        at += 1;
        if count >= at_least {
            rows.push_reserved((count, text));
        }
    }
    Ok(rows)
}

/// Writes a row: the count, a space, and the text.
#[inline]
fn write_row<W: Write>(
    digits: &mut Buffer,
    count: usize,
    text: &str,
    output: &mut W,
) -> Result<(), Fault>
    //~ ensures written { OnOk result (Appends (W.contents output.old) (W.contents output.new)
    //~     (count_line (count, text.now))) }
    //~ ensures fault { IfErr result IsWriteFault }
{
    write(output, digits.format(count).as_bytes())?;
    write(output, b" ")?;
    write(output, text.as_bytes())?;
    write(output, b"\n")
}

/// Writes rows, a line each.
fn write_rows<W: Write>(rows: &[(usize, &str)], output: &mut W) -> Result<(), Fault>
    //~ ensures written { OnOk result (Appends (W.contents output.old) (W.contents output.new)
    //~     (flat_map count_line (map row_of rows.now))) }
    //~ ensures fault { IfErr result IsWriteFault }
{
    let mut digits = Buffer::new();
    for (count, text) in rows {
        write_row(&mut digits, *count, text, output)?;
    }
    output.flush().map_err(Fault::of_write)
}

/// Writes each text that occurs often enough behind its count, a line each, in their order. Makes no list of the rows.
fn write_texts<B: Backend, W: Write>(
    counts: &[usize],
    texts: &StringInterner<B, LineHasher, TaggedIndex<B::Symbol>>,
    at_least: usize,
    output: &mut W,
) -> Result<(), Fault>
    //~ requires { length counts.now ≡ length texts.now.texts }
    //~ ensures written { OnOk result (Appends (W.contents output.old) (W.contents output.new)
    //~     (flat_map count_line (filter (is_often at_least) (zip counts.now texts.now.texts)))) }
    //~ ensures fault { IfErr result IsWriteFault }
{
    let mut digits = Buffer::new();
    let mut at = 0;
    for (_, text) in texts {
        let count = counts[at];
        at += 1;
        if count < at_least {
            continue;
        }
        write_row(&mut digits, count, text, output)?;
    }
    output.flush().map_err(Fault::of_write)
}

/// Writes the rows of counted lines that are asked for. Nothing is written before they are sorted.
fn write_counted<B: Backend, W: Write>(
    alloc: Global,
    counts: &[usize],
    texts: &StringInterner<B, LineHasher, TaggedIndex<B::Symbol>>,
    asked: Rows,
    output: &mut W,
) -> Result<(), Fault>
    //~ requires { length counts.now ≡ length texts.now.texts }
    //~ ensures written { (lines : List Text) → zip counts.now texts.now.texts ≡ counted lines
    //~     → OnOk result (Writes (IsCountsText asked lines)
    //~     (W.contents output.old) (W.contents output.new)) }
    //~ ensures silent { WritesLast result output.old output.new }
    //~ ensures fault { IfErr result IsOutputFault }
{
    let top = match asked.order {
        Order::Appearance => return write_texts(counts, texts, asked.at_least, output),
        Order::Frequency => usize::MAX,
        Order::Top(top) => top.get(),
    };
    let mut rows = list_rows(alloc, counts, texts, asked.at_least)?;
    sort_rows(&mut rows)?;
    write_rows(&rows[..top.min(rows.len())], output)
}

/// Writes how often each line of an input occurs, and the line, of those that are asked for. Nothing is written before the whole
/// input was counted.
pub fn count<B: Backend + Drop, R: Read, W: Write>(
    alloc: Global,
    hasher: LineHasher,
    asked: Rows,
    input: &mut R,
    output: &mut W,
) -> Result<(), Fault>
    //~ ensures written { OnOk result (IfSome (R.remaining input.old)
    //~     (λ all. Writes (IsCountsText asked (lines_of all))
    //~     (W.contents output.old) (W.contents output.new))) }

    // Unless all went well or a write failed, the output was not touched.
    //~ ensures silent { WritesLast result output.old output.new }
    //~ ensures fault { IfErr result
    //~     (IsLinesTaskFault (LacksCount B.numbering) (R.remaining input.old)) }
{
    let counts = count_input::<B, R>(alloc, hasher, input)?;
    write_counted(
        alloc,
        &counts.counts,
        counts.lines.interner(),
        asked,
        output,
    )
}

/// Writes how often each row of a column occurs, and the row, in the order that `count` has. Nothing is written before all
/// are counted.
pub fn write_column_counts<B: Backend, W: Write>(
    alloc: Global,
    lines: &Column<B, LineHasher>,
    asked: Rows,
    output: &mut W,
) -> Result<(), Fault>
    //~ ensures written { OnOk result (Writes (IsCountsText asked lines.now)
    //~     (W.contents output.old) (W.contents output.new)) }
    //~ ensures silent { WritesLast result output.old output.new }
    //~ ensures fault { IfErr result IsOutputFault }
{
    let counts = lines.counts(alloc).map_err(|_| Fault::Memory)?;
    write_counted(alloc, &counts, lines.dictionary(), asked, output)
}
