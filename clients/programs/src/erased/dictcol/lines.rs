//! The lines of a text as the rows of a column.

//~ ghost use Rattle.std.specs.Prelude.{◌≡◌, [], ◌∷◌, ◌++◌, false, IfErr, IfOk, IfSome, OnOk};
//~ ghost use Rattle.std.specs.List.{list_any};
//~ ghost use Rattle.dictcol.specs.Blocks.{IsLinesFault};
//~ ghost use Rattle.dictcol.specs.Fault.{IsTakeFault};
//~ ghost use Rattle.dictcol.specs.Lines.{has_newline, lines_of, text_of_ended, AreLines};
//~ ghost use Rattle.dictcol.specs.TooMany.{HasRefused, LacksLine};
//~ ghost use Rattle.dictcol.specs.declared.fault.Fault.TheVariants.{Memory};

use crate::rt::prelude::*; use crate::dictcol::fault::Fault;
use crate::dictcol::hasher::LineHasher;
use crate::dictcol::input::blocks;
use crate::dictcol::input::blocks::{Taker, TakesLines};
use crate::dictcol::input::split::Lines;
use crate::rt::alloc::Global;
use crate::rt::io::Read;
use crate::string_column::Column;
use crate::erased::backend::Backend;

/// A column takes lines as rows.
impl<B: Backend> Taker for Column<B, LineHasher> {
    //~ ghost use Rattle.dictcol.specs.TooMany.{LacksLine};

    //~ ghost has_taken = { λ column lines. column ≡ lines };

    //~ ghost refuses = { LacksLine B.numbering };

    //~ ghost kept = { λ _. tt };
}

impl<B: Backend> TakesLines for Column<B, LineHasher> {
    fn take_lines(&mut self, text: &str) -> Result<(), Fault> {
        match self.encode(Lines::new(text)) {
            Ok(()) => Ok(()),
            Err(error) => Err(Fault::of_intern(error)),
        }
    }

    fn count_lines(&self) -> usize {
        self.len()
    }
}

/// Appends a line and a newline to some bytes.
pub fn push_line(bytes: &mut Vec<u8>, line: &str) -> Result<(), Fault>
    //~ ensures ok { OnOk result (bytes.new.items ≡ bytes.old.items ++ line.now ++ 10 ∷ []) }
    //~ ensures fault { IfErr result (λ fault. fault ≡ Memory) }
{
    if bytes.extend_from_slice(line.as_bytes()).is_err() {
        return Err(Fault::Memory);
    }
    match bytes.push(b'\n') {
        Ok(()) => Ok(()),
        Err(_) => Err(Fault::Memory),
    }
}

/// Makes what stands behind the last newline of a text a row, unless it is empty: then the rows are all lines of the text. Returns
/// whether the last one ends in a newline.
pub fn end_rest<B: Backend>(lines: &mut Column<B, LineHasher>, rest: &str) -> Result<bool, Fault>
    //~ requires plain { list_any has_newline lines.old ≡ false }
    //~ requires rest_plain { has_newline rest.now ≡ false }
    //~ ensures ok { IfOk result (λ is_ended.
    //~     AreLines (text_of_ended lines.old rest.now) lines.new is_ended) }
    //~ ensures fault { IfErr result (IsTakeFault
    //~     (HasRefused (LacksLine B.numbering) (lines_of (text_of_ended lines.old rest.now)))) }
{
    if rest.is_empty() {
        let is_ended = lines.len() > 0;
        return Ok(is_ended);
    }
    match lines.push(rest) {
        Ok(_) => Ok(false),
        Err(error) => Err(Fault::of_intern(error)),
    }
}

/// Reads the lines that are all that an input yields, and whether the last one ends in a newline.
pub fn read_lines<B: Backend + Drop, R: Read>(
    alloc: Global,
    hasher: LineHasher,
    input: &mut R,
) -> Result<(Column<B, LineHasher>, bool), Fault>
    //~ ensures ok { IfOk result (λ lines.
    //~     IfSome (R.remaining input.old) (λ text. AreLines text lines.0 lines.1)) }
    //~ ensures fault { IfErr result
    //~     (IsLinesFault (LacksLine B.numbering) (R.remaining input.old)) }
{
    let mut lines = Column::with_hasher(alloc, hasher);
    let rest = blocks::read_lines(alloc, input, &mut lines)?;
    let is_ended = end_rest(&mut lines, rest.as_str())?;
    Ok((lines, is_ended))
}
