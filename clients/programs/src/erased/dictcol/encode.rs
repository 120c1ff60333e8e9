//! `encode`: the file of the lines of an input.

//~ ghost use Rattle.std.specs.Prelude.{IfErr, IfSome, OnOk};
//~ ghost use Rattle.dictcol.specs.Blocks.{IsLinesTaskFault};
//~ ghost use Rattle.dictcol.specs.Fault.{WritesLast};
//~ ghost use Rattle.dictcol.specs.File.{IsColumnFile};
//~ ghost use Rattle.dictcol.specs.TooMany.{LacksLine};
//~ ghost use Rattle.dictcol.specs.Writes.{Writes};

use crate::rt::prelude::*; use crate::dictcol::fault::Fault;
use crate::dictcol::hasher::LineHasher;
use crate::dictcol::json_form::format;
use crate::dictcol::lines::read_lines;
use crate::rt::alloc::Global;
use crate::rt::io::{Read, Write};
use crate::erased::backend::Backend;

/// Reads an input to its end, and then writes the file of its text. Nothing is written before.
pub fn encode<B: Backend + Drop, R: Read, W: Write>(
    alloc: Global,
    hasher: LineHasher,
    input: &mut R,
    output: &mut W,
) -> Result<(), Fault>
    //~ ensures written { OnOk result (IfSome (R.remaining input.old) (λ text.
    //~     Writes (IsColumnFile text) (W.contents output.old) (W.contents output.new))) }

    // Unless all went well or a write failed, the output was not touched.
    //~ ensures silent { WritesLast result output.old output.new }

    // Where the input ceases to be UTF-8 is told, and lines are called too many only if one of them is refused.
    //~ ensures fault { IfErr result
    //~     (IsLinesTaskFault (LacksLine B.numbering) (R.remaining input.old)) }
{
    let (lines, is_ended) = read_lines::<B, R>(alloc, hasher, input)?;
    format::write_file(alloc, &lines, is_ended, output)
}
