//! The lines of a text, read from both files.

//~ ghost use Rattle.std.specs.Prelude.{◌≡◌, ◌≢◌, ◌<◌, ◌≤◌, [], List, ◌++◌, length, slice_range, IfOk, IfErr, OnOk};
//~ ghost use Rattle.std.specs.Io.KnownBytes.{Appends};
//~ ghost use Rattle.string_interner.specs.Text.{Text};
//~ ghost use Rattle.dictcol.specs.Fault.{IsWriteFault};
//~ ghost use Rattle.dictcol.specs.Lines.{text_of_ended};
//~ ghost use Rattle.dictcol.specs.Plain.{plain_text, AreRows};

use crate::rt::prelude::*; use crate::dictcol::fault::Fault;
use crate::dictcol::output::write;
use crate::rt::io;
use crate::rt::io::Write;

/// Writes the lines with these numbers but the last run of them. Returns where that begins and ends. Lines are a run if each
/// begins where the one before it ends.
fn write_runs<W: Write>(
    output: &mut W,
    file: &[u8],
    bounds: &[usize],
    numbers: &[u8],
) -> io::Result<(usize, usize)>
    //~ requires { (rows : List Text) × AreRows file.now bounds.now numbers.now rows }
    //~ ensures within { IfOk result (λ run. (run.0 ≤ run.1) × (run.1 ≤ length file.now)) }
    //~ ensures written { (rows : List Text) → AreRows file.now bounds.now numbers.now rows
    //~     → IfOk result (λ run. (text : Text) × (rows ≢ [] → run.0 < run.1)
    //~     × (text_of_ended rows [] ≡ text ++ slice_range file.now run.0 run.1)
    //~     × Appends (W.contents output.old) (W.contents output.new) text) }
{
    let (mut start, mut end) = (0, 0);
    let mut rest = numbers;
    'rows: while let Some((first, behind)) = rest.split_first_chunk::<4>() {
        let line = u32::from_le_bytes(*first) as usize;
        let begin = bounds[line];
        if begin != end {
            output.write_all(&file[start..end])?;
            start = begin;
        }
        end = bounds[line + 1];
        rest = behind;
    }
    Ok((start, end))
}

/// Writes the lines with these numbers, and a newline behind each but the last one if that is cut.
pub fn write_rows<W: Write>(
    output: &mut W,
    file: &[u8],
    bounds: &[usize],
    numbers: &[u8],
    is_cut: bool,
) -> Result<(), Fault>
    //~ requires { (rows : List Text) × AreRows file.now bounds.now numbers.now rows }
    //~ ensures written { (rows : List Text) → AreRows file.now bounds.now numbers.now rows
    //~     → OnOk result (Appends (W.contents output.old) (W.contents output.new)
    //~     (plain_text rows is_cut)) }
    //~ ensures fault { IfErr result IsWriteFault }
{
    let (start, end) = write_runs(output, file, bounds, numbers).map_err(Fault::of_write)?;
    let run = &file[start..end];
    let count = if is_cut {
        run.len().saturating_sub(1)
    } else {
        run.len()
    };
    write(output, &run[..count])?;
    output.flush().map_err(Fault::of_write)
}
