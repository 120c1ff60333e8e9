//! Writing plain columns of the lines of some files.

use crate::rt::prelude::*; use crate::dictcol::command::Columns;
use crate::dictcol::fault::Fault;
use crate::dictcol::hasher::LineHasher;
use crate::dictcol::located::Located;
use crate::dictcol::plain::folder;
use crate::dictcol::plain::folder::{Before, Place};
use crate::dictcol::reader::LineReader;
use crate::dictcol::source::Source;
use crate::rt::io::ErrorKind;
use crate::erased::backend::Backend;

/// What may be done about a dictionary whose numbers are not there.
const NUMBERS_ADVICE: &str = " (see --onto-dictionary)";

/// Returns the fault of reading a folder, with what may be done about it.
fn locate<'a>(folder: &'a str, fault: Fault) -> Located<'a> {
    let advice = match &fault {
        Fault::NumbersFile(error) if error.kind() == ErrorKind::NotFound => NUMBERS_ADVICE,
        _ => "",
    };
    Located {
        source: Source::File(folder),
        fault,
        advice,
    }
}

/// Reads what stands before the rows of the text.
fn read_before<'a, B: Backend + Drop>(
    rt: &HostRuntime,
    hasher: LineHasher,
    columns: Columns<'a>,
    place: &Place<'_>,
) -> Result<Before<B>, Located<'a>> {
    match columns.onto {
        Some(onto) => {
            let before = folder::read_dictionary(rt, hasher, onto, place);
            before.map_err(|fault| locate(onto.folder, fault))
        }
        None if columns.appends => {
            let before = folder::read_rows(rt, hasher, place);
            before.map_err(|fault| locate(columns.folder, fault))
        }
        None => Ok(Before::none(rt.alloc(), hasher)?),
    }
}

/// Writes the lines of a reader into a folder that was taken.
fn write_into<'a, B: Backend + Drop>(
    lines: &mut LineReader<'a>,
    hasher: LineHasher,
    columns: Columns<'a>,
    place: &Place<'_>,
) -> Result<(), Located<'a>> {
    let rt = lines.rt;
    let mut before = read_before::<B>(rt, hasher, columns, place)?;
    let outcome = before.plain.read(rt.alloc(), hasher, &mut lines.input);
    if let Err(fault) = outcome {
        return Err(lines.locate(fault));
    }
    lines.tell_skipped();
    place
        .write(rt, &before)
        .map_err(|fault| Located::new(Source::File(columns.folder), fault))
}

/// Writes the lines of a reader, which the backend `B` stores meanwhile, into a folder, which is taken before anything is read: what
/// is read of it is still there when it gets new files.
pub fn write<'a, B: Backend + Drop>(
    lines: &mut LineReader<'a>,
    hasher: LineHasher,
    columns: Columns<'a>,
) -> Result<(), Located<'a>> {
    let place = Place::take(lines.rt, columns.folder, columns.appends).map_err(|fault| Located::new(
        Source::File(columns.folder),
        fault,
    ))?;
    let outcome = write_into::<B>(lines, hasher, columns, &place);
    place.leave(lines.rt, outcome.is_ok());
    outcome?;
    lines.inputs().report_end();
    lines.warn_of_looks();
    Ok(())
}
