//! The folder of shards.

//~ ghost use Rattle.std.specs.Prelude.{◌<◌, All, length, IfOk};
//~ ghost use Rattle.dictcol.specs.Shards.{IsWritten};

use crate::rt::prelude::*; use super::{Shard, Shards};
use crate::dictcol::command::ShardFolder;
use crate::dictcol::fault::Fault;
use crate::dictcol::located::Located;
use crate::dictcol::output::exchanged::Exchanged;
use crate::dictcol::plain::folder::{OPEN_AT_ONCE, is_folder};
use crate::dictcol::reader::LineReader;
use crate::dictcol::source::Source;
use crate::dictcol::unfinished::{Unfinished, store};
use crate::rt::fs::File;
use crate::rt::io::ErrorKind;
use crate::rt::{fs, io};
use crate::erased::dedup::FoldState;

/// The file that has the number of each line's shard.
const ORDER: &str = "order";

/// Linux's number for a file that is there already.
const EXISTS: i32 = 17;

/// Linux's number for more open files than a process may have.
const TOO_MANY_FILES: i32 = 24;

/// Creates a file, in which zero bytes end lines or not.
fn create(rt: &HostRuntime, path: &str, is_exchanged: bool) -> Result<Shard<Exchanged<File>>, Fault>
    //~ ensures { IfOk result IsWritten }
{
    let file = File::create_new(rt, path).map_err(Fault::Folder)?;
    let output = Exchanged::new(rt.alloc(), file, is_exchanged).map_err(|_| Fault::Memory)?;
    Ok(Shard::new(rt.alloc(), output))
}

/// Creates the files of the shards.
fn create_files(
    rt: &HostRuntime,
    place: ShardFolder<'_>,
    is_exchanged: bool,
) -> Result<Vec<Shard<Exchanged<File>>>, Fault>
    //~ ensures some { IfOk result (λ shards. 0 < length shards.items) }
    //~ ensures written { IfOk result (λ shards. All IsWritten shards.items) }
{
    let (alloc, folder) = (rt.alloc(), place.folder);
    let mut shards = Vec::new(alloc);
    for number in 0..place.count.get() {
        let path = crate::rt::format!(in alloc; "{folder}/{number}").map_err(|_| Fault::Memory)?;
        let shard = create(rt, path.as_str(), is_exchanged)?;
        shards.push(shard).map_err(|_| Fault::Memory)?;
    }
    Ok(shards)
}

/// Waits until the files are stored.
fn store_files(shards: &Shards<FoldState, Exchanged<File>>) -> Result<(), Fault> {
    let (shards, order) = shards.outputs();
    for shard in shards {
        store(shard.output().get_ref())?;
    }
    store(order.output().get_ref())
}

/// Writes the lines of the input into files of the folder, and stores these.
fn write_files(lines: &mut LineReader<'_>, place: ShardFolder<'_>) -> Result<(), Fault> {
    let (rt, folder) = (lines.rt, place.folder);
    let path = crate::rt::format!(in rt.alloc(); "{folder}/{ORDER}").map_err(|_| Fault::Memory)?;
    let order = create(rt, path.as_str(), false)?;
    let outputs = create_files(rt, place, lines.is_zero_ended)?;
    // Every machine has the same hash codes.
    let mut shards = Shards::new(FoldState::default(), outputs, order);
    shards.write_lines(rt.alloc(), &mut lines.input)?;
    store_files(&shards)
}

/// Returns whether a file of this name is written: that of a shard has its number.
fn is_name(name: &str) -> bool {
    let is_number = name.bytes().all(|byte| byte.is_ascii_digit());
    name == ORDER || name == "0" || is_number && !name.starts_with('0')
}

/// Returns how many of some files can be open at once beside what is. The limit is no number of ours, so it is tried.
fn count_free_files(rt: &HostRuntime, wanted: usize) -> Result<usize, Fault> {
    let mut free = Vec::new(rt.alloc());
    for _ in 0..wanted {
        match File::open(rt, "/") {
            Ok(file) => free.push(file).map_err(|_| Fault::Memory)?,
            Err(error) if error.raw_os_error() == Some(TOO_MANY_FILES) => break,
            // What is wrong with it matters to no shard.
            Err(_) => return Ok(wanted),
        }
    }
    Ok(free.len())
}

/// Returns how many files are open beside the shards while this one is read: the numbers of their lines, the folder, and what is read.
fn count_others(rt: &HostRuntime, file: Source<'_>) -> usize {
    match file {
        Source::StandardInput => 2,
        Source::File(path) if is_folder(rt, path) => 2 + OPEN_AT_ONCE,
        Source::File(_) => 3,
    }
}

/// Checks that so many shards can be open at once, beside the other files.
fn check_count(rt: &HostRuntime, count: usize, files: &[Source<'_>]) -> Result<(), Fault> {
    let mut others = 2;
    for file in files {
        if others < 2 + OPEN_AT_ONCE {
            others = others.max(count_others(rt, *file));
        }
    }
    let wanted = count.saturating_add(others);
    let free = count_free_files(rt, wanted)?;
    if free < wanted {
        return Err(Fault::TooManyShards(free.saturating_sub(others)));
    }
    Ok(())
}

/// Makes the folder that becomes this one, which may not be there.
fn begin(rt: &HostRuntime, folder: &str) -> Result<Unfinished, Fault> {
    match fs::symlink_metadata(rt, folder) {
        Ok(_) => return Err(Fault::Folder(io::Error::from_raw_os_error(EXISTS))),
        Err(error) if error.kind() == ErrorKind::NotFound => {}
        Err(error) => return Err(Fault::Folder(error)),
    }
    Unfinished::make(rt, folder.trim_end_matches('/'), '.', &is_name)
}

/// Does what `write_files` does, in a folder that gets its name once all its files are stored.
fn write_folder(
    lines: &mut LineReader<'_>,
    place: ShardFolder<'_>,
    unfinished: &Unfinished,
) -> Result<(), Fault> {
    let count = place.count;
    let folder = unfinished.path();
    write_files(lines, ShardFolder { count, folder })?;
    unfinished
        .rename(lines.rt, place.folder)
        .map_err(Fault::Folder)
}

/// Writes the lines of a reader of these files into a folder, which is made for them. A run that fails or is killed leaves none of
/// this name, or a whole one.
pub fn write<'a>(
    lines: &mut LineReader<'a>,
    place: ShardFolder<'a>,
    files: &[Source<'a>],
) -> Result<(), Located<'a>> {
    let (rt, folder) = (lines.rt, Source::File(place.folder));
    check_count(rt, place.count.get(), files).map_err(|fault| Located::new(folder, fault))?;
    let unfinished = begin(rt, place.folder).map_err(|fault| Located::new(folder, fault))?;
    let outcome = write_folder(lines, place, &unfinished);
    if outcome.is_err() {
        unfinished.remove(rt);
    }
    match outcome {
        Err(Fault::Output(error) | Fault::Folder(error)) => {
            Err(Located::new(folder, Fault::Folder(error)))
        }
        outcome => lines.end(outcome),
    }
}
