//! Giving the files of a run the places of others.

use crate::rt::prelude::*; use super::folder::Paths;
use crate::dictcol::unfinished::store_folder;
use crate::rt::fs::File;
use crate::rt::io::ErrorKind;
use crate::rt::{fs, io};

/// Linux's number for a folder in the place of a file.
const IS_FOLDER: i32 = 21;

/// Returns what came of a step that a file has no part in if it is not there.
fn allow_missing(outcome: io::Result<()>) -> io::Result<()> {
    match outcome {
        Err(error) if error.kind() == ErrorKind::NotFound => Ok(()),
        outcome => outcome,
    }
}

/// Moves an old file away, if it is there.
fn keep(rt: &HostRuntime, old: &str, kept: &str) -> io::Result<()> {
    match fs::symlink_metadata(rt, old) {
        Err(error) if error.kind() == ErrorKind::NotFound => Ok(()),
        Ok(metadata) if metadata.is_dir() => Err(io::Error::from_raw_os_error(IS_FOLDER)),
        _ => fs::rename(rt, old, kept),
    }
}

/// Opens and locks the old numbers: who finds none in their place waits for the lock. Without one nobody waits. `flock DIR dictcol`
/// has locked the folder itself, so that its lock would be waited for without end.
fn lock_numbers(rt: &HostRuntime, old: &str) -> Option<File> {
    match fs::symlink_metadata(rt, old) {
        // Opening a pipe would wait.
        Ok(metadata) if metadata.is_file() => {}
        _ => return None,
    }
    let numbers = File::open(rt, old).ok()?;
    let _ = numbers.try_lock();
    Some(numbers)
}

/// Gives new files their places, but for the last of them.
fn replace(
    rt: &HostRuntime,
    folder: &File,
    new: &Paths,
    old: &Paths,
    kept: &Paths,
    is_cut: bool,
) -> io::Result<()> {
    keep(rt, old.numbers.as_str(), kept.numbers.as_str())?;
    store_folder(folder)?;
    keep(rt, old.pair.as_str(), kept.pair.as_str())?;
    fs::rename(rt, new.pair.as_str(), old.pair.as_str())?;
    keep(rt, old.cut.as_str(), kept.cut.as_str())?;
    if is_cut {
        fs::rename(rt, new.cut.as_str(), old.cut.as_str())?;
    }
    // The dictionary is never missing: it has the codes of all columns. Not every file system gives a file a second name.
    let _ = fs::hard_link(rt, old.dictionary.as_str(), kept.dictionary.as_str());
    fs::rename(rt, new.dictionary.as_str(), old.dictionary.as_str())?;
    store_folder(folder)
}

/// Puts an old file back into its place. If there was none, what got its place goes.
fn put_back(rt: &HostRuntime, new: &str, old: &str, kept: &str) -> io::Result<()> {
    match fs::rename(rt, kept, old) {
        Err(error) if error.kind() == ErrorKind::NotFound => {}
        outcome => return outcome,
    }
    if fs::exists(rt, new)? {
        // It did not get its place.
        return Ok(());
    }
    allow_missing(fs::remove_file(rt, old))
}

/// Puts old files back, the numbers last, and only behind all others.
fn put_all_back(
    rt: &HostRuntime,
    folder: &File,
    new: &Paths,
    old: &Paths,
    kept: &Paths,
    is_cut: bool,
) -> io::Result<()> {
    let outcome = fs::rename(rt, kept.dictionary.as_str(), old.dictionary.as_str());
    if outcome.is_err() && !fs::exists(rt, new.dictionary.as_str())? {
        return outcome;
    }
    if is_cut {
        put_back(rt, new.cut.as_str(), old.cut.as_str(), kept.cut.as_str())?;
    } else {
        allow_missing(fs::rename(rt, kept.cut.as_str(), old.cut.as_str()))?;
    }
    put_back(rt, new.pair.as_str(), old.pair.as_str(), kept.pair.as_str())?;
    store_folder(folder)?;
    allow_missing(fs::rename(rt, kept.numbers.as_str(), old.numbers.as_str()))?;
    store_folder(folder)
}

/// Gives the numbers of a run their place, which was killed when its other files had theirs.
pub fn end_left(rt: &HostRuntime, folder: &str, new: &Paths, old: &Paths) -> io::Result<()> {
    let folder = File::open(rt, folder)?;
    fs::rename(rt, new.numbers.as_str(), old.numbers.as_str())?;
    store_folder(&folder)
}

/// Gives old files the places back that a run took from them before it was killed, if it did. `is_cut` is what the `pair.txt` in its
/// place says of the last line.
pub fn undo_left(
    rt: &HostRuntime,
    folder: &str,
    new: &Paths,
    old: &Paths,
    kept: &Paths,
    is_cut: bool,
) -> io::Result<()> {
    if !fs::exists(rt, kept.numbers.as_str())? {
        return Ok(());
    }
    let folder = File::open(rt, folder)?;
    // While the new `pair.txt` has not got its place, no file behind it has.
    let is_cut = is_cut && !fs::exists(rt, new.pair.as_str())?;
    put_all_back(rt, &folder, new, old, kept, is_cut)
}

/// Gives new files their places. There is no `codes.npy` while the other files are not those of the new one, also after a power
/// cut: each step is stored before the next. If one fails, the old files get their places back.
pub fn exchange(
    rt: &HostRuntime,
    folder: &str,
    new: &Paths,
    old: &Paths,
    kept: &Paths,
    is_cut: bool,
) -> io::Result<()> {
    let folder = File::open(rt, folder)?;
    let _locked = lock_numbers(rt, old.numbers.as_str());
    let outcome = match replace(rt, &folder, new, old, kept, is_cut) {
        Ok(()) => fs::rename(rt, new.numbers.as_str(), old.numbers.as_str()),
        Err(error) => Err(error),
    };
    if outcome.is_err() {
        // Nothing is left to do if that fails, too: there is no `codes.npy` then.
        let _ = put_all_back(rt, &folder, new, old, kept, is_cut);
        return outcome;
    }
    store_folder(&folder)
}
