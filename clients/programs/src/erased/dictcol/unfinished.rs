//! Folders that a run writes, before what is in them gets its place.

use crate::rt::prelude::*; use crate::dictcol::fault::Fault;
use crate::rt::fs::{File, Metadata, TryLockError};
use crate::rt::io::ErrorKind;
use crate::rt::os::unix::fs::MetadataExt;
use crate::rt::{fs, io};

/// The name of a folder for the files of another, or what is behind its own name.
pub const NAME: &str = "dictcol-unfinished";

/// A folder that one run alone writes into.
//~ #[derive(Drop)]
pub struct Unfinished {
    path: String,
    /// Holds a lock, which ends with the process. So what a killed run leaves is told from what another run writes.
    folder: File,
}

/// Returns whether both are of one file.
pub fn is_same(one: &Metadata, other: &Metadata) -> bool {
    one.dev() == other.dev() && one.ino() == other.ino()
}

/// Waits until a file is stored.
pub fn store(file: &File) -> Result<(), Fault> {
    file.sync_all().map_err(Fault::Folder)
}

/// Waits until the names in a folder are stored.
pub fn store_folder(folder: &File) -> io::Result<()> {
    match folder.sync_all() {
        // The file system stores them in its own time.
        Err(error) if error.kind() == ErrorKind::InvalidInput => Ok(()),
        outcome => outcome,
    }
}

/// Opens the folder that a name is in.
fn open_parent(rt: &HostRuntime, path: &str) -> io::Result<File> {
    let parent = match path.trim_end_matches('/').rsplit_once('/') {
        Some(("", _)) => "/",
        Some((parent, _)) => parent,
        None => ".",
    };
    File::open(rt, parent)
}

/// Waits until a name is stored in the folder that it is in.
pub fn store_parent(rt: &HostRuntime, path: &str) -> io::Result<()> {
    store_folder(&open_parent(rt, path)?)
}

/// Returns the error of a file that another run is writing.
pub fn busy() -> io::Error {
    io::Error::from(ErrorKind::ResourceBusy)
}

/// Returns the error, or that another run is writing if the error is of the kind that shows that one was faster.
fn busy_if(kind: ErrorKind, error: io::Error) -> io::Error {
    if error.kind() == kind { busy() } else { error }
}

/// Fails if a folder that was opened by this path is there no more.
fn check_there(rt: &HostRuntime, folder: &File, path: &str) -> io::Result<()> {
    let there = fs::symlink_metadata(rt, path).map_err(|error| busy_if(
        ErrorKind::NotFound,
        error,
    ))?;
    if is_same(&folder.metadata()?, &there) {
        Ok(())
    } else {
        Err(busy())
    }
}

/// Returns what came of a try to lock a folder, which fails if another run has it.
fn of_try(outcome: Result<(), TryLockError>) -> io::Result<()> {
    match outcome {
        Ok(()) => Ok(()),
        Err(TryLockError::WouldBlock) => Err(busy()),
        Err(TryLockError::Error(error)) => Err(error),
    }
}

/// Locks a folder that was opened by this path. Fails if another run has locked it, or if the path leads elsewhere by now.
fn lock(rt: &HostRuntime, folder: &File, path: &str) -> io::Result<()> {
    of_try(folder.try_lock())?;
    check_there(rt, folder, path)
}

/// Returns whether another run than the one that has `own` writes into the unfinished folder of this path.
pub fn is_taken(rt: &HostRuntime, path: &str, own: Option<&Unfinished>) -> bool {
    let Ok(folder) = File::open(rt, path) else {
        return false;
    };
    if let (Some(own), Ok(there)) = (own, folder.metadata()) {
        if let Ok(here) = own.folder.metadata() {
            if is_same(&here, &there) {
                return false;
            }
        }
    }
    matches!(folder.try_lock_shared(), Err(TryLockError::WouldBlock))
}

/// Returns whether a folder has nothing but files with names that a run gives.
fn has_names<N: Fn(&str) -> bool>(rt: &HostRuntime, path: &str, is_name: &N) -> io::Result<bool>
    //~ requires { N.IsAlwaysCallable is_name.now }
{
    for entry in fs::read_dir(rt, path)? {
        let entry = match entry {
            // It is not UTF-8.
            Err(error) if error.kind() == ErrorKind::InvalidFilename => return Ok(false),
            outcome => outcome?,
        };
        if !entry.file_type()?.is_file() || !is_name(entry.file_name()) {
            return Ok(false);
        }
    }
    Ok(true)
}

/// Removes what a killed run left, and returns whether nothing else is there. A link is not followed.
fn remove_left<N: Fn(&str) -> bool>(rt: &HostRuntime, path: &str, is_name: &N) -> io::Result<bool>
    //~ requires { N.IsAlwaysCallable is_name.now }
{
    match fs::symlink_metadata(rt, path) {
        Err(error) if error.kind() == ErrorKind::NotFound => return Ok(true),
        outcome => {
            if !outcome?.is_dir() {
                return Ok(false);
            }
        }
    }
    let folder = match File::open(rt, path) {
        Err(error) if error.kind() == ErrorKind::NotFound => return Ok(true),
        outcome => outcome?,
    };
    lock(rt, &folder, path)?;
    if !has_names(rt, path, is_name)? {
        return Ok(false);
    }
    fs::remove_dir_all(rt, path)?;
    Ok(true)
}

/// Makes a folder and locks it. Fails if another run does so at the same time.
fn make_locked(rt: &HostRuntime, path: &str) -> io::Result<File> {
    fs::create_dir(rt, path).map_err(|error| busy_if(ErrorKind::AlreadyExists, error))?;
    let folder = File::open(rt, path).map_err(|error| busy_if(ErrorKind::NotFound, error))?;
    // A run that only asks whether it is taken locks it for a moment, beside others. It is waited for, one that writes is not.
    of_try(folder.try_lock_shared())?;
    folder.lock()?;
    check_there(rt, &folder, path)?;
    Ok(folder)
}

impl Unfinished {
    /// Makes the folder, in the place of one that a killed run left: that has nothing but files with names that a run gives. The
    /// name is that of another folder, and behind it the separator and `dictcol-unfinished`. Fails while another run writes it.
    pub fn make<N: Fn(&str) -> bool>(
        rt: &HostRuntime,
        folder: &str,
        separator: char,
        is_name: &N,
    ) -> Result<Unfinished, Fault>
        //~ requires { N.IsAlwaysCallable is_name.now }
    {
        let path = crate::rt::format!(in rt.alloc(); "{folder}{separator}{NAME}").map_err(|_| Fault::Memory)?;
        if !remove_left(rt, path.as_str(), is_name).map_err(Fault::Folder)? {
            return Err(Fault::NotLeft(separator));
        }
        match make_locked(rt, path.as_str()) {
            Ok(folder) => Ok(Unfinished { path, folder }),
            Err(error) => Err(Fault::Folder(error)),
        }
    }

    /// Returns its path.
    pub fn path(&self) -> &str {
        self.path.as_str()
    }

    /// Gives the folder another name, which may be that of an empty one. Both are stored then, and the files in it, if they were.
    pub fn rename(&self, rt: &HostRuntime, path: &str) -> io::Result<()> {
        let parent = open_parent(rt, path)?;
        store_folder(&self.folder)?;
        fs::rename(rt, self.path.as_str(), path)?;
        store_folder(&parent)
    }

    /// Removes it with what it holds.
    pub fn remove(&self, rt: &HostRuntime) {
        // Nothing is left to do if it stays: the next run removes it.
        let _ = fs::remove_dir_all(rt, self.path.as_str());
    }
}
