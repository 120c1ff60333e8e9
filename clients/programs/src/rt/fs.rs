//! Files, by calls of Linux on 64 bits. Those of Rust's std copy long paths, and list folders, in memory without which they end the
//! process.

use super::host::HostRuntime;
use super::io::{Error, ErrorKind, Read, Result, Write};
use super::signals;
use core::ffi::{c_char, c_int, c_long, CStr};
use std::fs;
use std::io::{Read as _, Write as _};
use std::os::fd::{AsRawFd, FromRawFd, IntoRawFd, RawFd};
use std::os::unix::fs::{FileExt as _, MetadataExt as _};

unsafe extern "C" {
    fn open(path: *const c_char, flags: c_int, ...) -> c_int;
    fn openat(folder: c_int, name: *const c_char, flags: c_int, ...) -> c_int;
    #[link_name = "fchown"]
    fn change_owner(file: c_int, owner: u32, group: u32) -> c_int;
    fn fchmod(file: c_int, mode: u32) -> c_int;
    fn flock(file: c_int, how: c_int) -> c_int;
    fn mkdir(path: *const c_char, mode: u32) -> c_int;
    fn rmdir(path: *const c_char) -> c_int;
    fn link(from: *const c_char, to: *const c_char) -> c_int;
    fn unlink(path: *const c_char) -> c_int;
    fn unlinkat(folder: c_int, name: *const c_char, flags: c_int) -> c_int;
    #[link_name = "rename"]
    fn rename_path(from: *const c_char, to: *const c_char) -> c_int;
    // C's calls that list a folder ask for memory.
    fn syscall(number: c_long, folder: c_int, entries: *mut u8, room: usize) -> c_long;
}

// Flags of `open`, as Linux has them.
const READ: c_int = 0;
const WRITE: c_int = 1;
const READ_AND_WRITE: c_int = 2;
const CREATE: c_int = 0o100;
const EXCLUSIVE: c_int = 0o200;
/// A terminal that is opened does not become that of the process.
const NO_TERMINAL: c_int = 0o400;
const CLOSE_ON_EXEC: c_int = 0o2_000_000;
/// Of each file that is opened.
const ALWAYS: c_int = NO_TERMINAL | CLOSE_ON_EXEC;
/// The path alone, of which only questions may be asked.
const PATH: c_int = 0o10_000_000;
#[cfg(not(target_arch = "aarch64"))]
const NO_FOLLOW: c_int = 0o400_000;
#[cfg(target_arch = "aarch64")]
const NO_FOLLOW: c_int = 0o100_000;

/// The mode of a new file, and of a new folder, before the mask of the process.
const FILE_MODE: u32 = 0o666;
const FOLDER_MODE: u32 = 0o777;

/// Of `flock`: beside others that do the same, alone, and without waiting.
const SHARED: c_int = 1;
const ALONE: c_int = 2;
const AT_ONCE: c_int = 4;
/// Of `unlinkat`: a folder.
const FOLDER: c_int = 0x200;

/// Numbers of errors.
const IS_A_FOLDER: i32 = 21;
const NAME_TOO_LONG: i32 = 36;

/// The number of the call that lists a folder, `getdents64`.
#[cfg(not(any(target_arch = "x86_64", target_arch = "aarch64")))]
compile_error!("the programs need the number of a call of Linux on this processor");
#[cfg(target_arch = "x86_64")]
const LIST: c_long = 217;
#[cfg(target_arch = "aarch64")]
const LIST: c_long = 61;

/// Where an entry of a folder has its length, of two bytes, and its name. Between them is its kind, which not every file system says.
const ENTRY_LEN: usize = 16;
const ENTRY_NAME: usize = 19;
/// For so many bytes of entries there is room.
const ENTRIES: usize = 4096;

/// The most bytes of a path, with the zero byte at its end.
pub(super) const LONGEST_PATH: usize = 4096;

/// A path as C has it.
struct Path([u8; LONGEST_PATH]);

impl Path {
    fn new(path: &str) -> Result<Self> {
        if path.as_bytes().contains(&0) {
            let text = "file name contained an unexpected NUL byte";
            return Err(Error::Told(ErrorKind::InvalidInput, text));
        }
        let mut bytes = [0; LONGEST_PATH];
        if path.len() >= LONGEST_PATH {
            return Err(Error::System(NAME_TOO_LONG));
        }
        bytes[..path.len()].copy_from_slice(path.as_bytes());
        Ok(Path(bytes))
    }

    fn as_ptr(&self) -> *const c_char {
        self.0.as_ptr().cast()
    }
}

/// Returns what a call of the system returned, which is negative if it failed.
fn check(returned: c_int) -> Result<c_int> {
    if returned < 0 {
        Err(Error::last())
    } else {
        Ok(returned)
    }
}

/// Makes a call of the system until it is not interrupted.
fn retry(call: impl Fn() -> c_int) -> Result<()> {
    loop {
        match check(call()) {
            Err(error) if error.kind() == ErrorKind::Interrupted => {}
            outcome => return outcome.map(drop),
        }
    }
}

/// Opens a file by a call, which is made again if it was interrupted.
fn open_by(call: impl Fn() -> c_int) -> Result<File> {
    loop {
        match check(call()) {
            // SAFETY: it was just opened, and nothing else closes it.
            Ok(file) => return Ok(File(unsafe { fs::File::from_raw_fd(file) })),
            Err(error) if error.kind() == ErrorKind::Interrupted => {}
            Err(error) => return Err(error),
        }
    }
}

/// An open file or folder.
pub struct File(fs::File);

/// What the system says of a file.
pub struct Metadata(fs::Metadata);

/// Why a file was not locked.
pub enum TryLockError {
    Error(Error),
    /// Another run has locked it.
    WouldBlock,
}

impl File {
    fn of(path: &str, flags: c_int) -> Result<Self> {
        File::with_mode(path, flags, FILE_MODE)
    }

    fn with_mode(path: &str, flags: c_int, mode: u32) -> Result<Self> {
        let path = Path::new(path)?;
        // SAFETY: the path ends with a zero byte.
        open_by(|| unsafe { open(path.as_ptr(), flags | ALWAYS, mode) })
    }

    /// Opens a file or folder to be read.
    pub fn open(_: &HostRuntime, path: &str) -> Result<Self> {
        File::of(path, READ)
    }

    /// Makes a file, which is not there, to be read and written.
    pub fn create_new(_: &HostRuntime, path: &str) -> Result<Self> {
        File::of(path, READ_AND_WRITE | CREATE | EXCLUSIVE)
    }

    /// Returns how a file is opened, for nothing so far.
    pub fn options() -> OpenOptions {
        OpenOptions {
            is_read: false,
            is_written: false,
            is_new: false,
            mode: FILE_MODE,
        }
    }

    pub fn metadata(&self) -> Result<Metadata> {
        Ok(Metadata(self.0.metadata()?))
    }

    /// Waits until it is stored.
    pub fn sync_all(&self) -> Result<()> {
        Ok(self.0.sync_all()?)
    }

    /// Gives it to those who may do so much.
    pub fn set_permissions(&self, permissions: Permissions) -> Result<()> {
        // SAFETY: the file is open.
        retry(|| unsafe { fchmod(self.0.as_raw_fd(), permissions.0) })
    }

    /// Locks it until it is closed. Waits while another has it.
    pub fn lock(&self) -> Result<()> {
        self.lock_as(ALONE)
    }

    /// Locks it until it is closed, beside others that do the same. Waits while another has it alone.
    pub fn lock_shared(&self) -> Result<()> {
        self.lock_as(SHARED)
    }

    /// Locks it until it is closed, unless another has.
    pub fn try_lock(&self) -> core::result::Result<(), TryLockError> {
        self.try_to(ALONE)
    }

    /// Locks it until it is closed, beside others that do the same, unless another has it alone.
    pub fn try_lock_shared(&self) -> core::result::Result<(), TryLockError> {
        self.try_to(SHARED)
    }

    fn lock_as(&self, how: c_int) -> Result<()> {
        // SAFETY: the file is open.
        retry(|| unsafe { flock(self.0.as_raw_fd(), how) })
    }

    fn try_to(&self, how: c_int) -> core::result::Result<(), TryLockError> {
        match self.lock_as(how | AT_ONCE) {
            Ok(()) => Ok(()),
            Err(error) if error.kind() == ErrorKind::WouldBlock => Err(TryLockError::WouldBlock),
            Err(error) => Err(TryLockError::Error(error)),
        }
    }
}

impl AsRawFd for File {
    fn as_raw_fd(&self) -> RawFd {
        self.0.as_raw_fd()
    }
}

impl IntoRawFd for File {
    fn into_raw_fd(self) -> RawFd {
        self.0.into_raw_fd()
    }
}

/// How a file is opened.
pub struct OpenOptions {
    is_read: bool,
    is_written: bool,
    is_new: bool,
    mode: u32,
}

impl OpenOptions {
    pub fn read(&mut self, is_read: bool) -> &mut Self {
        self.is_read = is_read;
        self
    }

    pub fn write(&mut self, is_written: bool) -> &mut Self {
        self.is_written = is_written;
        self
    }

    pub fn create_new(&mut self, is_new: bool) -> &mut Self {
        self.is_new = is_new;
        self
    }

    pub fn open(&self, _: &HostRuntime, path: &str) -> Result<File> {
        let flags = match (self.is_read, self.is_written) {
            (true, true) => READ_AND_WRITE,
            (true, false) if !self.is_new => READ,
            (false, true) => WRITE,
            _ => return Err(ErrorKind::InvalidInput.into()),
        };
        let made = if self.is_new { CREATE | EXCLUSIVE } else { 0 };
        File::with_mode(path, flags | made, self.mode)
    }
}

/// What only Unix has of it.
pub trait OpenOptionsExt {
    /// Sets who may use a file that is made, before the mask of the process.
    fn mode(&mut self, mode: u32) -> &mut Self;
}

impl OpenOptionsExt for OpenOptions {
    fn mode(&mut self, mode: u32) -> &mut Self {
        self.mode = mode;
        self
    }
}

impl Read for File {
    fn read(&mut self, bytes: &mut [u8]) -> Result<usize> {
        Ok(self.0.read(bytes)?)
    }
}

impl Write for File {
    fn write(&mut self, bytes: &[u8]) -> Result<usize> {
        Ok(self.0.write(bytes)?)
    }

    fn flush(&mut self) -> Result<()> {
        Ok(())
    }
}

impl Metadata {
    pub fn is_dir(&self) -> bool {
        self.0.is_dir()
    }

    pub fn is_file(&self) -> bool {
        self.0.is_file()
    }

    #[allow(clippy::len_without_is_empty)]
    pub fn len(&self) -> u64 {
        self.0.len()
    }

    pub fn permissions(&self) -> Permissions {
        Permissions(self.0.mode())
    }
}

/// Who may use a file, and how.
#[derive(Clone, PartialEq, Eq)]
pub struct Permissions(u32);

/// What tells whether two are of one file, and whose it is.
pub trait MetadataExt {
    fn dev(&self) -> u64;
    fn ino(&self) -> u64;
    fn uid(&self) -> u32;
    fn gid(&self) -> u32;
}

impl MetadataExt for Metadata {
    fn dev(&self) -> u64 {
        self.0.dev()
    }

    fn ino(&self) -> u64 {
        self.0.ino()
    }

    fn uid(&self) -> u32 {
        self.0.uid()
    }

    fn gid(&self) -> u32 {
        self.0.gid()
    }
}

/// Reads that leave the place of the file where it is.
pub trait FileExt {
    /// Reads once from this offset on, and returns how many bytes came: none at the end.
    fn read_at(&self, bytes: &mut [u8], offset: u64) -> Result<usize>;

    /// Reads until the bytes are filled. Fails if the file ends before.
    fn read_exact_at(&self, bytes: &mut [u8], offset: u64) -> Result<()> {
        let mut at = 0;
        while at < bytes.len() {
            match self.read_at(&mut bytes[at..], offset.wrapping_add(at as u64)) {
                Ok(0) => {
                    let text = "failed to fill whole buffer";
                    return Err(Error::Told(ErrorKind::UnexpectedEof, text));
                }
                Ok(count) => at += count,
                Err(error) if error.kind() == ErrorKind::Interrupted => {}
                Err(error) => return Err(error),
            }
        }
        Ok(())
    }
}

impl FileExt for File {
    fn read_at(&self, bytes: &mut [u8], offset: u64) -> Result<usize> {
        Ok(self.0.read_at(bytes, offset)?)
    }
}

/// Gives a file to this owner and this group, or leaves it theirs.
pub fn fchown(file: &File, owner: Option<u32>, group: Option<u32>) -> Result<()> {
    let (owner, group) = (owner.unwrap_or(u32::MAX), group.unwrap_or(u32::MAX));
    // SAFETY: the file is open.
    check(unsafe { change_owner(file.0.as_raw_fd(), owner, group) }).map(drop)
}

pub fn metadata(_: &HostRuntime, path: &str) -> Result<Metadata> {
    File::of(path, PATH)?.metadata()
}

/// Of a link itself.
pub fn symlink_metadata(_: &HostRuntime, path: &str) -> Result<Metadata> {
    look(path)
}

/// Does what `symlink_metadata` does.
pub(super) fn look(path: &str) -> Result<Metadata> {
    File::of(path, PATH | NO_FOLLOW)?.metadata()
}

/// Returns whether there is such a file.
pub fn exists(rt: &HostRuntime, path: &str) -> Result<bool> {
    match metadata(rt, path) {
        Ok(_) => Ok(true),
        Err(error) if error.kind() == ErrorKind::NotFound => Ok(false),
        Err(error) => Err(error),
    }
}

/// Makes a folder.
pub fn create_dir(_: &HostRuntime, path: &str) -> Result<()> {
    let made = Path::new(path)?;
    signals::make(path, || {
        // SAFETY: the path ends with a zero byte.
        check(unsafe { mkdir(made.as_ptr(), FOLDER_MODE) }).map(drop)
    })
}

/// Makes a folder and those that it lies in, as far as they are not there.
pub fn create_dir_all(rt: &HostRuntime, path: &str) -> Result<()> {
    let error = match create_dir(rt, path) {
        Ok(()) => return Ok(()),
        Err(error) => error,
    };
    if error.kind() == ErrorKind::NotFound {
        match path.trim_end_matches('/').rsplit_once('/') {
            Some((parent, _)) if !parent.is_empty() => create_dir_all(rt, parent)?,
            _ => return Err(error),
        }
        return create_dir(rt, path).or_else(|error| allow_folder(rt, path, error));
    }
    allow_folder(rt, path, error)
}

/// Returns the error, unless there is a folder.
fn allow_folder(rt: &HostRuntime, path: &str, error: Error) -> Result<()> {
    match metadata(rt, path) {
        Ok(metadata) if metadata.is_dir() => Ok(()),
        _ => Err(error),
    }
}

/// Removes a folder that is empty.
pub fn remove_dir(_: &HostRuntime, path: &str) -> Result<()> {
    remove_empty(path)
}

/// Does what `remove_dir` does.
pub(super) fn remove_empty(path: &str) -> Result<()> {
    let path = Path::new(path)?;
    // SAFETY: the path ends with a zero byte.
    check(unsafe { rmdir(path.as_ptr()) }).map(drop)
}

/// Removes a file, or a link.
pub fn remove_file(_: &HostRuntime, path: &str) -> Result<()> {
    let path = Path::new(path)?;
    // SAFETY: the path ends with a zero byte.
    check(unsafe { unlink(path.as_ptr()) }).map(drop)
}

/// Gives a file a further name.
pub fn hard_link(_: &HostRuntime, from: &str, to: &str) -> Result<()> {
    let (from, to) = (Path::new(from)?, Path::new(to)?);
    // SAFETY: both paths end with a zero byte.
    check(unsafe { link(from.as_ptr(), to.as_ptr()) }).map(drop)
}

/// Gives a file or folder another name, which may be that of another one.
pub fn rename(_: &HostRuntime, from: &str, to: &str) -> Result<()> {
    signals::note_renaming(from, to);
    let (old, new) = (Path::new(from)?, Path::new(to)?);
    // SAFETY: both paths end with a zero byte.
    check(unsafe { rename_path(old.as_ptr(), new.as_ptr()) })?;
    signals::note_gone(from);
    Ok(())
}

/// Removes a folder with all that is in it. A link is not followed.
pub fn remove_dir_all(_: &HostRuntime, path: &str) -> Result<()> {
    let outcome = remove_all(path);
    signals::note_gone(path);
    outcome
}

/// Does what `remove_dir_all` does.
pub(super) fn remove_all(path: &str) -> Result<()> {
    empty_folder(File::of(path, READ | NO_FOLLOW)?)?;
    remove_empty(path)
}

/// Removes all that is in a folder.
fn empty_folder(folder: File) -> Result<()> {
    let of = folder.as_raw_fd();
    let mut entries = ReadDir::of(folder);
    while let Some(name) = entries.next_name()? {
        let name = name.as_ptr();
        // SAFETY: the folder is open, and the name ends with a zero byte.
        match check(unsafe { unlinkat(of, name, 0) }) {
            Err(Error::System(IS_A_FOLDER)) => {}
            Err(error) if error.kind() != ErrorKind::NotFound => return Err(error),
            _ => continue,
        }
        let flags = READ | NO_FOLLOW | ALWAYS;
        // SAFETY: as above.
        empty_folder(open_by(|| unsafe { openat(of, name, flags) })?)?;
        // SAFETY: as above.
        check(unsafe { unlinkat(of, name, FOLDER) })?;
    }
    Ok(())
}

/// The entries of a folder.
pub struct ReadDir {
    folder: File,
    entries: Entries,
    /// Where the next entry begins, and where the last one ends.
    at: usize,
    end: usize,
}

/// Entries as the system has them.
#[repr(align(8))]
struct Entries([u8; ENTRIES]);

/// Lists a folder.
pub fn read_dir(_: &HostRuntime, path: &str) -> Result<ReadDir> {
    Ok(ReadDir::of(File::of(path, READ)?))
}

impl ReadDir {
    fn of(folder: File) -> Self {
        ReadDir {
            folder,
            entries: Entries([0; ENTRIES]),
            at: 0,
            end: 0,
        }
    }

    /// Asks for further entries, and returns whether there are any.
    fn ask(&mut self) -> Result<bool> {
        let (folder, room) = (self.folder.as_raw_fd(), &mut self.entries.0);
        // SAFETY: the folder is open, and so many bytes may be written there.
        let count = unsafe { syscall(LIST, folder, room.as_mut_ptr(), room.len()) };
        self.at = 0;
        self.end = usize::try_from(count).map_err(|_| Error::last())?;
        Ok(self.end > 0)
    }

    /// Returns the name of the next entry but for the folder itself and its parent.
    fn next_name(&mut self) -> Result<Option<&CStr>> {
        loop {
            if self.at == self.end && !self.ask()? {
                return Ok(None);
            }
            let start = self.at;
            self.at += entry_len(&self.entries.0[start..]);
            if !matches!(
                name_of(&self.entries.0[start..self.at])?.to_bytes(),
                b"." | b".."
            ) {
                return name_of(&self.entries.0[start..self.at]).map(Some);
            }
        }
    }
}

/// Returns how many bytes an entry takes.
fn entry_len(entries: &[u8]) -> usize {
    u16::from_ne_bytes([entries[ENTRY_LEN], entries[ENTRY_LEN + 1]]).into()
}

/// Returns the name of an entry.
fn name_of(entry: &[u8]) -> Result<&CStr> {
    CStr::from_bytes_until_nul(&entry[ENTRY_NAME..]).map_err(|_| ErrorKind::InvalidData.into())
}

/// Returns the kind of what has a name in a folder.
fn kind_in(folder: RawFd, name: &CStr) -> Result<FileType> {
    let flags = PATH | NO_FOLLOW | ALWAYS;
    // SAFETY: the folder is open, and the name ends with a zero byte.
    let file = open_by(|| unsafe { openat(folder, name.as_ptr(), flags) })?;
    Ok(FileType(file.metadata()?.0.is_file()))
}

/// The kind of an entry of a folder: whether it is a file.
#[derive(Clone, Copy)]
pub struct FileType(bool);

impl FileType {
    pub fn is_file(&self) -> bool {
        self.0
    }
}

/// The most bytes that a name in a folder has.
const LONGEST_NAME: usize = 255;

/// An entry of a folder.
pub struct DirEntry {
    name: [u8; LONGEST_NAME],
    len: usize,
    kind: Result<FileType>,
}

impl DirEntry {
    pub fn file_type(&self) -> Result<FileType> {
        self.kind
    }

    pub fn file_name(&self) -> &str {
        core::str::from_utf8(&self.name[..self.len]).unwrap_or_default()
    }
}

/// An entry whose name is not UTF-8 is an error.
impl Iterator for ReadDir {
    type Item = Result<DirEntry>;

    fn next(&mut self) -> Option<Self::Item> {
        let folder = self.folder.as_raw_fd();
        let entry = match self.next_name() {
            Ok(entry) => entry?,
            Err(error) => return Some(Err(error)),
        };
        let Ok(text) = entry.to_str() else {
            return Some(Err(ErrorKind::InvalidFilename.into()));
        };
        let mut name = [0; LONGEST_NAME];
        let Some(room) = name.get_mut(..text.len()) else {
            return Some(Err(ErrorKind::InvalidFilename.into()));
        };
        room.copy_from_slice(text.as_bytes());
        Some(Ok(DirEntry {
            name,
            len: text.len(),
            kind: kind_in(folder, entry),
        }))
    }
}
