//! The folder of plain columns.
//!
//! `codes.npy` is the first file that is taken away and the last that gets its name. So while it is there, the other files are of
//! its run, and who finds it in its place after opening the others has files of one run.

//~ ghost use Rattle.std.specs.Prelude.{◌+◌, ◌*◌, ◌^◌, ◌<◌, ◌≤◌, IfOk};

use crate::rt::prelude::*; use super::excerpt::Excerpt;
use super::exchange::{end_left, exchange, undo_left};
use super::held::HeldRows;
use super::{Plain, find, npy, pair};
use crate::dictcol::command::Onto;
use crate::dictcol::fault::Fault;
use crate::dictcol::get::{Get, RowRange};
use crate::dictcol::hasher::LineHasher;
use crate::dictcol::input::blocks::{TakesLines, count_byte};
use crate::dictcol::unfinished::{NAME, Unfinished, busy, is_same, is_taken, store, store_parent};
use crate::memchr::memchr;
use crate::rt::alloc::Global;
use crate::rt::fs::{File, Metadata};
use crate::rt::io::{ErrorKind, Read, Write};
use crate::rt::os::unix::fs::{FileExt, MetadataExt, OpenOptionsExt, fchown};
use crate::rt::{fs, io};
use crate::erased::backend::Backend;

/// The distinct lines.
const DICTIONARY: &str = "dict.txt";

/// The number of each line.
const NUMBERS: &str = "codes.npy";

/// What the other files have.
const PAIR: &str = "pair.txt";

/// This file is there if the last line has no newline.
const CUT: &str = "no_final_newline";

/// What is behind the name of an old file while a run may put it back.
const KEPT: &str = ".old";

/// The mode of a file until it gets that of another.
const PRIVATE: u32 = 0o600;

/// What is said of files that are not there so far.
const WRITING: &str = "another run is writing";

/// So many of its files are open at once while it is read.
pub const OPEN_AT_ONCE: usize = 3;

/// So many times files are opened that other runs replace meanwhile.
const TURNS: usize = 16;

/// The paths of the files of a folder.
//~ #[derive(Drop)]
pub struct Paths {
    pub dictionary: String,
    pub numbers: String,
    pub pair: String,
    pub cut: String,
}

/// Returns the path of a file in a folder.
fn join(alloc: Global, folder: &str, name: &str) -> Result<String, Fault> {
    crate::rt::format!(in alloc; "{folder}/{name}").map_err(|_| Fault::Memory)
}

/// Returns the path of an old file in a folder.
fn join_kept(alloc: Global, folder: &str, name: &str) -> Result<String, Fault> {
    crate::rt::format!(in alloc; "{folder}/{name}{KEPT}").map_err(|_| Fault::Memory)
}

impl Paths {
    fn new(alloc: Global, folder: &str) -> Result<Paths, Fault> {
        Ok(Paths {
            dictionary: join(alloc, folder, DICTIONARY)?,
            numbers: join(alloc, folder, NUMBERS)?,
            pair: join(alloc, folder, PAIR)?,
            cut: join(alloc, folder, CUT)?,
        })
    }

    /// Returns the paths of old files.
    fn kept(alloc: Global, folder: &str) -> Result<Paths, Fault> {
        Ok(Paths {
            dictionary: join_kept(alloc, folder, DICTIONARY)?,
            numbers: join_kept(alloc, folder, NUMBERS)?,
            pair: join_kept(alloc, folder, PAIR)?,
            cut: join_kept(alloc, folder, CUT)?,
        })
    }
}

/// Returns whether this is the path of a folder.
pub fn is_folder(rt: &HostRuntime, path: &str) -> bool {
    match fs::metadata(rt, path) {
        Ok(metadata) => metadata.is_dir(),
        Err(_) => false,
    }
}

/// Returns whether this is the path of a folder with plain columns.
pub fn has_columns(rt: &HostRuntime, path: &str) -> bool {
    match join(rt.alloc(), path, NUMBERS) {
        Ok(numbers) => fs::metadata(rt, numbers.as_str()).is_ok(),
        Err(_) => false,
    }
}

/// Returns whether a folder that cannot be read for this reason has no plain columns, nor a part of them.
pub fn has_none(rt: &HostRuntime, path: &str, fault: &Fault) -> bool {
    match fault {
        Fault::DictionaryFile(error) => {
            error.kind() == ErrorKind::NotFound && !has_columns(rt, path)
        }
        _ => false,
    }
}

/// Opens a file to read it.
fn open(rt: &HostRuntime, path: &str) -> Result<File, Fault> {
    File::open(rt, path).map_err(Fault::of_read)
}

/// Reads a file.
fn read(alloc: Global, file: &mut File) -> Result<Vec<u8>, Fault> {
    let length = file.metadata().map_err(Fault::of_read)?.len() as usize;
    // While a byte is free at its end, `read_to_end` allocates nothing.
    let mut bytes = Vec::with_capacity(alloc, length.saturating_add(1)).map_err(|_| Fault::Memory)?;
    let _ = file.read_to_end(&mut bytes).map_err(Fault::of_read)?;
    Ok(bytes)
}

/// Reads `pair.txt`, if it is there: earlier versions wrote none.
fn read_pair(rt: &HostRuntime, path: &str) -> Result<Option<Vec<u8>>, Fault> {
    match File::open(rt, path) {
        Ok(mut file) => Ok(Some(read(rt.alloc(), &mut file)?)),
        Err(error) if error.kind() == ErrorKind::NotFound => Ok(None),
        Err(error) => Err(Fault::of_read(error)),
    }
}

/// Checks that a file is still the one with this path.
fn check_place(rt: &HostRuntime, file: &File, path: &str) -> io::Result<()> {
    if is_same(&file.metadata()?, &fs::metadata(rt, path)?) {
        Ok(())
    } else {
        Err(busy())
    }
}

/// The files of one run.
//~ #[derive(Drop)]
struct Files {
    dictionary: File,
    numbers: File,
    pair: Option<Vec<u8>>,
    is_cut: bool,
}

/// Returns whether files are missing, or were replaced while they were opened. A run that exchanges them may be why.
fn is_exchanged(fault: &Fault) -> bool {
    match fault {
        Fault::NumbersFile(error) | Fault::DictionaryFile(error) => {
            error.kind() == ErrorKind::NotFound || error.kind() == ErrorKind::ResourceBusy
        }
        _ => false,
    }
}

/// Waits while a run exchanges files, of which it keeps these numbers, and has locked them.
fn wait(rt: &HostRuntime, kept: &str) {
    if let Ok(numbers) = File::open(rt, kept) {
        // Without locks the files are looked for again at once.
        let _ = numbers.lock_shared();
    }
}

impl Files {
    /// Opens the files of a folder, which another run than the one that has `own` may exchange meanwhile.
    fn open(rt: &HostRuntime, folder: &str, own: Option<&Unfinished>) -> Result<Files, Fault> {
        let alloc = rt.alloc();
        let paths = Paths::new(alloc, folder)?;
        let unfinished = join(alloc, folder, NAME)?;
        let kept = join_kept(alloc, unfinished.as_str(), NUMBERS)?;
        for _ in 1..TURNS {
            match Files::open_once(rt, &paths) {
                Err(fault) if is_exchanged(&fault) => wait(rt, kept.as_str()),
                outcome => return outcome,
            }
        }
        match Files::open_once(rt, &paths) {
            Err(fault) if is_exchanged(&fault) && is_taken(rt, unfinished.as_str(), own) => {
                let error = io::Error::new(ErrorKind::ResourceBusy, WRITING);
                Err(Fault::NumbersFile(error))
            }
            outcome => outcome,
        }
    }

    fn open_once(rt: &HostRuntime, paths: &Paths) -> Result<Files, Fault> {
        let numbers = open(rt, paths.numbers.as_str());
        let dictionary = open(rt, paths.dictionary.as_str()).map_err(Fault::of_dictionary)?;
        let numbers = numbers.map_err(Fault::of_numbers)?;
        let pair = read_pair(rt, paths.pair.as_str()).map_err(Fault::of_pair)?;
        let is_cut = fs::exists(rt, paths.cut.as_str()).map_err(Fault::CutFile)?;
        check_place(rt, &numbers, paths.numbers.as_str()).map_err(Fault::NumbersFile)?;
        Ok(Files {
            dictionary,
            numbers,
            pair,
            is_cut,
        })
    }

    /// Checks that `pair.txt`, if it is there, is of a dictionary of so many lines, of these numbers, and of the end of the text.
    fn check_pair(&self, alloc: Global, lines: usize, numbers: &[u8]) -> Result<(), Fault> {
        let Some(pair) = &self.pair else {
            return Ok(());
        };
        let bytes = numbers.get(npy::HEADER..).unwrap_or(&[]);
        let front = pair::format_bytes(alloc, lines, bytes)?;
        match pair.as_slice().strip_prefix(front.as_bytes()) {
            Some(end) => self.check_end(end),
            None => Err(Fault::NotAPair),
        }
    }

    /// Checks that `pair.txt`, if it is there, is of so many lines and numbers, and of the end of the text. The checksum needs all
    /// numbers, and is passed over.
    fn check_counts(&self, alloc: Global, lines: usize, numbers: usize) -> Result<(), Fault> {
        let Some(pair) = &self.pair else {
            return Ok(());
        };
        let front = pair::format_counts(alloc, lines, numbers)?;
        let Some(rest) = pair.as_slice().strip_prefix(front.as_bytes()) else {
            return Err(Fault::NotAPair);
        };
        match memchr(b'\n', rest) {
            Some(at) => self.check_end(&rest[at + 1..]),
            None => Err(Fault::NotAPair),
        }
    }

    /// Checks that the files are of one run, as far as so many lines and numbers show it, or if that is asked for all numbers.
    fn check(
        &mut self,
        alloc: Global,
        lines: usize,
        count: usize,
        is_whole: bool,
    ) -> Result<(), Fault> {
        if !is_whole {
            return self.check_counts(alloc, lines, count);
        }
        let numbers = read(alloc, &mut self.numbers).map_err(Fault::of_numbers)?;
        let _ = npy::read(alloc, &numbers, lines)?;
        self.check_pair(alloc, lines, &numbers)
    }

    /// Checks what `pair.txt` says behind the checksum. Earlier versions wrote nothing there.
    fn check_end(&self, end: &[u8]) -> Result<(), Fault> {
        if end.is_empty() || end == pair::end_line(self.is_cut).as_bytes() {
            return Ok(());
        }
        Err(if end != pair::end_line(!self.is_cut).as_bytes() {
            Fault::NotAPair
        } else if self.is_cut {
            Fault::OtherCut
        } else {
            Fault::NoCut
        })
    }
}

/// Returns how many numbers a file has, of which only what stands before them is read.
fn count_numbers(alloc: Global, file: &File) -> Result<usize, Fault>
    //~ ensures { IfOk result (λ count. 128 + 4 * count < 2 ^ 64) }
{
    let length = file.metadata().map_err(Fault::of_read)?.len() as usize;
    let mut header = [0; npy::HEADER];
    match file.read_exact_at(&mut header, 0) {
        Ok(()) => npy::count_numbers(alloc, &header, length.saturating_sub(npy::HEADER)),
        Err(error) if error.kind() == ErrorKind::UnexpectedEof => Err(Fault::NotNpy),
        Err(error) => Err(Fault::of_read(error)),
    }
}

/// Reads the numbers of the rows that begin and end at these places.
fn read_codes(alloc: Global, file: &File, start: usize, end: usize) -> Result<Vec<u32>, Fault>
    //~ requires ordered { start ≤ end }
    //~ requires fits { 128 + 4 * end < 2 ^ 64 }
{
    let Ok(mut bytes) = crate::rt::vec![in alloc; 0_u8; 4 * (end - start)] else {
        return Err(Fault::Memory);
    };
    let place = npy::HEADER + 4 * start;
    file.read_exact_at(&mut bytes, place as u64)
        .map_err(Fault::of_read)?;
    npy::list_numbers(alloc, &bytes)
}

/// What stands before the rows of a text.
//~ #[derive(Drop)]
pub struct Before<B: Backend> {
    /// The lines of the dictionary.
    pub plain: Plain<B>,
    /// The file `codes.npy` of the rows that stay, or nothing.
    numbers: Vec<u8>,
}

impl<B: Backend + Drop> Before<B> {
    /// Nothing stands there.
    pub fn none(alloc: Global, hasher: LineHasher) -> Result<Self, Fault> {
        Ok(Before {
            plain: Plain::begin(alloc, hasher, &mut io::empty(), false)?,
            numbers: Vec::new(alloc),
        })
    }

    /// Reads the files of one run, of which no line is missing, as the numbers show. The last of the rows that stay, if they do,
    /// has a newline or not.
    fn of_files(
        alloc: Global,
        hasher: LineHasher,
        mut files: Files,
        is_cut: bool,
    ) -> Result<Self, Fault> {
        let plain = Plain::begin(alloc, hasher, &mut files.dictionary, is_cut)?;
        let numbers = read(alloc, &mut files.numbers).map_err(Fault::of_numbers)?;
        let _ = npy::read(alloc, &numbers, plain.known())?;
        files.check_pair(alloc, plain.known(), &numbers)?;
        Ok(Before { plain, numbers })
    }

    /// Returns the numbers of the rows that stay, four bytes each.
    fn rows(&self) -> &[u8] {
        self.numbers.get(npy::HEADER..).unwrap_or(&[])
    }
}

/// Reads the dictionary that further columns begin with, which are written into this place. Unless it is to be taken alone, its
/// numbers show that no line is missing.
pub fn read_dictionary<B: Backend + Drop>(
    rt: &HostRuntime,
    hasher: LineHasher,
    onto: Onto<'_>,
    place: &Place<'_>,
) -> Result<Before<B>, Fault> {
    let alloc = rt.alloc();
    let plain = if onto.is_dictionary {
        let path = join(alloc, onto.folder, DICTIONARY)?;
        let mut dictionary = open(rt, path.as_str()).map_err(Fault::of_dictionary)?;
        Plain::begin(alloc, hasher, &mut dictionary, false)?
    } else {
        let files = Files::open(rt, onto.folder, Some(&place.unfinished))?;
        Before::of_files(alloc, hasher, files, false)?.plain
    };
    Ok(Before {
        plain,
        numbers: Vec::new(alloc),
    })
}

/// Returns whether a name in a folder is that of a file.
fn has_file(rt: &HostRuntime, folder: &str, name: &str) -> Result<bool, Fault> {
    let path = join(rt.alloc(), folder, name)?;
    match fs::symlink_metadata(rt, path.as_str()) {
        Ok(_) => Ok(true),
        Err(error) if error.kind() == ErrorKind::NotFound => Ok(false),
        Err(error) => Err(Fault::Folder(error)),
    }
}

/// Reads the columns in this place, whose rows stay. If there is neither a dictionary nor numbers, there are none.
pub fn read_rows<B: Backend + Drop>(
    rt: &HostRuntime,
    hasher: LineHasher,
    place: &Place<'_>,
) -> Result<Before<B>, Fault> {
    let (alloc, folder) = (rt.alloc(), place.folder);
    if !has_file(rt, folder, DICTIONARY)? && !has_file(rt, folder, NUMBERS)? {
        return Before::none(alloc, hasher);
    }
    let files = Files::open(rt, folder, Some(&place.unfinished))?;
    let is_cut = files.is_cut;
    Before::of_files(alloc, hasher, files, is_cut)
}

/// Finds the numbers of texts in the dictionary of a folder. Reads the numbers of its lines only if they are checked.
pub fn find_numbers<B: Backend + Drop>(
    rt: &HostRuntime,
    hasher: LineHasher,
    get: &Get<'_>,
    texts: &[&str],
) -> Result<Vec<Option<usize>>, Fault> {
    let alloc = rt.alloc();
    let mut files = Files::open(rt, get.folder, None)?;
    let found = find::find_numbers::<B, _>(alloc, hasher, texts, &mut files.dictionary)?;
    let count = count_numbers(alloc, &files.numbers).map_err(Fault::of_numbers)?;
    files.check(alloc, found.lines, count, get.is_checked)?;
    Ok(found.numbers)
}

/// Writes the lines of some rows of a folder. Reads the numbers of the others only if they are checked.
pub fn write_rows<W: Write>(
    rt: &HostRuntime,
    get: &Get<'_>,
    range: RowRange,
    output: &mut W,
) -> Result<(), Fault> {
    let alloc = rt.alloc();
    let mut files = Files::open(rt, get.folder, None)?;
    let count = count_numbers(alloc, &files.numbers).map_err(Fault::of_numbers)?;
    let (start, end) = range.within(count);
    let codes = read_codes(alloc, &files.numbers, start, end).map_err(Fault::of_numbers)?;
    let excerpt = Excerpt::read(alloc, &mut files.dictionary, start, codes)?;
    files.check(alloc, excerpt.count_lines(), count, get.is_checked)?;
    excerpt.write(files.is_cut && end == count, output)
}

/// Reads the rows that a folder holds.
pub fn read_held(rt: &HostRuntime, folder: &str) -> Result<HeldRows, Fault> {
    let alloc = rt.alloc();
    let mut files = Files::open(rt, folder, None)?;
    let dictionary = read(alloc, &mut files.dictionary).map_err(Fault::of_dictionary)?;
    let numbers = read(alloc, &mut files.numbers).map_err(Fault::of_numbers)?;
    let pair = files.check_pair(alloc, count_byte(b'\n', &dictionary), &numbers);
    // What is damaged in one of the files tells more than that they are not of one run.
    let rows = HeldRows::new(alloc, dictionary, numbers, files.is_cut)?;
    pair?;
    Ok(rows)
}

/// Writes the text of a folder.
pub fn decode<W: Write>(rt: &HostRuntime, folder: &str, output: &mut W) -> Result<(), Fault> {
    read_held(rt, folder)?.write(output)
}

/// Returns what the system says of a file, if there is one.
fn look(rt: &HostRuntime, path: &str) -> Option<Metadata> {
    match fs::metadata(rt, path) {
        Ok(metadata) if metadata.is_file() => Some(metadata),
        _ => None,
    }
}

/// Creates a file, which is not there, for those alone who may open the other one.
fn create_like(rt: &HostRuntime, path: &str, other: &Metadata) -> io::Result<File> {
    let mut how = File::options();
    how.write(true);
    how.create_new(true);
    how.mode(PRIVATE);
    let file = how.open(rt, path)?;
    let is_owned = fchown(&file, Some(other.uid()), Some(other.gid())).is_ok();
    // Not everyone may give a file away. Where it has another group, too, it is for its owner alone.
    if is_owned || fchown(&file, None, Some(other.gid())).is_ok() {
        // Not every file system has modes.
        let _ = file.set_permissions(other.permissions());
    }
    Ok(file)
}

/// Creates a file, which is not there, for the place of an old one. Where that has none, it is like this other one, if there is one.
fn create(
    rt: &HostRuntime,
    path: &str,
    place: &str,
    other: &Option<Metadata>,
) -> Result<File, Fault> {
    let file = match (look(rt, place), other) {
        (Some(old), _) => create_like(rt, path, &old),
        (None, Some(other)) => create_like(rt, path, other),
        (None, None) => File::create_new(rt, path),
    };
    file.map_err(Fault::Folder)
}

/// Writes new files for the places of old ones.
fn write_new<B: Backend + Drop>(
    rt: &HostRuntime,
    new: &Paths,
    old: &Paths,
    before: &Before<B>,
) -> Result<(), Fault> {
    let alloc = rt.alloc();
    let (plain, rows) = (&before.plain, before.rows());
    let other = look(rt, old.numbers.as_str());
    let mut dictionary = create(rt, new.dictionary.as_str(), old.dictionary.as_str(), &other)?;
    let mut numbers = create(rt, new.numbers.as_str(), old.numbers.as_str(), &other)?;
    match plain.write(alloc, rows, &mut dictionary, &mut numbers) {
        Err(Fault::Output(error)) => return Err(Fault::Folder(error)),
        outcome => outcome?,
    }
    let mut pair = create(rt, new.pair.as_str(), old.pair.as_str(), &other)?;
    let text = plain.format_pair(alloc, rows)?;
    pair.write_all(text.as_bytes()).map_err(Fault::Folder)?;
    if plain.is_cut() {
        store(&create(rt, new.cut.as_str(), old.cut.as_str(), &other)?)?;
    }
    store(&pair)?;
    store(&dictionary)?;
    store(&numbers)
}

/// Returns whether a file of this name is written.
fn is_name(name: &str) -> bool {
    let name = name.strip_suffix(KEPT).unwrap_or(name);
    name == DICTIONARY || name == NUMBERS || name == PAIR || name == CUT
}

/// Makes a folder and those that it lies in, as far as they are not there. Adds the paths of those that it made, each behind that
/// which it lies in.
fn make_missing<'a>(rt: &HostRuntime, path: &'a str, made: &mut Vec<&'a str>) -> Result<(), Fault> {
    for end in 1..=path.len() {
        match path.split_at_checked(end) {
            Some((front, rest)) if rest.is_empty() || rest.starts_with('/') => {
                made.reserve(1).map_err(|_| Fault::Memory)?;
                if fs::create_dir(rt, front).is_ok() {
                    made.push_reserved(front);
                }
            }
            _ => {}
        }
    }
    // Says what is wrong if it is not there now.
    fs::create_dir_all(rt, path).map_err(Fault::Folder)
}

/// Removes folders that a run made, each behind that which it lies in. One with files cannot be removed.
fn remove_made(rt: &HostRuntime, made: &[&str]) {
    for folder in made.iter().rev() {
        let _ = fs::remove_dir(rt, *folder);
    }
}

/// A folder that one run alone writes into.
//~ #[derive(Drop)]
pub struct Place<'a> {
    folder: &'a str,
    /// What was made for it, each behind that which it lies in.
    made: Vec<&'a str>,
    unfinished: Unfinished,
}

/// Returns whether the numbers in an unfinished folder are those that the other files in their places are of. So they got these by the
/// run of the numbers.
fn has_numbers(rt: &HostRuntime, folder: &str, unfinished: &str) -> Result<bool, Fault> {
    let alloc = rt.alloc();
    let mut paths = Paths::new(alloc, folder)?;
    paths.numbers = join(alloc, unfinished, NUMBERS)?;
    let Ok(mut files) = Files::open_once(rt, &paths) else {
        return Ok(false);
    };
    let dictionary = read(alloc, &mut files.dictionary).map_err(Fault::of_dictionary)?;
    let numbers = read(alloc, &mut files.numbers).map_err(Fault::of_numbers)?;
    let lines = count_byte(b'\n', &dictionary);
    Ok(files.pair.is_some() && files.check_pair(alloc, lines, &numbers).is_ok())
}

/// Ends what a killed run left half done in a folder: the numbers of its rows are nowhere else. Another run may be at it now, which
/// is told when the folder is taken.
fn recover(rt: &HostRuntime, folder: &str) -> Result<(), Fault> {
    let alloc = rt.alloc();
    let left = join(alloc, folder, NAME)?;
    match fs::symlink_metadata(rt, left.as_str()) {
        Ok(metadata) if metadata.is_dir() && !has_columns(rt, folder) => {}
        _ => return Ok(()),
    }
    let unfinished = File::open(rt, left.as_str()).map_err(Fault::Folder)?;
    if unfinished.try_lock().is_err() {
        return Ok(());
    }
    let old = Paths::new(alloc, folder)?;
    let new = Paths::new(alloc, left.as_str())?;
    if has_numbers(rt, folder, left.as_str())? {
        return end_left(rt, folder, &new, &old).map_err(Fault::Folder);
    }
    let kept = Paths::kept(alloc, left.as_str())?;
    let is_cut = match read_pair(rt, old.pair.as_str()).map_err(Fault::of_pair)? {
        Some(pair) => pair.ends_with(pair::end_line(true).as_bytes()),
        None => false,
    };
    undo_left(rt, folder, &new, &old, &kept, is_cut).map_err(Fault::Folder)
}

/// Makes the unfinished folder of another, which is made if it is not there.
fn make_unfinished<'a>(
    rt: &HostRuntime,
    folder: &'a str,
    keeps_rows: bool,
    made: &mut Vec<&'a str>,
) -> Result<Unfinished, Fault> {
    make_missing(rt, folder, made)?;
    if keeps_rows {
        recover(rt, folder)?;
    }
    Unfinished::make(rt, folder, '/', &is_name)
}

impl<'a> Place<'a> {
    /// Takes a folder, which is made if it is not there, to write columns whose rows come behind those in it or instead of them.
    /// Fails while another run has it.
    pub fn take(rt: &HostRuntime, folder: &'a str, keeps_rows: bool) -> Result<Place<'a>, Fault> {
        let mut made = Vec::new(rt.alloc());
        let unfinished = make_unfinished(rt, folder, keeps_rows, &mut made);
        match unfinished {
            Ok(unfinished) => Ok(Place {
                folder,
                made,
                unfinished,
            }),
            Err(fault) => {
                remove_made(rt, &made);
                Err(fault)
            }
        }
    }

    /// Writes new files, and then puts them into the place of the old ones. A run that fails leaves the files that were there, and
    /// one that is killed those, no `codes.npy`, or all of the new files.
    pub fn write<B: Backend + Drop>(
        &self,
        rt: &HostRuntime,
        before: &Before<B>,
    ) -> Result<(), Fault> {
        let old = Paths::new(rt.alloc(), self.folder)?;
        let new = Paths::new(rt.alloc(), self.unfinished.path())?;
        let kept = Paths::kept(rt.alloc(), self.unfinished.path())?;
        write_new(rt, &new, &old, before)?;
        for folder in &self.made {
            store_parent(rt, *folder).map_err(Fault::Folder)?;
        }
        let is_cut = before.plain.is_cut();
        exchange(rt, self.folder, &new, &old, &kept, is_cut).map_err(Fault::Folder)
    }

    /// Leaves the folder to other runs. What was made for it stays if it was written, or if files are in it.
    pub fn leave(&self, rt: &HostRuntime, is_written: bool) {
        self.unfinished.remove(rt);
        if is_written {
            return;
        }
        remove_made(rt, &self.made);
    }
}
