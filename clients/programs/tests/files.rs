//! Folders, against Rust's own.

use programs::rt::fs::{create_dir_all, read_dir, remove_dir_all};
use programs::rt::host::{start, HostRuntime};
use programs::rt::io::{Error, ErrorKind};
use programs::rt::process::ExitCode;
use std::collections::BTreeMap;
use std::ffi::OsStr;
use std::fs;
use std::os::unix::ffi::OsStrExt as _;
use std::os::unix::fs::symlink;
use std::path::{Path, PathBuf};

/// Runs a test with what a process has from its system.
fn with_system(test: fn(HostRuntime) -> ExitCode) {
    // SAFETY: there are no words.
    unsafe { start(0, std::ptr::null(), test) };
}

/// Makes an empty folder.
fn new_folder(name: &str) -> PathBuf {
    let path = Path::new(env!("CARGO_TARGET_TMPDIR")).join(name);
    let _ = fs::remove_dir_all(&path);
    fs::create_dir_all(&path).unwrap();
    path
}

/// Returns the paths of all that is below a folder, with whether each is a folder.
fn all_below(folder: &Path) -> BTreeMap<PathBuf, bool> {
    let mut found = BTreeMap::new();
    for entry in fs::read_dir(folder).unwrap() {
        let path = entry.unwrap().path();
        let is_folder = fs::symlink_metadata(&path).unwrap().is_dir();
        if is_folder {
            found.extend(all_below(&path));
        }
        found.insert(path, is_folder);
    }
    found
}

/// Returns the same paths as they are below another folder.
fn moved(paths: BTreeMap<PathBuf, bool>, from: &Path, to: &Path) -> BTreeMap<PathBuf, bool> {
    let path = |path: PathBuf| to.join(path.strip_prefix(from).unwrap());
    paths
        .into_iter()
        .map(|(it, is_folder)| (path(it), is_folder))
        .collect()
}

/// Puts a file, a folder, and links to both and to nothing into a folder.
fn fill(folder: &Path) {
    fs::write(folder.join("file"), "text").unwrap();
    fs::create_dir(folder.join("folder")).unwrap();
    for target in ["file", "folder", "nothing"] {
        symlink(target, folder.join(format!("to {target}"))).unwrap();
    }
}

#[test]
fn folders_are_made_as_rust_makes_them() {
    with_system(|rt| {
        for path in [
            "new",
            "new/",
            "one/two/three",
            "one//two/",
            "new/../two",
            "folder",
            "folder/one/two",
            "to folder",
            "to folder/one/two",
            "file",
            "file/one",
            "file/one/two",
            "to file",
            "to nothing",
            "to nothing/one",
        ] {
            let (ours, theirs) = (new_folder("made"), new_folder("made by Rust"));
            fill(&ours);
            fill(&theirs);
            let number = match create_dir_all(&rt, &format!("{}/{path}", ours.display())) {
                Ok(()) => None,
                Err(Error::System(number)) => Some(number),
                Err(error) => panic!("{path}: {error:?}"),
            };
            let wanted =
                fs::create_dir_all(theirs.join(path)).map_err(|error| error.raw_os_error());
            assert_eq!(number, wanted.err().flatten(), "{path}");
            let wanted = moved(all_below(&theirs), &theirs, &ours);
            assert_eq!(all_below(&ours), wanted, "{path}");
        }
        ExitCode::SUCCESS
    });
}

/// More entries than the system tells at once, and folders in folders. What links lead to stays.
#[test]
fn a_folder_is_removed_with_all_that_is_in_it() {
    with_system(|rt| {
        let top = new_folder("removed");
        let kept = new_folder("removed/kept");
        fill(&kept);
        let removed = new_folder("removed/it");
        fill(&removed);
        symlink(&kept, removed.join("a link")).unwrap();
        symlink(kept.join("file"), removed.join("a link to a file")).unwrap();
        for number in 0..300 {
            fs::write(removed.join(format!("a file of number {number}")), "").unwrap();
            let inner = removed.join(format!("folder/{number}/of many/folders"));
            fs::create_dir_all(&inner).unwrap();
            fs::write(inner.join("file"), "").unwrap();
        }
        let before = all_below(&kept);
        remove_dir_all(&rt, removed.to_str().unwrap()).unwrap();
        assert!(!removed.exists() && all_below(&kept) == before);
        let link = top.join("a link");
        symlink(&kept, &link).unwrap();
        assert!(remove_dir_all(&rt, link.to_str().unwrap()).is_err());
        assert!(all_below(&kept) == before);
        ExitCode::SUCCESS
    });
}

/// Also of the longest names.
#[test]
fn a_folder_is_listed_with_the_kind_of_each_entry() {
    with_system(|rt| {
        let folder = new_folder("listed");
        fill(&folder);
        for number in 0..100 {
            fs::write(folder.join(format!("{number:0255}")), "").unwrap();
            fs::create_dir(folder.join(format!("folder {number}"))).unwrap();
        }
        let path = folder.to_str().unwrap();
        let mut found: Vec<_> = read_dir(&rt, path)
            .unwrap()
            .map(|entry| entry.unwrap())
            .map(|entry| {
                (
                    entry.file_name().to_string(),
                    entry.file_type().unwrap().is_file(),
                )
            })
            .collect();
        let mut wanted: Vec<_> = fs::read_dir(&folder)
            .unwrap()
            .map(|entry| entry.unwrap())
            .map(|entry| {
                (
                    entry.file_name().into_string().unwrap(),
                    entry.file_type().unwrap().is_file(),
                )
            })
            .collect();
        found.sort();
        wanted.sort();
        assert_eq!(found, wanted);
        fs::write(folder.join(OsStr::from_bytes(b"\xff")), "").unwrap();
        let bad: Vec<_> = read_dir(&rt, path)
            .unwrap()
            .filter_map(Result::err)
            .collect();
        assert_eq!(
            bad.iter().map(Error::kind).collect::<Vec<_>>(),
            [ErrorKind::InvalidFilename]
        );
        ExitCode::SUCCESS
    });
}
