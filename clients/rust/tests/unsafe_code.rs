//! Which files of the crate have unsafe code. Those of `proved` have what the proved source has, and what `tools/erase` writes.

use std::fs;
use std::path::Path;

const SOURCES: &str = concat!(env!("CARGO_MANIFEST_DIR"), "/src");

/// Reports whether a source has the keyword, outside of comments.
fn is_unsafe(source: &str) -> bool {
    let code = source.lines().filter_map(|line| line.split("//").next());
    let is_part = |character: char| character.is_alphanumeric() || character == '_';
    code.flat_map(|line| line.split(|character| !is_part(character)))
        .any(|word| word == "unsafe")
}

/// Adds the files below a folder that have unsafe code to a list.
fn add_unsafe(folder: &Path, found: &mut Vec<String>) {
    for entry in fs::read_dir(folder).unwrap() {
        let path = entry.unwrap().path();
        let name = path.strip_prefix(SOURCES).unwrap().to_str().unwrap();
        if path.is_dir() {
            if name != "erased" {
                add_unsafe(&path, found);
            }
        } else if is_unsafe(&fs::read_to_string(&path).unwrap()) {
            found.push(name.to_owned());
        }
    }
}

#[test]
fn four_files_have_unsafe_code() {
    let mut found = Vec::new();
    add_unsafe(Path::new(SOURCES), &mut found);
    found.sort();
    let known = [
        "backend.rs",
        "rt/words.rs",
        "sync/memory.rs",
        "unchecked.rs",
    ];
    assert_eq!(found, known);
}

#[test]
fn the_keyword_is_found() {
    for source in ["unsafe fn f() {}", "let x = 1;\n    f(unsafe { g() }) // g"] {
        assert!(is_unsafe(source));
    }
    for source in [
        "// unsafe",
        "f(); // an unsafe call",
        "#![deny(unsafe_code)]",
    ] {
        assert!(!is_unsafe(source));
    }
}
