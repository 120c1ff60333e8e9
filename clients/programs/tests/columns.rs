//! Columns of more entries and rows than any other test has: no call fails for want of memory from some size on.

use programs::rt::alloc::Global;
use programs::string_column::{Codes, Column, PartsError};

const ENTRIES: usize = (1 << 20) + 5;
const ROWS: usize = (1 << 24) + 5;

#[test]
fn a_repeated_entry_is_told_behind_many() {
    let texts: Vec<String> = (0..ENTRIES).map(|number| format!("{number:x}")).collect();
    let mut entries: Vec<&str> = texts.iter().map(String::as_str).collect();
    let all = <Column>::from_parts(Global, Default::default(), &entries, Codes::new(Global));
    assert!(all.is_ok_and(|column| column.is_empty()));
    entries.push("1");
    let repeated = <Column>::from_parts(Global, Default::default(), &entries, Codes::new(Global));
    assert_eq!(
        repeated.err(),
        Some(PartsError::Repeated { index: ENTRIES })
    );
}

#[test]
fn many_rows_are_appended() {
    let mut codes = Codes::new(Global);
    for row in 0..ROWS {
        codes.push(row % 2).unwrap();
    }
    let given = <Column>::from_parts(Global, Default::default(), &["red", "green"], codes).unwrap();
    let mut all = <Column>::new(Global);
    assert!(all.append_range(&given, 1, ROWS).is_ok());
    assert_eq!((all.len(), all.distinct()), (ROWS - 1, 2));
    assert_eq!(
        (all.row(0), all.row(ROWS - 2)),
        (Some("green"), Some("red"))
    );
}
