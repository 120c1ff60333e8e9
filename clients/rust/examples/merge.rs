//! Merging plain interners of each thread, as docs/use/rust.md shows it. `cargo run --example merge` runs it in the folder of this
//! crate.

use std::thread;
use string_interner::{DefaultStringInterner, DefaultSymbol, StringInterner, Symbol};

/// What one thread made of a source: its names, and the symbol of each word.
type Part = (DefaultStringInterner, Vec<DefaultSymbol>);

fn read(source: &str) -> Part {
    let mut names = StringInterner::default();
    let symbols = names.intern_all(source.split(' '));
    (names, symbols)
}

fn main() {
    let sources = ["to be or not", "not to be told"];
    let threads = sources.map(|source| thread::spawn(move || read(source)));
    let mut parts = threads.map(|thread| thread.join().unwrap());
    let mut all = StringInterner::default();
    for (names, symbols) in &mut parts {
        let moved = all.intern_all(names.iter().map(|(_, text)| text));
        symbols.iter_mut().for_each(|it| *it = moved[it.to_usize()]);
    }
    let words = parts.iter().flat_map(|(_, symbols)| symbols);
    let words: Vec<&str> = words.map(|symbol| &all[*symbol]).collect();
    assert_eq!(words.join(" "), sources.join(" "));
    println!("{} names in {} words", all.len(), words.len());
}
