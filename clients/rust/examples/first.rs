//! The first program of docs/use/rust.md and of the crate's page: equal texts have equal symbols. `cargo run --example first` runs it
//! in the folder of this crate.

fn main() {
    let mut names = string_interner::StringInterner::default();
    let tiger = names.get_or_intern("Tiger");
    let horse = names.get_or_intern("Horse");
    let again = names.get_or_intern("Tiger");
    assert!(again == tiger && horse != tiger);
    let name = names.resolve(horse).unwrap();
    println!("{} names, and one is {name}", names.len());
}
