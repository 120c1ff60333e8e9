//! Programs that must not compile: those that read a text after it may have changed, and those that use what is private.
//!
//! A text does not outlive its interner, and nothing reads it after a change:
//!
//! ```compile_fail,E0597
//! use string_interner::DefaultStringInterner;
//! let text;
//! {
//!     let names: DefaultStringInterner = ["Tiger"].into_iter().collect();
//!     text = names.resolve(names.get("Tiger").unwrap());
//! }
//! println!("{text:?}");
//! ```
//!
//! ```compile_fail,E0505
//! use string_interner::DefaultStringInterner;
//! let names: DefaultStringInterner = ["Tiger"].into_iter().collect();
//! let text = names.resolve(names.get("Tiger").unwrap());
//! drop(names);
//! println!("{text:?}");
//! ```
//!
//! ```compile_fail,E0502
//! use string_interner::DefaultStringInterner;
//! let mut names: DefaultStringInterner = ["Tiger"].into_iter().collect();
//! let text = names.resolve(names.get("Tiger").unwrap());
//! names.truncate(0);
//! println!("{text:?}");
//! ```
//!
//! ```compile_fail,E0597
//! use string_interner::DefaultStringInterner;
//! fn keep<'a>(names: &'a DefaultStringInterner, texts: &mut Vec<&'a str>) {
//!     texts.extend(names.iter().map(|(_, text)| text));
//! }
//! let mut texts = Vec::new();
//! {
//!     let names: DefaultStringInterner = ["Tiger"].into_iter().collect();
//!     keep(&names, &mut texts);
//! }
//! println!("{texts:?}");
//! ```
//!
//! ```compile_fail
//! use string_interner::DefaultStringInterner;
//! fn first(names: &DefaultStringInterner) -> &'static str {
//!     names.iter().next().unwrap().1
//! }
//! ```
//!
//! An iterator does not outlive its interner either, and an interner does not intern a text that it lent:
//!
//! ```compile_fail,E0597
//! use string_interner::DefaultStringInterner;
//! let mut walk;
//! {
//!     let names: DefaultStringInterner = ["Tiger"].into_iter().collect();
//!     walk = names.iter();
//! }
//! walk.next();
//! ```
//!
//! ```compile_fail,E0502
//! use string_interner::DefaultStringInterner;
//! let mut names: DefaultStringInterner = ["Tiger"].into_iter().collect();
//! let walk = names.iter();
//! names.shrink_to_fit();
//! walk.count();
//! ```
//!
//! ```compile_fail,E0502
//! use string_interner::DefaultStringInterner;
//! let mut names: DefaultStringInterner = ["Tiger"].into_iter().collect();
//! let text = names.resolve(names.get("Tiger").unwrap()).unwrap();
//! names.get_or_intern(text);
//! ```
//!
//! A text that is interned as static must be `'static`:
//!
//! ```compile_fail,E0597
//! use string_interner::DefaultStringInterner;
//! let mut names = <DefaultStringInterner>::new();
//! let text = String::from("Tiger");
//! names.get_or_intern_static(&text);
//! ```
//!
//! No thread reads an interner while another one changes it:
//!
//! ```compile_fail,E0502
//! use string_interner::DefaultStringInterner;
//! let mut names = <DefaultStringInterner>::new();
//! std::thread::scope(|scope| {
//!     scope.spawn(|| names.len());
//!     scope.spawn(|| names.get_or_intern("Tiger"));
//! });
//! ```
//!
//! The proved code, what it stands on and the state of an interner are private:
//!
//! ```compile_fail,E0603
//! use string_interner::erased::backend::BufferBackend;
//! ```
//!
//! ```compile_fail,E0603
//! use string_interner::rt::vec::Vec;
//! ```
//!
//! ```compile_fail,E0451
//! use string_interner::DefaultStringInterner;
//! fn rebuild(names: DefaultStringInterner) -> DefaultStringInterner {
//!     DefaultStringInterner { ..names }
//! }
//! ```
//!
//! No symbol type of a program's own says that it keeps its numbers, or how many there are, because nothing can name the type of
//! the argument:
//!
//! ```compile_fail,E0603
//! use string_interner::sealed::Sealed;
//! ```
//!
//! ```compile_fail,E0049
//! use string_interner::Symbol;
//! #[derive(Clone, Copy, PartialEq, Eq)]
//! struct Number(usize);
//! impl Symbol for Number {
//!     fn try_from_usize(index: usize) -> Option<Self> {
//!         Some(Number(index))
//!     }
//!     fn to_usize(self) -> usize {
//!         self.0
//!     }
//!     fn __keeps_its_number(_: impl Sized) -> bool {
//!         true
//!     }
//! }
//! ```
//!
//! ```compile_fail,E0049
//! use string_interner::Symbol;
//! #[derive(Clone, Copy, PartialEq, Eq)]
//! struct Number(usize);
//! impl Symbol for Number {
//!     fn try_from_usize(index: usize) -> Option<Self> {
//!         Some(Number(index))
//!     }
//!     fn to_usize(self) -> usize {
//!         self.0
//!     }
//!     fn __count(_: impl Sized) -> usize {
//!         1
//!     }
//! }
//! ```
//!
//! Keywords are distinct, each has a symbol, and they are of the interner's symbol type:
//!
//! ```compile_fail,E0080
//! string_interner::keywords! { FIRST = "a", SECOND = "b", THIRD = "a" }
//! fn main() {}
//! ```
//!
//! ```compile_fail,E0080
//! #[derive(Clone, Copy, PartialEq, Eq)]
//! pub struct Only;
//! impl Only {
//!     const fn from_number(number: usize) -> Option<Only> {
//!         if number == 0 { Some(Only) } else { None }
//!     }
//! }
//! string_interner::keywords! { Only; FIRST = "a", SECOND = "b" }
//! fn main() {}
//! ```
//!
//! ```compile_fail,E0308
//! use string_interner::{symbol::SymbolU16, DefaultStringInterner};
//! mod kw {
//!     string_interner::keywords! { super::SymbolU16; IF = "if" }
//! }
//! fn main() {
//!     DefaultStringInterner::default().intern_keywords(kw::KEYWORDS);
//! }
//! ```

/// What the library for C and the programs are built on is there by its feature alone:
///
/// ```compile_fail,E0432
/// use string_interner::__parts::erased;
/// ```
#[cfg(not(feature = "parts"))]
mod parts {}
