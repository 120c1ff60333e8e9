#![doc = include_str!("../README.md")]
//!
//! # Backends and symbols
//!
//! Three backends differ in how they store texts ([`backend`]), and any type may serve as the symbol ([`Symbol`]):
//!
//! ```
//! use string_interner::{backend::BufferBackend, symbol::SymbolU16, StringInterner};
//!
//! let mut names = StringInterner::<BufferBackend<SymbolU16>>::new();
//! let earth = names.get_or_intern("Earth");
//! let water = names.get_or_intern("Water");
//! assert!(names.iter().eq([(earth, "Earth"), (water, "Water")]));
//! ```
//!
//! # What differs from string-interner 0.19
//!
//! Programs written for string-interner compile with this crate, on targets whose `usize` has 32 or 64 bits, with atomic ones. What behaves differently:
//!
//! - If interning panics because no symbol is left, the text is not stored, and the panic says so.
//!   [`try_get_or_intern`](StringInterner::try_get_or_intern) returns an error instead.
//! - `Symbol::try_from_usize` returns `None` if the type has no symbol of the number. The original's wraps: number 65,539 becomes
//!   the [`SymbolU16`](symbol::SymbolU16) 3.
//! - Interning a new text asks `Symbol::try_from_usize` twice, and the original's once.
//! - With serde the original reads each symbol as the next one, see below.
//! - If memory is refused, the backends of this crate panic, and stay as they were. The original aborts the process; here only what
//!   makes a `String`, and `Debug`, do.
//! - `extend` of a new interner over a backend of this crate makes room at once for as many texts as the iterator says, up to 4,096,
//!   and the original's for none.
//! - `shrink_to_fit` moves the texts to a smaller block, for which there must be memory beside them.
//! - `resolve`, and looking up a text, of a [`BufferBackend`](backend::BufferBackend) whose symbol type is the program's own checks
//!   that the bytes are UTF-8: a look-up takes two to three times as long as by a symbol type of this crate.
//! - The [`DefaultHashBuilder`] is a type of this crate. That of the original is hashbrown's.
//! - A text's hash has both halves of what the hasher returns, so that a hasher whose lower bits are poor is not slow.
//! - The `Debug` of an interner shows symbols by number, and that of a backend its texts.
//! - If a symbol's own `Clone`, `PartialEq` or `to_usize` does not tell what is so, answers are wrong or a call panics, and nothing
//!   else.
//!
//! New are the modules [`hasher`] and [`sync`], the types [`InternError`] and [`JsonError`], [`keywords!`](keywords), that iterators
//! have a known length and can be cloned, `names[symbol]` for the text of a symbol, `from_number` of each symbol type, and of
//! [`StringInterner`] the calls [`hasher`](StringInterner::hasher), [`intern_keywords`](StringInterner::intern_keywords),
//! [`try_get_or_intern`](StringInterner::try_get_or_intern),
//! [`try_get_or_intern_static`](StringInterner::try_get_or_intern_static),
//! [`get_or_intern_part`](StringInterner::get_or_intern_part), [`intern_all`](StringInterner::intern_all),
//! [`contains`](StringInterner::contains), [`truncate`](StringInterner::truncate), [`to_json`](StringInterner::to_json) and
//! [`from_json`](StringInterner::from_json).
//!
//! # If you come from lasso
//!
//! | In lasso | Here |
//! |---|---|
//! | `Rodeo` | [`StringInterner`] |
//! | `ThreadedRodeo` | [`sync::Interner`], whose `get_or_intern` takes `&self`, too |
//! | `RodeoReader`, `RodeoResolver` | no types of their own: share a `&StringInterner`, which threads read at the same time without a lock, or a `&StringBackend` |
//! | `into_reader`, `into_resolver` of a `ThreadedRodeo` | [`into_interner`], [`into_backend`] |
//! | `Spur`, `MiniSpur`, `LargeSpur` | [`SymbolU32`](symbol::SymbolU32), [`SymbolU16`](symbol::SymbolU16), [`SymbolUsize`](symbol::SymbolUsize); there is none of one byte |
//! | the trait `Key` | [`Symbol`], which is safe to implement |
//! | `rodeo[key]`, and `resolve(&key)`, which panics if the key is of another | `names[symbol]`, and [`resolve(symbol)`](StringInterner::resolve), which returns an `Option` |
//! | `try_get_or_intern` | the [same](StringInterner::try_get_or_intern); a memory limit has only a [`sync::Interner`] |
//! | `contains`, `contains_key` | [`contains`](StringInterner::contains), and `resolve(symbol).is_some()` |
//!
//! ```
//! use string_interner::{backend::StringBackend, symbol::SymbolU16, StringInterner};
//!
//! // A `Rodeo<MiniSpur>` by the names of this crate.
//! let mut rodeo = StringInterner::<StringBackend<SymbolU16>>::new();
//! let hello = rodeo.get_or_intern("Hello");
//! assert!(rodeo.contains("Hello") && rodeo.resolve(hello) == Some("Hello"));
//!
//! // What a `RodeoReader` is for: threads that only read.
//! let [one, other] = std::thread::scope(|scope| {
//!     let read = || rodeo.get("Hello");
//!     [scope.spawn(read), scope.spawn(read)].map(|thread| thread.join().unwrap())
//! });
//! assert!(one == Some(hello) && other == one);
//! ```
//!
//! # Features
//!
//! | Feature | What it adds |
//! |---|---|
//! | `std`, by default | random keys for [`DefaultHashBuilder`], and the module [`sync`]. Without it the crate needs `alloc` alone |
//! | `inline-more`, `backends`, by default | nothing: short calls may always be inlined, and the backends are always there |
//! | `serde` | serde's traits for an interner and the three symbol types, in the forms of the original |
//! | `parts` | nothing for users: it opens to the library for C and the programs of the repository what may change at any time |
//!
//! An interner is a sequence of its texts. A symbol is its number plus one, because that is how it is stored, and is read as such:
//! what either crate wrote is read as it was meant. The original reads a symbol as the number that is written, so each symbol that
//! it wrote comes back as the next one.
//!
//! # What is proved, and what is trusted
//!
//! The module `erased` is the library of the repository, whose every function is proved to keep its contract. A tool, `tools/erase`,
//! made it of the proved source: it made comments of the contracts, and left the code as it was, token by token but for a few that
//! its page names.
//!
//! A [`StringInterner`] has one field, which is the proved interner. Each call that finds, interns, resolves, counts, truncates or
//! copies is a call of that, or a loop of such calls. By hand are the panics in the place of errors, iterators, `==`, `Debug`, JSON,
//! serde, keywords, how a [`StringBackend`](backend::StringBackend) finds a text, what makes room for many texts and lets them wait for
//! each other, and what truncates a backend of your own. A [`sync::Interner`] is by hand, too: it interns by the proved index.
//!
//! What the proof says of these calls holds for your own backend, symbol and hasher, too, if they keep their laws:
//!
//! - A backend is made without texts. It returns the text that it was given for each symbol that it returned for one, a symbol with a
//!   greater number each time, and yields them in this order; so does its clone. An error changes nothing.
//! - A symbol's number is the one that it was made of.
//! - A hasher gives a text the same hash each time, and its clone gives that hash, too.
//!
//! Only of a full backend of your own the index may have grown before an interner returns `NoSymbol`.
//!
//! The proof is for a `usize` of 64 bits. That it holds for 32 is argued, operation by operation, and tested, on big-endian machines,
//! too. There `SymbolUsize` has the numbers below 2³² − 1, and a [`BucketBackend`](backend::BucketBackend) takes no more copies once
//! a bucket of 1 GiB is full.
//!
//! Memory is safe whatever they do. The backends of this crate are such types: by hand, over the proved ones, of whose numbers they make
//! symbols.
//!
//! You trust the tool, the stand-ins for the prover's standard library and JSON in the module `rt`, what is by hand, and rustc. All of
//! these are tested, and not proved.
//!
//! # Why it is safe
//!
//! A symbol, a hasher, a backend, a text or an iterator of a program's own may return anything, panic or call back. Beside the proved
//! source, four files have unsafe code, and each `unsafe` there says what it rests on:
//!
//! | Where | Rests on |
//! |---|---|
//! | `backend.rs`: symbols of the index are resolved unchecked | an index has only symbols that its backend returned for a text, copied by their bits |
//! | `unchecked.rs`: slots are read without checks of bounds | what it says of the tagged table, whatever a program's own types do |
//! | `unchecked.rs`: texts are cut unchecked out of a joined one, and out of buckets | ends and entries are those of whole texts; a text's number is checked before |
//! | `unchecked.rs`: a short text is appended by words | there is room, which is tested before |
//! | `unchecked.rs`: bytes are taken for a text | they are ASCII, which is tested before |
//! | `unchecked.rs`: vectors | the target has them |
//! | `rt/words.rs`: a block of words is read and freed | it has so many words and a count of the lists that have it, of which the last one frees it |
//! | `sync/memory.rs`: texts are lent without a lock | blocks of bytes do not move, and no text is dropped |
//! | `sync/memory.rs`: what threads read while it grows | it is published by a release, and freed by `&mut` alone |
//! | `erased`, of a buffer and of buckets: bytes are a text | they are those of a text that was interned: what a number of a program's own symbol type leads to is checked instead |
//! | `erased`, of static texts: their bytes are read at their address | the address is made of a `&'static str`, in one place |
//!
// Without `std` there is no module `sync`, and links to it lead to where that is said.
#![cfg_attr(
    feature = "std",
    doc = "[`into_backend`]: sync::Interner::into_backend"
)]
#![cfg_attr(
    feature = "std",
    doc = "[`into_interner`]: sync::Interner::into_interner"
)]
#![cfg_attr(not(feature = "std"), doc = "[`into_backend`]: #features")]
#![cfg_attr(not(feature = "std"), doc = "[`into_interner`]: #features")]
#![cfg_attr(not(feature = "std"), doc = "[`sync`]: #features")]
#![cfg_attr(not(feature = "std"), doc = "[`sync::Interner`]: #features")]
#![no_std]
#![deny(unsafe_code)]
#![warn(
    missing_docs,
    unsafe_op_in_unsafe_fn,
    clippy::undocumented_unsafe_blocks
)]

#[cfg(not(any(target_pointer_width = "32", target_pointer_width = "64")))]
compile_error!("string-interner needs a target whose `usize` has 32 or 64 bits");

extern crate alloc;
#[cfg(any(feature = "std", test))]
extern crate std;

pub mod backend;
mod error;
pub mod hasher;
mod interner;
mod json;
mod keywords;
// The linter and the compiler warn of what the source's language asks for.
#[allow(clippy::all, clippy::undocumented_unsafe_blocks, dead_code, missing_docs, rustdoc::all, unsafe_code, unstable_name_collisions, unused)]
#[rustfmt::skip]
mod erased;
#[cfg(doctest)]
mod compile_fail;
// The stand-ins have the names of what they stand for.
#[allow(
    clippy::len_without_is_empty,
    clippy::new_without_default,
    clippy::should_implement_trait,
    dead_code,
    missing_docs
)]
mod rt;
#[cfg(feature = "serde")]
mod serde;
pub mod symbol;
#[cfg(feature = "std")]
pub mod sync;
#[allow(missing_docs)]
mod unchecked;

pub use backend::DefaultBackend;
pub use error::InternError;
pub use hasher::DefaultHashBuilder;
pub use interner::StringInterner;
pub use json::JsonError;
pub use symbol::{DefaultSymbol, Symbol};

/// An interner over the backend for most cases.
pub type DefaultStringInterner<B = DefaultBackend, H = DefaultHashBuilder> = StringInterner<B, H>;

/// What the library for C and the programs of the repository are built on. It is not for users: it may change at any time, and some
/// of its functions ask what only a proof can promise.
#[cfg(feature = "parts")]
#[doc(hidden)]
pub mod __parts {
    pub mod erased {
        pub use crate::erased::*;
    }
    pub mod rt {
        pub use crate::rt::*;
    }
    pub mod unchecked {
        pub use crate::unchecked::*;
    }
}

/// A value that only this crate has, so that only it can call the methods of its traits that take one.
mod sealed {
    pub struct Sealed(pub(crate) ());
}
