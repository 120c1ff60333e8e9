//! A string interner: it stores each distinct text once, and gives it a small symbol.
//!
//! Two texts are equal exactly if their symbols are. So a program compares, hashes and stores symbols, which are
//! numbers, and resolves a symbol only to show its text. Every function is proved to keep its contract.
//!
//! # Examples
//!
//! Intern texts, and compare them by symbol. The second call returns the symbol of the first:
//!
//! ```ignore
//! let mut interner = <FastStringInterner>::new(alloc);
//! let width = interner.get_or_intern("width")?;
//! let again = interner.get_or_intern("width")?;
//! ```
//!
//! Look a text up without interning it, and resolve a symbol:
//!
//! ```ignore
//! Ok(interner.get("Horse") == Some(horse) && interner.resolve(horse) == Some("Horse"))
//! ```
//!
//! Iterate over the texts in insertion order:
//!
//! ```ignore
//! for (_, text) in interner {
//!     bytes = bytes.saturating_add(text.len());
//! }
//! ```
//!
//! Turn a column of texts into its symbols, here three for two texts:
//!
//! ```ignore
//! let mut codes = Vec::new(alloc);
//! colors.intern_all(["red", "green", "red"].iter().copied(), &mut codes)?;
//! ```
//!
//! Collect texts over another backend, and add more:
//!
//! ```ignore
//! let mut names = StringInterner::<BufferBackend>::from_iter(alloc, elements.iter().copied())?;
//! names.extend(["Fire", "Water", "Air"].iter().copied())?;
//! ```
//!
//! Hash under secret random keys, if strangers choose the texts:
//!
//! ```ignore
//! let hasher = SeededHasher::new(SeededState::new(key0, key1));
//! let mut interner = StringInterner::<DefaultBackend, SeededHasher>::with_hasher(alloc, hasher);
//! ```
//!
//! # What to take
//!
//! [`FastStringInterner`] is the fastest. [`DefaultStringInterner`] hashes by FNV-1a, and its slots hold symbols alone. Any
//! other interner names its parts: `StringInterner<Backend, Hasher, Index>`.
//!
//! | Backend | How texts are stored | Take it if |
//! |---|---|---|
//! | [`StringBackend`](backend::StringBackend), the default | joined in one string, with the end of each | in most cases |
//! | [`BucketBackend`](backend::BucketBackend) | in blocks that never move; static texts as references | texts are long or static |
//! | [`BufferBackend`](backend::BufferBackend) | in one buffer, each behind its length | memory counts most |
//!
//! | Module | What it has |
//! |---|---|
//! | [`symbol`] | which numbers symbols may have |
//! | [`dedup`] | indexes, which find the symbol of a text, and hashers |
//! | [`json`] | writing an interner to JSON, and reading it back with the same symbols |
//! | [`scope`] | names in nested scopes |
//! | [`run`] | a list of commands, with one reply for each |
//!
//! # Errors
//!
//! An interner takes the allocator when it is made, and `to_json`, `symbol_to_json` and `run` take it with the call. A call
//! that can fail to allocate returns a `Result`. A failed call changes no text and no symbol, but `extend`, `intern_all` and
//! `intern_slice` keep the texts before the one that failed.
//~ #![tactic(auto)]

use crate::rt::prelude::*; pub mod backend;
pub mod dedup;
pub mod equal_texts;
pub mod hash;
pub mod interner;
#[cfg(feature = "parts")] pub mod json;
// Public, because the codes of columns are such a list, and hidden, because no call of an interner takes one.
#[doc(hidden)]
pub mod number_list;
#[cfg(feature = "parts")] pub mod run;
#[cfg(feature = "parts")] pub mod scope;
pub mod symbol;

pub use backend::DefaultBackend;
use backend::Store;
pub use dedup::DefaultIndex;
use dedup::TaggedIndex;
pub use hash::DefaultHashBuilder;
use hash::FoldState;
pub use interner::{BLOCK_LEN, FEWEST_FOR_BLOCKS, Stopped, StringInterner};
pub use symbol::{DefaultSymbol, Symbol};

/// An interner over the default backend, under the default hasher.
pub type DefaultStringInterner<B = DefaultBackend, H = DefaultHashBuilder> = StringInterner<B, H>;

/// An interner for speed: its index compares tags before it compares texts, and its hasher reads 16 bytes at a time.
///
/// Its hash codes are the same in each run, and it is easy to choose texts that have one code. If strangers choose the
/// texts, take `StringInterner<B, SeededHasher, TaggedIndex<S>>` under random keys, where `S` is the symbol type.
pub type FastStringInterner<B = DefaultBackend> = StringInterner<
    B,
    FoldState,
    TaggedIndex<<B as Store>::Symbol>,
>;
