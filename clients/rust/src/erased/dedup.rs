//! Indexes, which find the symbol of a text, and the hashers that they use.
//!
//! An interner looks texts up by the trait [`TextIndex`]. Take one of the two indexes here, or write your own: every
//! contract of an interner holds for each that keeps the laws of the trait. Both are a hash table, with slots stored in one of
//! two ways. Called by itself, their `find` also bounds how many texts it reads.
//!
//! | Index | A slot holds | Load factor at most |
//! |---|---|---|
//! | [`Index`], the default | a symbol | three quarters |
//! | [`TaggedIndex`], the fast one | a symbol, a tag, 32 bits of a code | seven eighths |
//!
//! [`TextHasher`] says which hasher to take, and which for texts from strangers.

use crate::rt::prelude::*; pub mod count;
pub mod index;
pub mod layout;
pub mod probe;
pub mod shown;
pub mod slots;
pub mod table;
pub mod tagged;
pub mod text_index;
pub mod words;

pub use crate::erased::hash::{
    CopyHasher, DefaultHashBuilder, FixedState, FoldState, SeededHasher, SeededState, StdHasher,
    TextHasher,
};
pub use index::{DefaultIndex, Index, TaggedIndex};
pub use slots::Looks;
pub use text_index::{CopyIndex, Entry, TextIndex};
