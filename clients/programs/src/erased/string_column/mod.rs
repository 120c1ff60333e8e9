//! Columns: lists of texts that store equal texts once.
//!
//! A [`Column`] has a dictionary of its distinct rows, in the order of first appearance. For each row it has a code:
//! the index of the row's text in the dictionary. Everything that a column returns follows from its rows.
//!
//! ```ignore
//! let mut colors = <Column>::new(alloc);
//! colors.encode(["red", "green", "red"].iter().copied())?;
//! let codes = colors.codes().as_slices(); // ([0, 1, 0], [])
//! let counts = colors.counts(alloc)?; // 2, 1
//! ```
//!
//! A code is not a symbol, because a backend may number otherwise: over `BufferBackend` the number of a symbol is the
//! offset of its text. Then the symbol of each entry is stored next to the interner, so a row is resolved without a search.
//! Encoding a known text needs the index of its symbol. If the number of that symbol is another, a binary search finds
//! the index, because the numbers of the entries ascend.
//!
//! A [`Dictionary`] alone gives texts their indexes, for a list of your own that has something for each distinct text.
//!
//! The symbol type alone limits how many distinct rows a column has.
//~ #![tactic(auto)]

use crate::rt::prelude::*; pub mod code_list;
pub mod dictionary;
pub mod rows;
pub mod symbols;

pub use code_list::Codes;
pub use dictionary::{BLOCK_LEN, Dictionary, FEWEST_FOR_BLOCKS};
pub use rows::{Column, Iter, PartsError};
