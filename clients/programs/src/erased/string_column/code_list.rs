//! The codes of rows.

use crate::rt::prelude::*; use crate::erased::number_list::NumberList;

/// A list of codes, each the index of an entry in a dictionary.
///
/// A code takes four bytes until one does not fit 32 bits, and eight from that one on. No code of a [`Column`](crate::Column) takes
/// eight bytes while the column has fewer than 2^32 distinct rows, unless `from_parts` or `from_interner` took a list with capacity
/// for such.
///
/// ```ignore
/// let mut codes = Codes::new(alloc);
/// codes.push(0)?;
/// codes.push(1)?;
/// let colors = <Column>::from_parts(alloc, FoldState::default(), &["red", "green"], codes)?;
/// ```
pub type Codes = NumberList;
