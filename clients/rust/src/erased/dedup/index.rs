//! The indexes by name: each is a table over one layout of its slots.

use crate::rt::prelude::*; use crate::erased::dedup::slots::Slots;
use crate::erased::dedup::table::Table;
use crate::erased::dedup::tagged::TaggedSlots;
use crate::erased::dedup::words::WordSlots;

/// A hash index that holds symbols alone.
///
/// A slot takes four bytes if the symbol type says that all its numbers are below 2^32 - 1
/// ([`Symbol::has_narrow_numbers`](crate::symbol::Symbol::has_narrow_numbers)). Otherwise it takes an `Option` of a symbol,
/// and four bytes more if the number 2^32 - 1 has no symbol.
///
/// A look-up compares the text of each symbol from the text's home on, and growth hashes each text anew. The load
/// factor is at most three quarters.
///
/// ```ignore
/// let mut index = Index::<DefaultSymbol>::with_capacity(alloc, 6)?;
/// assert_eq!(index.slots(), 8);
/// ```
pub type Index<S> = Table<S, Slots<S>>;

/// A hash index that is made for speed.
///
/// It finds what [`Index`] finds, under every hasher, by the same linear probing. Beside each slot it keeps a tag, which
/// is one byte, and 32 bits of the code of the symbol's text:
///
/// - A look-up compares the tags of sixteen slots at once, and the text of a symbol only where its tag is that of the
///   text looked for.
/// - Growth moves symbols by the stored codes. It hashes no text as long as there are at most 2^32 slots.
///
/// The load factor is at most seven eighths. A slot takes 9 bytes, and 17 with a symbol of eight bytes.
///
/// Every symbol type will do, one without a symbol 0 as well: no symbol stands for an empty slot.
///
/// ```ignore
/// let mut names = StringInterner::<DefaultBackend, FoldState, TaggedIndex<DefaultSymbol>>::new(alloc);
/// let width = names.get_or_intern("width")?;
/// ```
pub type TaggedIndex<S> = Table<S, TaggedSlots<S>>;

/// A hash index whose words other threads may read while one thread has it.
///
/// A slot takes 8 bytes: 32 bits of the code of the symbol's text, and the symbol's number. The load factor is at most three
/// quarters. Growth hashes no text as long as there are at most 2^32 slots.
pub type WordIndex<S> = Table<S, WordSlots<S>>;

/// The index that an interner has if no other is named.
pub type DefaultIndex<S> = Index<S>;
