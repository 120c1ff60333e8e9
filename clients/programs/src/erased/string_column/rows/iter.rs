//! Iterating over the rows of a column.

//~ ghost use Rattle.std.specs.Prelude.{◌≡◌, length, Some, IfSome};
//~ ghost use Rattle.std.specs.Iterator.{UpTo, YieldsFirstRef, item_count};
//~ ghost use Rattle.std.specs.Iterator.SizeHint.{IsWithinCount};

use crate::rt::prelude::*; use super::Column;
use crate::rt::iter::ExactSizeIterator;
use crate::rt::marker::Model;
use crate::erased::backend::Backend;
use crate::erased::dedup::{TextHasher, TextIndex};

/// Iterates over the rows of a column in order. Its exact length is known at each step.
///
/// A step costs what [`Column::row`] costs, and allocates nothing.
//~ #[derive(Drop)]
pub struct Iter<'a, B: Backend, H: TextHasher, I: TextIndex<B::Symbol>> {
    column: &'a Column<B, H, I>,
    next: usize,
}

//~ /// Contracts see the rows ahead.
//~ impl<'a, B: Backend, H: TextHasher, I: TextIndex<B::Symbol>> Model for Iter<'a, B, H, I> {
//~     ghost use Rattle.std.specs.Prelude.{List, drop, length, ◌≤◌};
//~     ghost use Rattle.string_interner.specs.Text.{Text};
//~
//~     ghost Value = { List Text };
//~
//~     ghost view = { λ s. drop s.next s.column.now };
//~
//~     ghost invariant = { λ s. s.next ≤ length s.column.now };
//~ }

impl<'a, B: Backend, H: TextHasher, I: TextIndex<B::Symbol>> Iter<'a, B, H, I> {
    /// Makes an iterator that starts at the first row.
    pub(super) fn new(column: &'a Column<B, H, I>) -> Self
        //~ ensures { result ≡ column.now }
    {
        Iter { column, next: 0 }
    }
}

impl<'a, B: Backend, H: TextHasher, I: TextIndex<B::Symbol>> Iterator for Iter<'a, B, H, I> {
    type Item = &'a str;

    //~ ghost next_gives = { YieldsFirstRef (λ iter. iter) };

    //~ ghost remaining = { item_count (λ iter. iter) };

    #[inline]
    fn next(&mut self) -> Option<&'a str> {
        if self.next == self.column.len() {
            return None;
        }
        let row = self.column.row(self.next);
        self.next += 1;
        row
    }

    /// Returns the exact number of rows ahead, as both bounds.
    fn size_hint(&self) -> (usize, Option<usize>)
        //~ ensures lower { IsWithinCount result.0 (item_count (λ iter. iter) self.now) }
        //~ ensures upper { IfSome result.1 (UpTo (item_count (λ iter. iter) self.now)) }
        //~ ensures exact { result ≡ (length self.now, Some (length self.now)) }
    {
        let left = self.column.len() - self.next;
        (left, Some(left))
    }
}

impl<'a, B: Backend, H: TextHasher, I: TextIndex<B::Symbol>> ExactSizeIterator
    for Iter<'a, B, H, I> {
    fn len(&self) -> usize {
        self.column.len() - self.next
    }
}

impl<'a, B: Backend, H: TextHasher, I: TextIndex<B::Symbol>> IntoIterator for &'a Column<B, H, I> {
    type Item = &'a str;

    type IntoIter = Iter<'a, B, H, I>;

    //~ ghost into_iter_gives = { λ column iter. iter ≡ column.now };

    fn into_iter(self) -> Iter<'a, B, H, I> {
        Iter::new(self)
    }
}
