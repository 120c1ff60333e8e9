//! Iterating over the entries of a backend.

//~ ghost use Rattle.std.specs.Prelude.{◌≡◌, [], length, Some, IfSome};
//~ ghost use Rattle.std.specs.Iterator.{UpTo, YieldsFirstBy, item_count};
//~ ghost use Rattle.std.specs.Iterator.SizeHint.{IsWithinCount};
//~ ghost use Rattle.string_interner.specs.Iter.{entries, iter_over};

use crate::rt::prelude::*; use crate::erased::backend::Backend;
use crate::rt::iter::ExactSizeIterator;
use crate::rt::marker::Model;

/// Iterates over the entries of a backend in insertion order, each with its symbol. Its exact length is known at each
/// step.
///
/// A step costs one `entry_at` of the backend.
//~ #[derive(Drop)]
pub struct Iter<'a, B: Backend> {
    backend: &'a B,
    next: usize,
    left: usize,
}

//~ /// Contracts see the texts already yielded, and those ahead.
//~ impl<'a, B: Backend> Model for Iter<'a, B> {
//~     ghost use Rattle.std.specs.Prelude.{take, drop, length, ◌-◌, ◌≤◌, ◌≡◌};
//~     ghost use Rattle.string_interner.specs.Iter.{IterState};
//~
//~     ghost Value = { IterState };
//~
//~     ghost view = { λ s. let done = length (B.texts s.backend.now) - s.left in record {
//~       behind = take done (B.texts s.backend.now);
//~       ahead = drop done (B.texts s.backend.now);
//~     } };
//~
//~     ghost invariant = { λ s. (s.left ≤ length (B.texts s.backend.now))
//~         × (B.numbering.place (take (length (B.texts s.backend.now) - s.left)
//~         (B.texts s.backend.now)) ≡ s.next) };
//~ }

impl<'a, B: Backend> Iter<'a, B> {
    /// Makes an iterator that starts at the first entry.
    pub fn new(backend: &'a B) -> Self
        //~ ensures { result ≡ iter_over (B.texts backend.now) }
    {
        Iter {
            backend,
            next: 0,
            left: backend.count(),
        }
    }
}

impl<'a, B: Backend> Iterator for Iter<'a, B> {
    type Item = (B::Symbol, &'a str);

    //~ ghost next_gives = { YieldsFirstBy (λ item. (Some item.0, item.1.now))
    //~     (λ iter. entries B.numbering iter.behind iter.ahead) };

    //~ ghost remaining = { item_count (λ iter. iter.ahead) };

    fn next(&mut self) -> Option<(B::Symbol, &'a str)> {
        if self.left == 0 {
            return None;
        }
        let (symbol, text, next) = self.backend.entry_at(self.next);
        self.next = next;
        self.left -= 1;
        Some((symbol, text))
    }

    /// Returns the exact number of entries ahead, as both bounds.
    fn size_hint(&self) -> (usize, Option<usize>)
        //~ ensures lower { IsWithinCount result.0 (item_count (λ iter. iter.ahead) self.now) }
        //~ ensures upper { IfSome result.1 (UpTo (item_count (λ iter. iter.ahead) self.now)) }
        //~ ensures exact { result ≡ (length self.now.ahead, Some (length self.now.ahead)) }
    {
        (self.left, Some(self.left))
    }
}

impl<'a, B: Backend> ExactSizeIterator for Iter<'a, B> {
    fn len(&self) -> usize {
        self.left
    }
}
