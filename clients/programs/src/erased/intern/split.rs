//! Splitting a text into lines.

//~ ghost use Rattle.std.specs.Prelude.{◌≡◌, ◌≤◌, length};
//~ ghost use Rattle.std.specs.Iterator.{YieldsFirstRef, item_count};
//~ ghost use Rattle.intern.specs.Lines.{lines_of};

use crate::rt::prelude::*; use crate::memchr::memchr;
use crate::rt::marker::Model;

/// Iterates over the lines of a text, as `split_terminator('\n')` does: a newline at the very end ends the last line, and begins
/// no further one.
//~ #[derive(Drop)]
pub struct Lines<'t> {
    /// What stands behind the last newline so far, unless the last line was yielded.
    ahead: &'t str,
}

//~ /// Contracts see the lines ahead.
//~ impl<'t> Model for Lines<'t> {
//~     ghost use Rattle.std.specs.Prelude.{ℕ, List};
//~     ghost use Rattle.intern.specs.Lines.{lines_of};
//~
//~     ghost Value = { List (List ℕ) };
//~
//~     ghost view = { λ lines. lines_of lines.ahead.now };
//~ }

impl<'t> Lines<'t> {
    /// Makes an iterator that starts at the first line.
    pub fn new(text: &'t str) -> Self
        //~ ensures lines { result ≡ lines_of text.now }

        // Each line takes a byte at least.
        //~ ensures count { length result ≤ length text.now }
    {
        Lines { ahead: text }
    }
}

impl<'t> Iterator for Lines<'t> {
    type Item = &'t str;

    //~ ghost next_gives = { YieldsFirstRef (λ lines. lines) };

    //~ ghost remaining = { item_count (λ lines. lines) };

    #[inline]
    fn next(&mut self) -> Option<&'t str> {
        let text = self.ahead;
        if text.is_empty() {
            return None;
        }
        match memchr(b'\n', text.as_bytes()) {
            Some(end) => {
                self.ahead = &text[end + 1..];
                Some(&text[..end])
            }
            None => {
                self.ahead = "";
                Some(text)
            }
        }
    }
}
