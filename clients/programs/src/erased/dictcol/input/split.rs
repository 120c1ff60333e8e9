//! Splitting a text into lines.

//~ ghost use Rattle.std.specs.Prelude.{◌≡◌};
//~ ghost use Rattle.std.specs.Iterator.{YieldsFirstRef, item_count};
//~ ghost use Rattle.std.specs.List.{slice_split};
//~ ghost use Rattle.dictcol.specs.Lines.{is_newline};

use crate::rt::prelude::*; use crate::memchr::memchr;
use crate::rt::marker::Model;

/// Iterates over what stands before, between and behind the newlines of a text, as `split('\n')` does. It is faster, because it
/// looks for a byte, and for no pattern.
//~ #[derive(Drop)]
pub struct Lines<'t> {
    /// What stands behind the last newline so far, unless the last line was yielded.
    ahead: Option<&'t str>,
}

//~ /// Contracts see the lines ahead.
//~ impl<'t> Model for Lines<'t> {
//~     ghost use Rattle.std.specs.Prelude.{List, []};
//~     ghost use Rattle.std.specs.List.{slice_split};
//~     ghost use Rattle.std.specs.Option.{option_map_or};
//~     ghost use Rattle.string_interner.specs.Text.{Text};
//~     ghost use Rattle.dictcol.specs.Lines.{is_newline};
//~
//~     ghost Value = { List Text };
//~
//~     ghost view = { λ lines.
//~         option_map_or (λ text. slice_split is_newline text.now) lines.ahead [] };
//~ }

impl<'t> Lines<'t> {
    /// Makes an iterator that starts at the first line.
    pub fn new(text: &'t str) -> Self
        //~ ensures { result ≡ slice_split is_newline text.now }
    {
        Lines { ahead: Some(text) }
    }
}

impl<'t> Iterator for Lines<'t> {
    type Item = &'t str;

    //~ ghost next_gives = { YieldsFirstRef (λ lines. lines) };

    //~ ghost remaining = { item_count (λ lines. lines) };

    #[inline]
    fn next(&mut self) -> Option<&'t str> {
        let text = self.ahead?;
        match memchr(b'\n', text.as_bytes()) {
            Some(end) => {
                self.ahead = Some(&text[end + 1..]);
                Some(&text[..end])
            }
            None => {
                self.ahead = None;
                Some(text)
            }
        }
    }
}
