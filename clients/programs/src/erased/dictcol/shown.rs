//! How messages show what a user wrote: control characters would reach the terminal.

//~ ghost use Rattle.std.specs.Prelude.{◌≡◌, ◌<◌, length};
//~ ghost use Rattle.std.specs.Str.{IsCharBoundary};
//~ ghost use Rattle.dictcol.specs.Shown.{begin_of_letter, end_mark, has_control, shown_part};

use crate::rt::prelude::*; use crate::rt::fmt;
use crate::rt::fmt::{Display, Formatter, Write};

/// The most bytes of a word or a path that are shown: a message may name a whole file of them.
const LONGEST: usize = 1024;

/// Returns where the letter begins that has the byte at this place.
fn find_begin(text: &str, at: usize) -> usize
    //~ requires { at < length text.now }
    //~ ensures begin { result ≡ begin_of_letter text.now at }
    //~ ensures boundary { IsCharBoundary text.now result }
{
    let mut begin = at;
    while !text.is_char_boundary(begin) {
        begin -= 1;
    }
    begin
}

/// Returns what is shown of a text, and what stands for the rest.
fn cut(text: &str) -> (&str, &'static str)
    //~ ensures part { result.0.now ≡ shown_part text.now }
    //~ ensures mark { result.1.now ≡ end_mark text.now }
{
    if text.len() <= LONGEST {
        return (text, "");
    }
    (&text[..find_begin(text, LONGEST)], "..")
}

/// Returns whether a text has a control character.
fn has_control(text: &str) -> bool
    //~ ensures { result ≡ has_control text.now }
{
    text.chars().any(|letter| letter.is_control())
}

/// The path of a file. One with control characters is shown as Rust writes it.
#[derive(Clone, Copy, Debug)]
pub struct ShownPath<'a>(pub &'a str);

impl Display for ShownPath<'_> {
    //~ ghost use Rattle.dictcol.specs.Shown.{shown_path};

    //~ ghost output = { λ path. shown_path path.0.now };

    fn fmt(&self, f: &mut Formatter<'_>) -> fmt::Result {
        let (path, mark) = cut(self.0);
        if has_control(path) {
            return write!(f, "{path:?}{mark}");
        }
        write!(f, "{path}{mark}")
    }
}

/// A word between quotes. One with control characters is shown as Rust writes it.
#[derive(Clone, Copy, Debug)]
pub struct ShownWord<'a>(pub &'a str);

impl Display for ShownWord<'_> {
    //~ ghost use Rattle.dictcol.specs.Shown.{shown_word};

    //~ ghost output = { λ word. shown_word word.0.now };

    fn fmt(&self, f: &mut Formatter<'_>) -> fmt::Result {
        let (word, mark) = cut(self.0);
        if has_control(word) {
            return write!(f, "{word:?}{mark}");
        }
        write!(f, "'{word}'{mark}")
    }
}
