//! The program `intern` of this repository over this crate: it interns lines, and tells symbols. `clients/check` has its model try it.
//!
//!     printf 'i Elephant\ni Tiger\ni Tiger\n' | cargo run --example intern string
//!
//! | Line | Reply |
//! |---|---|
//! | `i TEXT` | the symbol of a text, which is interned |
//! | `g TEXT` | the symbol of a text, or `none` |
//! | `r NUMBER`, `n NUMBER` | the text of the symbol that the reply to a line told, counted from 0, or of the symbol with a number |
//! | `len`, `shrink` | the count of texts; `ok` |

extern crate alloc;

#[path = "intern/replies.rs"]
mod replies;

use std::env;
use std::io::{self, Read, Write};
use std::process::ExitCode;

fn main() -> ExitCode {
    let fail = |status, said: &str| {
        eprintln!("{said}");
        ExitCode::from(status)
    };
    let words: Vec<_> = env::args_os().skip(1).collect();
    let answer = match words.as_slice() {
        [word] => word.to_str().and_then(replies::find),
        _ => None,
    };
    let Some(answer) = answer else {
        return fail(2, "usage: intern string|bucket|buffer");
    };
    let mut input = String::new();
    if io::stdin().read_to_string(&mut input).is_err() {
        return fail(1, "cannot read input");
    }
    let text = match answer(&input) {
        Ok(text) => text,
        Err(said) => return fail(2, &said),
    };
    match io::stdout().write_all(text.as_bytes()) {
        Ok(()) => ExitCode::SUCCESS,
        Err(_) => fail(1, "cannot write output"),
    }
}
