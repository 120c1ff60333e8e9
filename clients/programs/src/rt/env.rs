//! The arguments.

use super::alloc::{AllocError, Global};
use super::host::HostRuntime;
use super::io::{ErrorKind, Result};
use super::string::String;
use super::vec::Vec;

/// Why an argument was not copied.
#[derive(Clone, Copy)]
pub enum FillError {
    NotPresent,
    TooLong,
}

/// What has arguments.
pub trait Env {
    /// Copies an argument, of which the first is the program's name, and returns how many bytes it has.
    fn arg(&self, number: usize, bytes: &mut [u8]) -> core::result::Result<usize, FillError>;
}

/// The program's name and its arguments.
pub struct Args {
    words: Vec<String>,
    skipped: usize,
}

/// Copies the program's name and its arguments. `Err` if one of them is not UTF-8, or memory is refused.
pub fn args(rt: &HostRuntime) -> Result<Args> {
    let mut words = Vec::new(Global);
    for word in rt.words() {
        let word = core::str::from_utf8(word).map_err(|_| ErrorKind::InvalidData)?;
        words.push(String::from_str(Global, word)?)?;
    }
    Ok(Args { words, skipped: 0 })
}

impl Args {
    /// Leaves out so many more of the first.
    pub fn skip(mut self, count: usize) -> Self {
        self.skipped += count;
        self
    }

    /// Returns a list of them. `Err` only if memory is refused.
    pub fn try_collect(self, alloc: Global) -> core::result::Result<Vec<String>, AllocError> {
        let mut words = Vec::new(alloc);
        let mut rest = self.words.into_iter().skip(self.skipped);
        while let Some(word) = rest.next() {
            let is_full = words.len() == words.capacity();
            if is_full && words.reserve(rest.len() + 1).is_err() {
                // There may be memory for one more, where there is none for all.
                words.reserve(1)?;
            }
            words.push_reserved(word);
        }
        Ok(words)
    }
}
