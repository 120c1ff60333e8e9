//! What the program `suite` uses of Rattle's std beside what the crate for Rust has of it.

use super::alloc::{AllocError, Global};
use super::hash::{keyed_hasher, DefaultHasher};
use super::string::String;

/// As in Rattle a hasher has the keys 0 by default.
impl DefaultHasher {
    pub fn new() -> Self {
        keyed_hasher(0, 0)
    }
}

impl Default for DefaultHasher {
    fn default() -> Self {
        DefaultHasher::new()
    }
}

impl String {
    pub fn push(&mut self, letter: char) -> Result<(), AllocError> {
        self.push_str(letter.encode_utf8(&mut [0; 4]))
    }

    pub fn repeat(text: &str, alloc: Global, count: usize) -> Result<Self, AllocError> {
        let mut texts =
            String::with_capacity(alloc, text.len().checked_mul(count).ok_or(AllocError)?)?;
        (0..count).try_for_each(|_| texts.push_str(text))?;
        Ok(texts)
    }
}
