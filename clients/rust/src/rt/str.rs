//! `str`: what Rust's own has, with a `from_utf8` that is as fast for short texts as that of Rattle.

pub use core::str::*;

/// Returns the bytes as a text, if they are UTF-8.
#[inline]
pub fn from_utf8(bytes: &[u8]) -> Result<&str, Utf8Error> {
    match crate::unchecked::short_text(bytes) {
        Some(text) => Ok(text),
        None => core::str::from_utf8(bytes),
    }
}
