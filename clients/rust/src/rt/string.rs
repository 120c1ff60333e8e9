//! `String`.

use super::alloc::{AllocError, Global};
use super::vec::Vec;
use crate::unchecked::{append, with_room};
use core::fmt;
use core::ops::{Deref, Index, Range};

type Text = alloc::string::String;

/// A growable text.
#[derive(Debug, PartialEq, Eq)]
pub struct String(pub(crate) Text);

impl String {
    /// Makes an empty text. Allocates nothing.
    #[inline]
    pub const fn new(_alloc: Global) -> Self {
        String(Text::new())
    }

    /// Makes an empty text that has room for `capacity` bytes. `Err` only if the memory is refused, or its size is too large.
    #[inline]
    pub fn with_capacity(_alloc: Global, capacity: usize) -> Result<Self, AllocError> {
        let bytes = with_room(capacity).ok_or(AllocError)?;
        Ok(String(Text::from_utf8(bytes).unwrap_or_default()))
    }

    /// Makes a copy of a text, with no room for more. `Err` only if the memory is refused.
    pub fn from_str(alloc: Global, text: &str) -> Result<Self, AllocError> {
        let mut copy = String::with_capacity(alloc, text.len())?;
        append(&mut copy.0, text);
        Ok(copy)
    }

    /// Makes a copy. `Err` only if the memory is refused.
    pub fn clone(&self) -> Result<Self, AllocError> {
        String::from_str(Global, &self.0)
    }

    /// Returns for how many bytes there is room, those that are there included.
    #[inline]
    pub fn capacity(&self) -> usize {
        self.0.capacity()
    }

    /// Returns the text.
    #[inline]
    pub fn as_str(&self) -> &str {
        &self.0
    }

    /// Makes room for `more` bytes, and at least doubles the capacity if there is none. On `Err` nothing changes.
    #[inline]
    pub fn reserve(&mut self, more: usize) -> Result<(), AllocError> {
        self.0.try_reserve(more).map_err(|_| AllocError)
    }

    /// Makes room for `more` bytes and for no others. On `Err` nothing changes.
    #[inline]
    pub fn reserve_exact(&mut self, more: usize) -> Result<(), AllocError> {
        self.0.try_reserve_exact(more).map_err(|_| AllocError)
    }

    /// Appends a text. It moves none of the bytes before it if there is room. On `Err` nothing changes.
    #[inline(always)]
    pub fn push_str(&mut self, text: &str) -> Result<(), AllocError> {
        self.reserve(text.len())?;
        append(&mut self.0, text);
        Ok(())
    }

    /// Keeps the first `len` bytes, and the capacity. A character begins or the text ends there.
    #[inline]
    pub fn truncate(&mut self, len: usize) {
        self.0.truncate(len);
    }

    /// Returns the bytes.
    pub fn into_bytes(self) -> Vec<u8> {
        Vec(self.0.into_bytes())
    }

    /// Releases spare capacity, unless memory is refused for the block that replaces this one.
    pub fn shrink_to_fit(&mut self) {
        if self.0.capacity() > self.0.len() {
            if let Ok(tight) = String::from_str(Global, &self.0) {
                *self = tight;
            }
        }
    }
}

/// Fails only if memory is refused.
impl fmt::Write for String {
    #[inline(always)]
    fn write_str(&mut self, text: &str) -> fmt::Result {
        self.push_str(text).map_err(|_| fmt::Error)
    }
}

/// A part of the text, which begins and ends with a character.
impl Index<Range<usize>> for String {
    type Output = str;

    #[inline(always)]
    fn index(&self, part: Range<usize>) -> &str {
        &self.0[part]
    }
}

impl Deref for String {
    type Target = str;

    #[inline(always)]
    fn deref(&self) -> &str {
        &self.0
    }
}
