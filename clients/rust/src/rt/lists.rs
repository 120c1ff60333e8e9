//! What lists and texts have beside the calls that this crate needs: the programs do.

use super::alloc::{AllocError, Global};
use super::string::String;
use super::vec::Vec;
use core::cmp::Ordering;
use core::fmt;

/// Up to so many items are sorted in their place.
const SORTED_IN_PLACE: usize = 20;

impl<T> Vec<T> {
    /// Removes all items, and keeps the capacity.
    pub fn clear(&mut self) {
        self.0.clear();
    }

    /// Removes the last item, and returns it.
    pub fn pop(&mut self) -> Option<T> {
        self.0.pop()
    }
}

impl<T: Copy> Vec<T> {
    /// Sorts the items, and keeps the order of equal ones. `Err` only if memory is refused, for more than a few items; then they
    /// stay as they were. Rust's own call would end the process then.
    pub fn sort_by(&mut self, compare: impl Fn(&T, &T) -> Ordering) -> Result<(), AllocError> {
        let len = self.len();
        let mut other = Vec::new(Global);
        if len > SORTED_IN_PLACE {
            other.reserve_exact(len)?;
            other.extend_from_slice(self)?;
        }
        self.chunks_mut(SORTED_IN_PLACE)
            .for_each(|part| sort_few(part, &compare));
        let mut sorted = SORTED_IN_PLACE;
        while sorted < len {
            merge_parts(self, &mut other, sorted, &compare);
            core::mem::swap(self, &mut other);
            sorted = sorted.saturating_mul(2);
        }
        Ok(())
    }
}

/// Sorts a few items: each goes behind those that are not greater.
fn sort_few<T: Copy>(items: &mut [T], compare: &impl Fn(&T, &T) -> Ordering) {
    for end in 1..items.len() {
        let item = items[end];
        let at = items[..end].partition_point(|before| compare(before, &item).is_le());
        items.copy_within(at..end, at + 1);
        items[at] = item;
    }
}

/// Merges each two neighbouring parts of so many items, which are sorted, into one of a list that is as long.
fn merge_parts<T: Copy>(
    from: &[T],
    into: &mut [T],
    sorted: usize,
    compare: &impl Fn(&T, &T) -> Ordering,
) {
    let both = sorted.saturating_mul(2);
    for (parts, merged) in from.chunks(both).zip(into.chunks_mut(both)) {
        let (mut left, mut right) = parts.split_at(sorted.min(parts.len()));
        for place in merged {
            let is_left = match (left.first(), right.first()) {
                (Some(one), Some(other)) => compare(one, other).is_le(),
                (one, _) => one.is_some(),
            };
            let part = if is_left { &mut left } else { &mut right };
            if let Some((first, rest)) = part.split_first() {
                *place = *first;
                *part = rest;
            }
        }
    }
}

impl<T> IntoIterator for Vec<T> {
    type Item = T;
    type IntoIter = alloc::vec::IntoIter<T>;

    fn into_iter(self) -> Self::IntoIter {
        self.0.into_iter()
    }
}

impl<'a, T> IntoIterator for &'a Vec<T> {
    type Item = &'a T;
    type IntoIter = core::slice::Iter<'a, T>;

    #[inline]
    fn into_iter(self) -> Self::IntoIter {
        self.iter()
    }
}

/// `try_collect`: `collect`, which takes the allocator.
pub trait Collect: Iterator + Sized {
    /// Returns a list of the items. `Err` only if memory is refused.
    fn try_collect(self, alloc: Global) -> Result<Vec<Self::Item>, AllocError> {
        let mut items = Vec::new(alloc);
        for item in self {
            items.push(item)?;
        }
        Ok(items)
    }
}

impl<I: Iterator> Collect for I {}

impl fmt::Display for String {
    fn fmt(&self, f: &mut fmt::Formatter<'_>) -> fmt::Result {
        f.pad(self)
    }
}

impl String {
    /// Writes what is formatted to a new text. `Err` only if memory is refused.
    pub fn of(alloc: Global, text: fmt::Arguments<'_>) -> Result<Self, AllocError> {
        let mut written = String::new(alloc);
        fmt::write(&mut written, text).map_err(|_| AllocError)?;
        Ok(written)
    }

    /// Removes all bytes, and keeps the capacity.
    pub fn clear(&mut self) {
        self.truncate(0);
    }

    /// Makes a text of bytes that are UTF-8, or returns these.
    pub fn from_utf8(bytes: Vec<u8>) -> Result<Self, Vec<u8>> {
        let text = alloc::string::String::from_utf8(bytes.0);
        text.map(String).map_err(|error| Vec(error.into_bytes()))
    }

    /// Copies bytes as a text, with U+FFFD for each longest part that is not UTF-8. `Err` only if memory is refused.
    pub fn from_utf8_lossy(alloc: Global, bytes: &[u8]) -> Result<Self, AllocError> {
        let mut text = String::new(alloc);
        for part in bytes.utf8_chunks() {
            text.push_str(part.valid())?;
            if !part.invalid().is_empty() {
                text.push_str("\u{fffd}")?;
            }
        }
        Ok(text)
    }
}
