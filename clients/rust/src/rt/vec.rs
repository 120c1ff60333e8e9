//! `Vec`. Items are copied and filled by their bits: no `Clone` of an item runs, since one may be a program's own.

use super::alloc::{AllocError, Global};
use crate::unchecked::with_room;
use core::hint::black_box;
use core::ops::{Deref, DerefMut, Index, IndexMut};
use core::slice::SliceIndex;

type List<T> = alloc::vec::Vec<T>;

/// Up to so many items are few.
const FEW: usize = 1024;

/// A growable list.
#[derive(Debug, PartialEq, Eq)]
pub struct Vec<T>(pub(crate) List<T>);

impl<T> Vec<T> {
    /// Makes an empty list. Allocates nothing.
    #[inline]
    pub const fn new(_alloc: Global) -> Self {
        Vec(List::new())
    }

    /// Makes an empty list that has room for `capacity` items. `Err` only if the memory is refused, or its size is too large.
    #[inline]
    pub fn with_capacity(_alloc: Global, capacity: usize) -> Result<Self, AllocError> {
        with_room(capacity).map(Vec).ok_or(AllocError)
    }

    /// Returns the allocator.
    #[inline]
    pub fn allocator(&self) -> &Global {
        &Global
    }

    /// Returns for how many items there is room, those that are there included.
    #[inline]
    pub fn capacity(&self) -> usize {
        self.0.capacity()
    }

    /// Returns the items.
    #[inline]
    pub fn as_slice(&self) -> &[T] {
        &self.0
    }

    /// Makes room for `more` items, and at least doubles the capacity if there is none. On `Err` nothing changes.
    #[inline]
    pub fn reserve(&mut self, more: usize) -> Result<(), AllocError> {
        self.0.try_reserve(more).map_err(|_| AllocError)
    }

    /// Makes room for `more` items and for no others. On `Err` nothing changes.
    #[inline]
    pub fn reserve_exact(&mut self, more: usize) -> Result<(), AllocError> {
        self.0.try_reserve_exact(more).map_err(|_| AllocError)
    }

    /// Appends an item. On `Err` nothing changes.
    #[inline]
    pub fn push(&mut self, item: T) -> Result<(), AllocError> {
        self.reserve(1)?;
        self.0.push(item);
        Ok(())
    }

    /// Appends an item for which there is room.
    #[inline(always)]
    pub fn push_reserved(&mut self, item: T) {
        self.0.push(item);
    }

    /// Keeps the first `len` items, and the capacity.
    #[inline]
    pub fn truncate(&mut self, len: usize) {
        self.0.truncate(len);
    }

    /// Releases spare capacity, unless memory is refused for the block that replaces this one. Rust's own call would end the
    /// process then.
    pub fn shrink_to_fit(&mut self) {
        let mut tight = List::new();
        if self.0.capacity() > self.0.len() && tight.try_reserve_exact(self.0.len()).is_ok() {
            tight.append(&mut self.0);
            self.0 = tight;
        }
    }
}

impl<T: Copy> Vec<T> {
    /// Makes a list of a copy of these items. `Err` only if the memory is refused.
    pub fn from_slice(alloc: Global, items: &[T]) -> Result<Self, AllocError> {
        let mut list = Vec::with_capacity(alloc, items.len())?;
        list.0.extend(items.iter().copied());
        Ok(list)
    }

    /// Makes a list of `count` copies of an item. `Err` only if the memory is refused.
    pub fn from_elem(alloc: Global, item: T, count: usize) -> Result<Self, AllocError> {
        if count <= FEW {
            return Vec::from_few(alloc, item, count);
        }
        let mut list = Vec::with_capacity(alloc, count)?;
        list.0.resize_with(count, || item);
        Ok(list)
    }

    /// The same for few. The compiler makes one call, `calloc`, of a block that is filled with zeros. That touches no page of a large
    /// block, and takes longer for a small one.
    #[inline(never)]
    fn from_few(alloc: Global, item: T, count: usize) -> Result<Self, AllocError> {
        let mut list = Vec::with_capacity(alloc, count)?;
        // So that the compiler does not see that the block is new.
        black_box(list.0.as_ptr());
        list.0.resize_with(count, || item);
        Ok(list)
    }

    /// Appends a copy of these items. On `Err` nothing changes.
    #[inline]
    pub fn extend_from_slice(&mut self, items: &[T]) -> Result<(), AllocError> {
        self.reserve(items.len())?;
        self.0.extend(items.iter().copied());
        Ok(())
    }

    /// Appends copies of an item up to `count` items, or keeps the first `count`. On `Err` nothing changes.
    #[inline]
    pub fn resize(&mut self, count: usize, item: T) -> Result<(), AllocError> {
        self.reserve(count.saturating_sub(self.0.len()))?;
        self.0.resize_with(count, || item);
        Ok(())
    }
}

impl<T> Vec<T> {
    /// Panics as the index of a slice does. It reads the length anew, so that the test of a place needs no register for it.
    #[cold]
    #[inline(never)]
    #[track_caller]
    fn panic_at<I: SliceIndex<[T]>>(&self, place: I) -> ! {
        let _ = &self.0[place];
        panic!("there is no such place")
    }
}

impl<T, I: SliceIndex<[T]> + Clone> Index<I> for Vec<T> {
    type Output = I::Output;

    #[inline(always)]
    #[track_caller]
    fn index(&self, place: I) -> &I::Output {
        match self.0.get(place.clone()) {
            Some(found) => found,
            None => self.panic_at(place),
        }
    }
}

impl<T, I: SliceIndex<[T]> + Clone> IndexMut<I> for Vec<T> {
    #[inline(always)]
    #[track_caller]
    fn index_mut(&mut self, place: I) -> &mut I::Output {
        if self.0.get(place.clone()).is_none() {
            self.panic_at(place);
        }
        &mut self.0[place]
    }
}

impl<T> Deref for Vec<T> {
    type Target = [T];

    #[inline(always)]
    fn deref(&self) -> &[T] {
        &self.0
    }
}

impl<T> DerefMut for Vec<T> {
    #[inline(always)]
    fn deref_mut(&mut self) -> &mut [T] {
        &mut self.0
    }
}
