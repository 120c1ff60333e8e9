//! `Box`.

use super::alloc::{AllocError, Global};
use alloc::boxed::Box as Block;
use alloc::vec::Vec;
use core::ops::{Deref, DerefMut};

/// A value in a block of its own.
pub struct Box<T, A = Global>(Block<[T; 1]>, A);

impl<T> Box<T> {
    /// Moves a value into a block. `Err` only if the memory is refused.
    pub fn new(alloc: Global, value: T) -> Result<Self, AllocError> {
        // The only call of Rust's that says so makes a list.
        let mut one = Vec::new();
        one.try_reserve_exact(1).map_err(|_| AllocError)?;
        one.push(value);
        let one = one.into_boxed_slice().try_into();
        one.map(|one| Box(one, alloc)).map_err(|_| AllocError)
    }

    /// Returns the address of the value, which is not dropped.
    pub fn into_raw(self) -> *mut T {
        Block::into_raw(self.0).cast()
    }

    /// Makes a box of the address of a value.
    ///
    /// # Safety
    ///
    /// `into_raw` returned the address, and it was not passed here since.
    pub unsafe fn from_raw(alloc: Global, address: *mut T) -> Self {
        // SAFETY: the caller promises that the block is one of `into_raw`, which is that of a list of one value.
        Box(unsafe { Block::from_raw(address.cast()) }, alloc)
    }
}

impl<T> Deref for Box<T> {
    type Target = T;

    #[inline(always)]
    fn deref(&self) -> &T {
        &self.0[0]
    }
}

impl<T> DerefMut for Box<T> {
    #[inline(always)]
    fn deref_mut(&mut self) -> &mut T {
        &mut self.0[0]
    }
}
