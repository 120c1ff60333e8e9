//! A handle: an interner behind a pointer. C knows it by its address.
//!
//! In the proved crate a handle is a raw pointer that owns what is behind it, which only its prover understands. Here it is a box, and
//! the compiler sees which calls only read.

use crate::handles::any::AnyInterner;
use crate::rt::prelude::Box;

/// An interner behind a pointer: what `interner *` points to in C.
pub struct Handle {
    interner: Box<AnyInterner>,
}

impl Handle {
    /// Makes a handle that holds the interner of a box.
    pub fn of(interner: Box<AnyInterner>) -> Handle {
        Handle { interner }
    }

    /// Lends the interner of a handle.
    #[inline(always)]
    pub fn interner(&mut self) -> &mut AnyInterner {
        &mut self.interner
    }

    /// Lends the interner of a handle to be read.
    #[inline(always)]
    pub fn read(&self) -> &AnyInterner {
        &self.interner
    }
}
