//! Rattle's std as the proved code uses it: what the crate for Rust has of it, and boxes.

pub mod boxed;

pub use string_interner::__parts::rt::*;

/// What each module of Rattle has without an import.
pub mod prelude {
    use super::alloc::{AllocError, Global};
    pub use super::boxed::Box;
    pub use string_interner::__parts::rt::prelude::*;

    /// `[T]::to_vec`, which takes the allocator. Rust's own call would end the process where memory is refused.
    pub trait ToVec<T> {
        fn try_to_vec(&self, alloc: Global) -> Result<Vec<T>, AllocError>;
    }

    impl<T: Copy> ToVec<T> for [T] {
        #[inline]
        fn try_to_vec(&self, alloc: Global) -> Result<Vec<T>, AllocError> {
            Vec::from_slice(alloc, self)
        }
    }
}
