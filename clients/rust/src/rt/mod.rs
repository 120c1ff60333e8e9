//! Rattle's std as the proved code uses it, over Rust's own, its JSON (`serde_json`, `tokens`, `memchr`), and the words of a table that
//! threads share (`words`). It is written by hand, and not proved.
//!
//! Each item has the name that it has there, and its comment says which contract of Rattle's it stands for. There a collection is
//! passed the allocator and says if memory was refused. Here the allocator is Rust's global one, and what would end the process
//! where memory is refused returns an error, too.

pub mod alloc;
pub mod hash;
#[cfg(feature = "parts")]
mod lists;
pub mod memchr;
pub mod numbers;
pub mod serde_json;
pub mod simd;
pub mod str;
pub mod string;
#[cfg(test)]
mod tests;
pub mod tokens;
pub mod vec;
pub mod words;

// What these have means the same in both.
pub use core::{fmt, iter, mem, slice};

pub mod marker {
    pub use core::marker::{PhantomData, Send, Sync};

    /// What contracts see of a type. Its impls are erased.
    pub trait Model {}
}

/// What each module of Rattle has without an import.
pub mod prelude {
    pub use super::alloc::AllocError;
    #[cfg(feature = "parts")]
    pub use super::lists::Collect;
    pub use super::numbers::{Chunks, Product};
    // The calls of the type itself are younger than the oldest compiler.
    pub use super::str;
    pub use super::string::String;
    pub use super::vec::Vec;
    pub use crate::unchecked::Unchecked;

    /// Rattle drops only what has this trait. Rust drops everything.
    pub trait Drop {}
    impl<T: ?Sized> Drop for T {}

    /// A clone may be refused memory, and says so. A type's own impl of Rust's trait does not return then.
    pub trait Clone: Sized {
        fn clone(&self) -> Result<Self, AllocError>;
    }
    impl<T: core::clone::Clone> Clone for T {
        #[inline]
        fn clone(&self) -> Result<Self, AllocError> {
            Ok(core::clone::Clone::clone(self))
        }
    }
}
