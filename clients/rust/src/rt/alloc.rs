/// The allocator that collections are passed: Rust's global one.
#[derive(Clone, Copy)]
pub struct Global;

/// An allocation was refused, or a size does not fit a `usize`.
#[derive(Clone, Copy, Debug, PartialEq, Eq)]
pub struct AllocError;
