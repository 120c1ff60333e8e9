//! What the backends of this crate have beyond the trait that a program's own implement.

use std::fmt::Debug;
use std::panic::{RefUnwindSafe, UnwindSafe};

/// A backend as the three of this crate are, whose symbols threads may share.
pub trait Backend:
    for<'a> string_interner::backend::Backend<
        Symbol: Send + Sync + RefUnwindSafe + UnwindSafe,
        Iter<'a>: Clone + ExactSizeIterator,
    > + Clone
    + Debug
    + Eq
    + RefUnwindSafe
    + Send
    + Sync
    + UnwindSafe
{
}

impl<B> Backend for B where
    B: for<'a> string_interner::backend::Backend<
            Symbol: Send + Sync + RefUnwindSafe + UnwindSafe,
            Iter<'a>: Clone + ExactSizeIterator,
        > + Clone
        + Debug
        + Eq
        + RefUnwindSafe
        + Send
        + Sync
        + UnwindSafe
{
}
