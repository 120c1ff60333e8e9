use crate::erased::backend::InternError as Proved;
use crate::rt::alloc::AllocError;
use core::error::Error;
use core::fmt;

/// Why interning a text failed. The interner has the texts that it had before.
#[derive(Clone, Copy, Debug, PartialEq, Eq)]
#[non_exhaustive]
pub enum InternError {
    /// The text is new, and no symbol is left for it.
    NoSymbol,
    /// An allocation failed.
    Memory,
}

impl From<Proved> for InternError {
    #[inline]
    fn from(error: Proved) -> Self {
        match error {
            Proved::NoSymbol => InternError::NoSymbol,
            Proved::Memory(_) => InternError::Memory,
        }
    }
}

impl From<InternError> for Proved {
    #[inline]
    fn from(error: InternError) -> Self {
        match error {
            InternError::NoSymbol => Proved::NoSymbol,
            InternError::Memory => Proved::Memory(AllocError),
        }
    }
}

impl From<AllocError> for InternError {
    #[inline]
    fn from(_: AllocError) -> Self {
        InternError::Memory
    }
}

impl fmt::Display for InternError {
    fn fmt(&self, f: &mut fmt::Formatter<'_>) -> fmt::Result {
        f.write_str(match self {
            InternError::NoSymbol => "no symbol is left",
            InternError::Memory => "out of memory",
        })
    }
}

impl Error for InternError {}

#[cold]
#[inline(never)]
#[track_caller]
fn panic_for(error: InternError) -> ! {
    panic!("{error}")
}

/// Returns the value of a call. Panics if no symbol was left, or an allocation failed.
#[inline(always)]
#[track_caller]
pub(crate) fn expect<T, E: Into<InternError>>(outcome: Result<T, E>) -> T {
    // A closure would hide from the panic who called.
    match outcome {
        Ok(value) => value,
        Err(error) => panic_for(error.into()),
    }
}
