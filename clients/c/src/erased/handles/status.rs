//! How a call ends.

//~ ghost use Rattle.std.specs.Prelude.{◌≡◌};
//~ ghost use Rattle.handles.specs.Status.{Tells, code_of_done, code_of, packed, status_of, status_of_json};

use crate::rt::prelude::*; use crate::rt::alloc::AllocError;
use crate::erased::backend::InternError;
use crate::erased::json::JsonError;

/// Why a call failed.
#[derive(Clone, Copy)]
pub enum Status {
    /// The bytes are not UTF-8, or not JSON if JSON is read.
    BadText,
    /// The symbols of this kind have run out.
    NoSymbol,
    /// An allocation failed.
    NoMemory,
    /// There is no such text.
    Nothing,
    /// The buffer is too small.
    NoRoom,
    /// No kind has this code.
    BadKind,
    /// An end is less than the one before it, or passes the bytes.
    BadEnds,
    /// The JSON value is not an array.
    NotAList,
    /// An element is not a string.
    NotAText,
    /// An element is a string equal to an earlier one.
    Repeated,
    /// No hasher has this code.
    BadHasher,
}

/// The code of a call that succeeded.
pub const OK: u32 = 0;

impl Status {
    /// Returns the code that C sees.
    pub fn code(self) -> u32
        //~ ensures { result ≡ code_of self }
    {
        match self {
            Status::BadText => 1,
            Status::NoSymbol => 2,
            Status::NoMemory => 3,
            Status::Nothing => 4,
            Status::NoRoom => 5,
            Status::BadKind => 6,
            Status::BadEnds => 7,
            Status::NotAList => 8,
            Status::NotAText => 9,
            Status::Repeated => 10,
            Status::BadHasher => 11,
        }
    }
}

/// An allocation failed.
impl From<AllocError> for Status {
    //~ ghost use Rattle.handles.specs.declared.status.Status.TheVariants.{NoMemory};

    //~ ghost from_gives = { λ error status. status ≡ NoMemory };

    fn from(_: AllocError) -> Status {
        Status::NoMemory
    }
}

/// Why a text was not interned.
impl From<InternError> for Status {
    //~ ghost from_gives = { λ error status. status ≡ status_of error };

    fn from(error: InternError) -> Status {
        match error {
            InternError::NoSymbol => Status::NoSymbol,
            InternError::Memory(_) => Status::NoMemory,
        }
    }
}

/// Why a JSON value was not read.
impl From<JsonError> for Status {
    //~ ghost from_gives = { λ error status. status ≡ status_of_json error };

    fn from(error: JsonError) -> Status {
        match error {
            JsonError::NoSymbol => Status::NoSymbol,
            JsonError::Memory(_) => Status::NoMemory,
            JsonError::NotAList => Status::NotAList,
            JsonError::NotAText { .. } => Status::NotAText,
            JsonError::Repeated { .. } => Status::Repeated,
            JsonError::NotANumber => Status::NotAText,
        }
    }
}

/// Returns the code of an outcome, and writes its value.
#[inline(always)]
pub fn tell<T: Copy>(outcome: Result<T, Status>, out: &mut T) -> u32
    //~ ensures { Tells outcome result out.old out.new }
{
    match outcome {
        Ok(value) => {
            *out = value;
            OK
        }
        Err(status) => status.code(),
    }
}

/// Returns the code of an outcome without a value.
#[inline(always)]
pub fn finish(outcome: Result<(), Status>) -> u32
    //~ ensures { result ≡ code_of_done outcome }
{
    match outcome {
        Ok(()) => OK,
        Err(status) => status.code(),
    }
}

/// Packs an outcome into a number: the symbol, or 2^32 and the code of why there is none.
///
/// A call that returns this writes to no memory, so it takes less time than one that writes the symbol there.
#[inline(always)]
pub fn pack(outcome: Result<u32, Status>) -> u64
    //~ ensures { result ≡ packed outcome }
{
    match outcome {
        Ok(symbol) => u64::from(symbol),
        Err(status) => 0x1_0000_0000 + u64::from(status.code()),
    }
}
