//! Addresses of handles, which C stores.

use crate::handle::Handle;
use crate::rt::alloc::Global;
use crate::rt::prelude::Box;

/// Where a call writes the address of a handle that it makes: what `interner **` points to in C. Before the call it may hold
/// anything.
#[repr(transparent)]
pub struct Slot {
    at: *mut Handle,
}

impl Slot {
    /// Makes a slot that holds the address of a handle.
    pub fn of(handle: Box<Handle>) -> Slot {
        Slot {
            at: handle.into_raw(),
        }
    }
}

/// The address of a handle that C gives back, or null: `interner *` of C.
#[repr(transparent)]
pub struct Returned {
    at: *mut Handle,
}

impl Drop for Returned {
    fn drop(&mut self) {
        if !self.at.is_null() {
            // SAFETY: by the first rule of the header a call wrote this address, of a box, and it was not given back before.
            drop(unsafe { Box::from_raw(Global, self.at) });
        }
    }
}
