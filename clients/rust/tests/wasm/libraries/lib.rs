//! Nothing but what it stands on.

#![no_std]

extern crate alloc;
