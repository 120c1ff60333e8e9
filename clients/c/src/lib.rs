//! The library for C by cargo alone. `clients/build --cargo` makes it; `string_interner.h` is its interface.
//!
//! The modules `handles` and `exports` are proved source, of which `tools/erase` made plain Rust. So is the library itself, which is a
//! part of the crate for Rust (`erased`).
//!
//! Written by hand are a handle and its address (`handle`, `address`), what C passes (`border`), memory (`memory`), and what stands
//! for the prover's standard library (`rt`, of which the crate for Rust has most). They are tested, and not proved.

#![no_std]
#![warn(unsafe_op_in_unsafe_fn, clippy::undocumented_unsafe_blocks)]

extern crate alloc;

mod address;
mod border;
mod handle;
mod memory;
mod rt;

use string_interner::__parts::{erased, unchecked};

// The linter and the compiler warn of what the source's language asks for.
macro_rules! erased {
    ($($path:literal $name:ident)*) => {$(
        #[allow(clippy::all, clippy::undocumented_unsafe_blocks, dead_code, improper_ctypes_definitions, unstable_name_collisions, unused)]
        #[rustfmt::skip]
        #[path = $path]
        mod $name;
    )*};
}
erased! {
    "erased/exports/mod.rs" exports
    "erased/handles/mod.rs" handles
}
