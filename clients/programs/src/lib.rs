//! The programs `intern` and `dictcol` by cargo alone.
//!
//! The modules `string_column`, `intern` and `dictcol` are proved source, of which `tools/erase` made plain Rust. So is the library
//! itself, which is a part of the crate for Rust (`erased`).
//!
//! Written by hand are the stand-ins for the prover's libraries: its standard library, JSON and `memchr` (`rt`, of which the crate
//! for Rust has most), and short calls (`itoa`, `simdutf8`). They are tested, and not proved.

#![warn(unsafe_op_in_unsafe_fn, clippy::undocumented_unsafe_blocks)]
// The stand-ins have the names of what they stand for.
#![allow(clippy::new_without_default, clippy::should_implement_trait)]

#[cfg(not(all(target_os = "linux", target_pointer_width = "64")))]
compile_error!("the programs need Linux on a machine whose `usize` has 64 bits");

extern crate alloc;

pub mod itoa;
pub mod rt;
pub mod simdutf8;

pub use rt::{memchr, tokens};
use string_interner::__parts::erased;

// The linter and the compiler warn of what the source's language asks for.
macro_rules! erased {
    ($($path:literal $name:ident)*) => {$(
        #[allow(clippy::all, clippy::undocumented_unsafe_blocks, dead_code, unstable_name_collisions, unused)]
        #[rustfmt::skip]
        #[path = $path]
        pub mod $name;
    )*};
}
erased! {
    "erased/string_column/mod.rs" string_column
    "erased/intern/mod.rs" intern
    "erased/dictcol/mod.rs" dictcol
}
