//! Rattle's std as the programs use it: what the crate for Rust has of it, and of JSON, and what a process has. Requests for memory
//! are the same as there, because tests know them.

pub mod env;
pub mod fs;
pub mod host;
pub mod io;
mod signals;

pub use core::num;
pub use string_interner::__parts::rt::*;
pub(crate) use {rattle_eprintln as eprintln, rattle_format as format, rattle_vec as vec};

/// What each module of Rattle has without an import.
pub mod prelude {
    pub use super::host::HostRuntime;
    pub use super::Dedup;
    pub use string_interner::__parts::rt::prelude::*;
}

/// What a list has in Rattle's std, and the crate for Rust does not need.
pub trait Dedup {
    /// Keeps the first of equal items that stand side by side.
    fn dedup(&mut self);
}

impl<T: Copy + PartialEq> Dedup for vec::Vec<T> {
    fn dedup(&mut self) {
        let mut kept = 0;
        for at in 0..self.len() {
            if kept == 0 || self[kept - 1] != self[at] {
                self[kept] = self[at];
                kept += 1;
            }
        }
        self.truncate(kept);
    }
}

pub mod os {
    pub use std::os::fd;

    pub mod unix {
        pub mod fs {
            pub use super::super::super::fs::{fchown, FileExt, MetadataExt, OpenOptionsExt};
        }
    }
}

pub mod process {
    /// The status of the process.
    #[derive(Clone, Copy)]
    pub struct ExitCode(pub(super) u8);

    impl ExitCode {
        pub const SUCCESS: Self = ExitCode(0);
    }

    impl From<u8> for ExitCode {
        fn from(status: u8) -> Self {
            ExitCode(status)
        }
    }
}

pub mod random {
    use super::io::Result;

    /// What gives random bytes.
    pub trait RandomSource {
        /// Fills a part of memory with random bytes.
        fn fill_bytes(&self, bytes: &mut [u8]) -> Result<()>;
    }
}

macro_rules! rattle_eprintln {
    ($rt:expr; $($text:tt)*) => {
        $crate::rt::io::print($rt.stderr(), format_args!("{}\n", format_args!($($text)*)))
    };
}

macro_rules! rattle_format {
    (in $alloc:expr; $($text:tt)*) => {
        $crate::rt::string::String::of($alloc, format_args!($($text)*))
    };
}

macro_rules! rattle_vec {
    (in $alloc:expr; $item:expr; $count:expr) => {
        $crate::rt::vec::Vec::from_elem($alloc, $item, $count)
    };
}

pub(crate) use {rattle_eprintln, rattle_format, rattle_vec};
