//! Errors that end the program.

//~ ghost use Rattle.std.specs.Prelude.{◌≡◌};
//~ ghost use Rattle.intern.specs.Fault.{status_of};

//~ use thiserror::Error;

use crate::rt::prelude::*; /// Why the program failed. It is displayed as the message for standard error.
#[derive(Debug)]
pub enum Fault {
    /// The arguments are not one word that names a backend.
    //~ #[error("usage: intern string|bucket|buffer")]
    Usage,
    /// Reading failed, or the input is not UTF-8.
    //~ #[error("cannot read input")]
    Input,
    /// The line with this number (1-based) is the first that states no command.
    //~ #[error("bad line {0}")]
    BadLine(usize),
    /// An allocation failed, for the input, the commands or the replies.
    //~ #[error("out of memory")]
    Memory,
    /// Writing failed.
    //~ #[error("cannot write output")]
    Output,
} impl ::core::error::Error for Fault {} impl ::core::fmt::Display for Fault { fn fmt(&self, f: &mut ::core::fmt::Formatter<'_>) -> ::core::fmt::Result { match self { Self::Usage { .. } => f.write_str("usage: intern string|bucket|buffer"), Self::Input { .. } => f.write_str("cannot read input"), Self::BadLine(it) => ::core::write!(f, "bad line {0}", it), Self::Memory { .. } => f.write_str("out of memory"), Self::Output { .. } => f.write_str("cannot write output"), } } }

impl Fault {
    /// Returns the exit status: 2 if the arguments or lines are wrong, 1 if the system failed.
    pub fn status(&self) -> u8
        //~ ensures { result ≡ status_of self.now }
    {
        match self {
            Fault::Usage | Fault::BadLine(_) => 2,
            Fault::Input | Fault::Memory | Fault::Output => 1,
        }
    }
}
