//! The file that `encode` writes and `decode` reads.

use crate::rt::prelude::*; pub mod escapes;
pub mod file;
pub mod format;
pub mod quoted;
pub mod stream;
