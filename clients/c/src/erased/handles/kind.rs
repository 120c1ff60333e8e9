//! The kinds of interner: how a handle's interner stores its texts.

//~ ghost use Rattle.handles.specs.Kind.{HasCode};

use crate::rt::prelude::*; use crate::handles::status::Status;

/// How an interner stores its texts.
#[derive(Clone, Copy)]
pub enum Kind {
    /// Joined in one string.
    String,
    /// In blocks that never move.
    Bucket,
    /// In one buffer of bytes, each behind its length.
    Buffer,
}

impl Kind {
    /// Returns the kind that has this code in C, if there is one.
    pub fn from_code(code: u32) -> Result<Kind, Status>
        //~ ensures { HasCode code result }
    {
        match code {
            0 => Ok(Kind::String),
            1 => Ok(Kind::Bucket),
            2 => Ok(Kind::Buffer),
            _ => Err(Status::BadKind),
        }
    }
}
