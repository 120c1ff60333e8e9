//! All texts of an interner of the kind `String`, as it stores them.

//~ ghost use Rattle.handles.specs.Joined.{LendsJoinedIn};

use crate::rt::prelude::*; use super::AnyInterner;
use crate::handles::status::Status;
use crate::handles::text::Joined;

impl AnyInterner {
    /// Returns the joined texts of an interner of the kind `String`, and the end of each.
    pub fn joined<'a>(&'a self) -> Result<Joined<'a>, Status>
        //~ ensures { LendsJoinedIn self.now result }
    {
        match self {
            AnyInterner::String(interner) => {
                let (joined, ends) = interner.backend().as_parts();
                let (ends, long_ends) = ends.as_slices();
                Ok(Joined {
                    bytes: joined.as_bytes(),
                    ends,
                    long_ends,
                })
            }
            _ => Err(Status::BadKind),
        }
    }
}
