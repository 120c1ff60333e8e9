//! How an interner is made.

//~ ghost use Rattle.handles.specs.Options.{ChoosesHasher};

use crate::rt::prelude::*; use crate::handles::hasher::{ChosenHasher, HasherKind};

/// What an interner is made with: `interner_options` of C.
#[derive(Clone, Copy)]
#[repr(C)]
pub struct Options {
    /// The code of its kind.
    pub kind: u32,
    /// The code of its hasher.
    pub hasher: u32,
    /// For how many texts it has spare capacity.
    pub capacity: usize,
    /// The keys of a hasher that has keys.
    pub key0: u64,
    pub key1: u64,
}

impl Options {
    /// Returns the hasher with its keys, if a hasher has this code.
    pub fn choose_hasher(&self) -> Option<ChosenHasher>
        //~ ensures { ChoosesHasher self.now result }
    {
        let kind = HasherKind::from_code(self.hasher)?;
        Some(ChosenHasher::of(kind, self.key0, self.key1))
    }
}
