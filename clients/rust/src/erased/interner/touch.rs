//! Looking for texts before they are interned one by one.

//~ ghost use Rattle.std.specs.Prelude.{◌≤◌, length, min};

use crate::rt::prelude::*; use super::StringInterner;
use super::look_ahead::{BLOCK_LEN, look_for};
use crate::erased::backend::Store;
use crate::erased::dedup::TextIndex;
use crate::erased::hash::TextHasher;

impl<B: Store, H: TextHasher, I: TextIndex<B::Symbol>> StringInterner<B, H, I> {
    /// Looks for the first 32 texts of a list together, so that they wait for memory at the same time: to look for one of them soon
    /// after takes less time, if there are a hundred thousand texts or more. Returns behind how many texts of the list the next call is
    /// worth its time.
    #[inline(never)]
    pub fn touch(&self, texts: &[&str]) -> usize
        //~ ensures { min (length texts.now) 32 ≤ result }
    {
        let mut codes = [0; BLOCK_LEN];
        let mut known = [None; BLOCK_LEN];
        let count = texts.len().min(BLOCK_LEN);
        let alone = look_for(
            &self.backend,
            &self.hasher,
            &self.index,
            &texts[..count],
            &mut codes[..count],
            &mut known[..count],
        );
        count.saturating_add(alone)
    }
}
