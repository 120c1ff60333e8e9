//! Interning the texts of an iterator.

//~ ghost use Rattle.string_interner.specs.Extend.{Extends, Collects, IsFinite, YieldedBy};

use crate::rt::prelude::*; use super::StringInterner;
use crate::erased::backend::{Backend, InternError, Store};
use crate::erased::dedup::TextIndex;
use crate::erased::hash::TextHasher;
use crate::rt::alloc::Global;

impl<B: Store, H: TextHasher, I: TextIndex<B::Symbol>> StringInterner<B, H, I> {
    /// Interns the texts of a finite iterator in order. Stops at the first that fails, as `get_or_intern` does.
    ///
    /// - On `Err` the texts before the failed one stay, and the iterator is not advanced past it.
    /// - It does not fail for memory if all new texts fit the spare capacity.
    /// - If all texts are known, nothing changes.
    /// - The slots grow only as far as the texts need. Before a failed allocation they may have doubled once more.
    ///
    /// For many texts in a large interner `intern_slice` is faster.
    pub fn extend<'t, T: IntoIterator<Item = &'t str>>(
        &mut self,
        iter: T,
    ) -> Result<(), InternError>
        //~ requires { IsFinite T.IntoIterator T.IntoIter.Iterator iter }
        //~ ensures { Extends B.numbering I.rule (YieldedBy T.IntoIterator T.IntoIter.Iterator iter)
        //~     self.old result self.new }
    {
        // For the proof: states the load factor before the first text.
        let _ = self.len();
        for text in iter {
            self.get_or_intern(text)?;
            let _ = self.len();
        }
        Ok(())
    }
}

impl<
    B: Backend + Drop,
    H: TextHasher + Default + Drop,
    I: TextIndex<B::Symbol> + Drop,
> StringInterner<B, H, I> {
    /// Makes an interner from the texts of a finite iterator, under the hasher's default: `new`, and then `extend`. It
    /// has the least slot count for its texts.
    ///
    /// Fails as `extend` does. No interner is then made.
    pub fn from_iter<'t, T: IntoIterator<Item = &'t str>>(
        alloc: Global,
        iter: T,
    ) -> Result<Self, InternError>
        //~ requires { IsFinite T.IntoIterator T.IntoIter.Iterator iter }
        //~ ensures { Collects B.numbering I.rule (YieldedBy T.IntoIterator T.IntoIter.Iterator iter)
        //~     result }
    {
        let mut interner = StringInterner::new(alloc);
        interner.extend(iter)?;
        Ok(interner)
    }
}
