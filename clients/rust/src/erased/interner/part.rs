//! A part of a text that is interned.

//~ ghost use Rattle.string_interner.specs.Part.{InternsPart};

use crate::rt::prelude::*; use super::StringInterner;
use super::given::Given;
use super::new_text::intern_coded;
use crate::erased::backend::{InternError, Store};
use crate::erased::dedup::TextIndex;
use crate::erased::hash::TextHasher;
use crate::rt::alloc::Global;

impl<B: Store, H: TextHasher, I: TextIndex<B::Symbol>> StringInterner<B, H, I> {
    /// Returns the symbol of a part of the text at a symbol: the bytes from `start` to before `end`, or to its end. A new part is
    /// appended, as `get_or_intern` does. Returns `Ok(None)` if no text is read at the symbol, or that is no part of it.
    ///
    /// A new part is copied first, because its bytes may move if the backend grows: `Memory` also if that fails. A known part
    /// allocates nothing.
    ///
    /// ```ignore
    /// let path = paths.get_or_intern("bin/cargo")?;
    /// let folder = paths.get_or_intern_part(alloc, path, 0, Some(3))?; // the symbol of "bin"
    /// ```
    #[inline(always)]
    pub fn get_or_intern_part(
        &mut self,
        alloc: Global,
        symbol: B::Symbol,
        start: usize,
        end: Option<usize>,
    ) -> Result<Option<B::Symbol>, InternError>
        //~ ensures { InternsPart B.numbering I.rule self.old symbol start end result self.new }
    {
        let Some(text) = self.backend.resolve(symbol) else {
            return Ok(None);
        };
        let end = end.unwrap_or(text.len());
        let Some(part) = text.get(start..end) else {
            return Ok(None);
        };
        let code = self.hasher.hash_text(part);
        if let Some(known) = self.index.find(code, &self.backend, part) {
            return Ok(Some(known));
        }
        let copy = String::from_str(alloc, part)?;
        let given = Given::Copied(copy.as_str());
        let symbol = intern_coded(
            &mut self.backend,
            &self.hasher,
            &mut self.index,
            given,
            code,
            None,
        )?;
        Ok(Some(symbol))
    }
}
