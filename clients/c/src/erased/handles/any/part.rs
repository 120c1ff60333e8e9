//! A part of a text that is interned.

//~ ghost use Rattle.handles.specs.Part.{InternsPart};

use crate::rt::prelude::*; use super::AnyInterner;
use crate::handles::status::Status;
use crate::handles::text::text_of;
use crate::rt::alloc::Global;

impl AnyInterner {
    /// Returns the symbol of a part of the text at a symbol: the bytes between two offsets. Appends a new part.
    ///
    /// The part is copied first, because its bytes may move if the interner grows.
    pub fn get_or_intern_part(
        &mut self,
        alloc: Global,
        symbol: u32,
        from: usize,
        to: usize,
    ) -> Result<u32, Status>
        //~ ensures { InternsPart symbol from to self.old result self.new }
    {
        let Some(text) = self.resolve(symbol) else {
            return Err(Status::Nothing);
        };
        let Some(part) = text.as_bytes().get(from..to) else {
            return Err(Status::BadEnds);
        };
        let Ok(copy) = part.try_to_vec(alloc) else {
            return Err(Status::NoMemory);
        };
        let part = text_of(&copy)?;
        Ok(self.get_or_intern(part)?)
    }
}
