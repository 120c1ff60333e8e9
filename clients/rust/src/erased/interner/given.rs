//! A text that is handed to an interner.

//~ ghost use Rattle.std.specs.Prelude.{◌≡◌};
//~ ghost use Rattle.string_interner.specs.Backend.{AppendsInto};
//~ ghost use Rattle.string_interner.specs.Given.{given_text};

use crate::rt::prelude::*; use crate::erased::backend::{InternError, Store};

/// A text to intern: one that the backend copies, or a static one, which it may keep by reference.
#[derive(Clone, Copy)]
pub enum Given<'t> {
    Copied(&'t str),
    Static(&'static str),
}

impl<'t> Given<'t> {
    /// Returns the text itself.
    #[inline(always)]
    pub fn text(self) -> &'t str
        //~ ensures { result.now ≡ given_text self.entry }
    {
        match self {
            Given::Copied(text) => text,
            Given::Static(text) => text,
        }
    }

    /// Appends the text to the backend, by `intern` or by `intern_static`.
    #[inline(always)]
    pub fn store_in<B: Store>(self, backend: &mut B) -> Result<B::Symbol, InternError>
        //~ ensures { AppendsInto B.numbering B.texts B.buckets B.room backend.old
        //~     (given_text self.entry) result backend.new }
    {
        match self {
            Given::Copied(text) => backend.intern(text),
            Given::Static(text) => backend.intern_static(text),
        }
    }
}
