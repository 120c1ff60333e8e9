//! A ghost counter: contracts see it, no method returns it, and it takes no space.

//~ ghost use Rattle.std.specs.Prelude.{◌≡◌, ℕ, ◌+◌};
//~ ghost use base.Fml.{ftrue};

use crate::rt::prelude::*; use crate::rt::marker::Model;

/// A ghost counter without a greatest value, kept for contracts alone.
//~ #[derive(Drop)]
pub struct Count {
    //~ pub ghost value: { ℕ },
}

//~ impl Model for Count {
//~     ghost also_owns = { λ _. ftrue };
//~ }

impl Count {
    /// Makes a counter at 0.
    #[inline(always)]
    pub fn new() -> Count
        //~ ensures { result.value ≡ 0 }
    {
        Count {}
    }

    /// Adds one.
    #[inline(always)]
    pub fn add_one(&mut self)
        //~ ensures { self.new.value ≡ self.old.value + 1 }
    {}
}
