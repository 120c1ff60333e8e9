//! That bytes lie at an address for good.

//~ ghost use Rattle.std.specs.Prelude.{◌≡◌, ℕ, ◌^◌, ◌<◌, List, length};
//~ ghost use denote.RawPtr.{Ptr};
//~ ghost use Rattle.string_interner.specs.Lasting.{IsPlaced, lasts, reference_at};

use crate::rt::prelude::*; use crate::rt::marker::{Model, Send, Sync};
use crate::rt::slice;

/// That bytes lie at an address for good. It takes no bytes itself, so that an entry has room for the address of a static
/// text next to its length: a reference would take 16 bytes by itself.
//~ #[derive(Drop)]
pub struct Lasting {
    //~ ghost at: { Ptr },
    //~ ghost bytes: { List ℕ },
    //~ ghost placed: { IsPlaced at × (length bytes < 2 ^ 63) },
}

//~ impl Model for Lasting {
//~     ghost also_owns = { λ l. lasts l.at l.bytes };
//~
//~     ghost also_shares = { λ l _ _. lasts l.at l.bytes };
//~ }

/// Nobody writes to these bytes.
unsafe impl Send for Lasting {}

/// Nobody writes to these bytes.
unsafe impl Sync for Lasting {}

impl Lasting {
    /// Returns the address of static bytes, which lie there for good.
    pub fn of(bytes: &'static [u8]) -> (*const u8, Lasting)
        //~ ensures { (result.1.at ≡ result.0) × (reference_at result.0 result.1.bytes ≡ bytes.entry) }
    {
        (bytes.as_ptr(), Lasting {})
    }

    /// Returns the bytes at this address.
    #[inline(always)]
    pub fn read(&self, at: *const u8, len: usize) -> &'static [u8]
        //~ requires { (at ≡ self.now.at) × (len ≡ length self.now.bytes) }
        //~ ensures { result ≡ reference_at self.now.at self.now.bytes }
    {
        unsafe { slice::from_raw_parts(at, len) }
    }
}
