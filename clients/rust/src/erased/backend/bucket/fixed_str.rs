//! A string that never grows beyond the capacity that was requested for it.

//~ ghost use Rattle.std.specs.Prelude.{◌≡◌, ◌+◌, ◌<◌, ◌≤◌, [], ◌++◌, length, IfOk, None, Ok};

use crate::rt::prelude::*; use crate::rt::alloc::{AllocError, Global};
use crate::rt::marker::Model;

/// A byte range of a bucket: `from` is included, `to` is not.
#[derive(Clone, Copy)]
pub struct Span {
    pub from: usize,
    pub to: usize,
}

/// A bucket: an append-only string of fixed capacity. Its bytes are never changed or moved.
//~ #[derive(Drop)]
pub struct FixedString {
    contents: String,
    capacity: usize,
}

//~ /// Contracts see the requested capacity and the bytes. The `String` may have been granted more.
//~ impl Model for FixedString {
//~     ghost use Rattle.std.specs.Prelude.{◌≤◌};
//~     ghost use Rattle.std.specs.String.{string_bytes, string_len, string_capacity};
//~     ghost use Rattle.string_interner.specs.Backend.{Bucket};
//~
//~     ghost Value = { Bucket };
//~
//~     ghost view = { λ s. record { capacity = s.capacity; bytes = string_bytes s.contents } };
//~
//~     ghost invariant = { λ s. record {
//~       within : string_len s.contents ≤ s.capacity;
//~       reserved : s.capacity ≤ string_capacity s.contents;
//~     } };
//~ }

impl FixedString {
    /// Makes an empty bucket of capacity 0. Allocates nothing.
    pub fn new(alloc: Global) -> Self
        //~ ensures { result ≡ record { capacity = 0; bytes = [] } }
    {
        FixedString {
            contents: String::new(alloc),
            capacity: 0,
        }
    }

    /// Makes an empty bucket of `capacity` bytes. Returns `Err` only if an allocation fails.
    pub fn with_capacity(alloc: Global, capacity: usize) -> Result<Self, AllocError>
        //~ ensures { IfOk result (λ bucket. bucket ≡ record { capacity = capacity; bytes = [] }) }
    {
        let contents = String::with_capacity(alloc, capacity)?;
        Ok(FixedString { contents, capacity })
    }

    /// Returns the requested capacity in bytes.
    pub fn capacity(&self) -> usize
        //~ ensures value { result ≡ self.now.capacity }
        //~ ensures within { length self.now.bytes ≤ result }
    {
        // Opens the value for the proof, which needs what holds of it.
        let _ = &self.contents;
        self.capacity
    }

    /// Returns how many bytes of memory the bucket takes: those that were granted.
    pub fn memory_used(&self) -> usize
        //~ ensures { self.now.capacity ≤ result }
    {
        self.contents.capacity()
    }

    /// Returns the length of the bucket's text in bytes.
    pub fn len(&self) -> usize
        //~ ensures value { result ≡ length self.now.bytes }
        //~ ensures within { result ≤ self.now.capacity }
    {
        self.contents.len()
    }

    /// Returns the bucket's text.
    #[inline]
    pub fn as_str(&self) -> &str
        //~ ensures { result.now ≡ self.now.bytes }
    {
        self.contents.as_str()
    }

    /// Appends a text and returns its span. Returns `None`, and changes nothing, exactly if the capacity is too small.
    ///
    /// Never returns `Err`, since the capacity was reserved when the bucket was made.
    #[inline]
    pub fn push_str(&mut self, text: &str) -> Result<Option<Span>, AllocError>
        //~ ensures too_long { self.old.capacity < length self.old.bytes + length text.now
        //~     → (result ≡ Ok None) × (self.new ≡ self.old) }
        //~ ensures fits { length self.old.bytes + length text.now ≤ self.old.capacity
        //~     → (result ≡ Ok (Some (record {
        //~       from = length self.old.bytes;
        //~       to = length self.old.bytes + length text.now;
        //~     })))
        //~     × (self.new ≡ record self.old { bytes = self.old.bytes ++ text.now }) }
    {
        let from = self.contents.len();
        if self.capacity - from < text.len() {
            return Ok(None);
        }
        self.contents.push_str(text)?;
        let to = from + text.len();
        Ok(Some(Span { from, to }))
    }
}
