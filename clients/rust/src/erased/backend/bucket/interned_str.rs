//! Where the text of an entry is stored.

//~ ghost use Rattle.std.specs.Prelude.{◌≡◌};

use crate::rt::prelude::*; use crate::erased::backend::bucket::fixed_str::Span;

/// A byte range of a bucket, by the bucket's number.
#[derive(Clone, Copy)]
pub struct Piece {
    pub bucket: u8,
    pub span: Span,
}

/// Where the text of an entry is stored: in a bucket, or, if it is static, outside all buckets.
#[derive(Clone, Copy)]
pub enum InternedStr {
    /// In a bucket, by its number and a byte range: older buckets count from 0, and the head comes after them. There are
    /// at most 64 buckets, since the capacity of each new head is a power of two above the one before.
    InBucket { bucket: u8, span: Span },
    /// A static text, by a reference to its bytes: it is not copied.
    Static(&'static [u8]),
}

impl InternedStr {
    //~ ghost use Rattle.string_interner.specs.BucketEntries.{text_len};

    /// Returns how many bytes the text has.
    pub fn text_len(self) -> usize
        //~ ensures { result ≡ text_len self }
    {
        match self {
            InternedStr::InBucket { span, .. } => span.to.saturating_sub(span.from),
            InternedStr::Static(text) => text.len(),
        }
    }
}
