//! Reading texts from the buckets, and appending a text to them.

//~ ghost use Rattle.std.specs.Prelude.{◌≡◌, ◌+◌, max, ◌<◌, ◌≤◌, length, IsOk, IfOk, OnOk, OnErr};
//~ ghost use Rattle.std.specs.Int.{IsNextPowerOfTwo};
//~ ghost use Rattle.string_interner.specs.declared.backend.bucket.interned_str.InternedStr.TheVariants.{InBucket};
//~ ghost use Rattle.string_interner.specs.BucketBackend.{AreFew, buckets_of, bucket_at, interned_text, IsEntry, IsLast, IsPiece, Puts};

use crate::rt::prelude::*; use crate::erased::backend::bucket::fixed_str::{FixedString, Span};
use crate::erased::backend::bucket::interned_str::{InternedStr, Piece};
use crate::rt::alloc::{AllocError, Global};
use crate::rt::{mem, str};

/// Returns the text of a bucket by its number: the older buckets come first, then the head.
#[inline]
pub fn bucket_text<'a>(full: &'a [FixedString], head: &'a FixedString, bucket: u8) -> &'a str
    //~ requires { bucket < length (buckets_of full.now head.now) }
    //~ ensures { result.now ≡ (bucket_at (buckets_of full.now head.now) bucket).bytes }
{
    match full.get(usize::from(bucket)) {
        Some(older) => older.as_str(),
        None => head.as_str(),
    }
}

/// Returns the text of a part of a bucket.
#[inline(always)]
pub fn piece_text<'a>(full: &'a [FixedString], head: &'a FixedString, piece: Piece) -> &'a str
    //~ requires { IsPiece (buckets_of full.now head.now) piece }
    //~ ensures { result.now ≡ interned_text (buckets_of full.now head.now)
    //~     (InBucket piece.bucket piece.span) }
{
    let bytes = bucket_text(full, head, piece.bucket);
    unsafe { crate::unchecked::cut_unchecked(bytes, piece.span.from..piece.span.to) }
}

/// Returns the text of an entry.
#[inline]
pub fn interned_text<'a>(
    full: &'a [FixedString],
    head: &'a FixedString,
    interned: InternedStr,
) -> &'a str
    //~ requires { IsEntry (buckets_of full.now head.now) interned }
    //~ ensures { result.now ≡ interned_text (buckets_of full.now head.now) interned }
{
    match interned {
        InternedStr::InBucket { bucket, span } => piece_text(full, head, Piece { bucket, span }),
        // The text is UTF-8, which the contract asks, so it is not tested again.
        InternedStr::Static(text) => unsafe { str::from_utf8_unchecked(text) },
    }
}

/// Makes a new head that holds a text, after a head of capacity `before`, and returns it with the text's span.
///
/// Its capacity in bytes is the least power of two above both `before` and the text's length. Returns `Err` only if an
/// allocation fails or that capacity does not fit a `usize`.
#[cold]
fn new_head(alloc: Global, before: usize, text: &str) -> Result<(FixedString, Span), AllocError>
    //~ ensures bytes { IfOk result (λ made. made.0.bytes ≡ text.now) }
    //~ ensures capacity { IfOk result (λ made. IsNextPowerOfTwo (max before (length text.now) + 1)
    //~     made.0.capacity) }
    //~ ensures span { IfOk result (λ made. made.1 ≡ record { from = 0; to = length text.now }) }
{
    let least = before.max(text.len()).checked_add(1).ok_or(AllocError)?;
    let capacity = least.checked_next_power_of_two().ok_or(AllocError)?;
    let mut head = FixedString::with_capacity(alloc, capacity)?;
    let span = head.push_str(text)?.unwrap();
    Ok((head, span))
}

/// Returns the number of the head, which comes after the older buckets.
#[inline]
//~ #[tactic(auto, using(crate::proofs::Lemmas::BucketBackend::IsTight::few_below))]
fn head_number(full: &[FixedString], head: &FixedString) -> u8
    //~ requires { AreFew full.now head.now }
    //~ ensures value { result ≡ length full.now }
    //~ ensures few { result < 64 }
{
    // For the proof: states that the capacity is a `usize`, so that the buckets before the head are fewer than 64.
    let _ = head.capacity();
    full.len() as u8
}

/// Appends a text to the head if it fits the head's capacity, else to a new head, and returns its entry.
///
/// Allocates before it stores anything, so that nothing changes on `Err`.
#[inline(always)]
//~ #[tactic(auto, using(crate::proofs::Lemmas::BucketBackend::IsTight::few_begins))]
pub fn store(
    full: &mut Vec<FixedString>,
    head: &mut FixedString,
    text: &str,
) -> Result<InternedStr, AllocError>
    //~ requires few { AreFew full.old.items head.old }
    //~ ensures puts { OnOk result (Puts text.now full.old.items head.old full.new.items head.new) }
    //~ ensures last { IfOk result (IsLast text.now full.new.items head.new) }
    //~ ensures few { OnOk result (length full.new.items < 64) }
    //~ ensures err { OnErr result ((full.new.items ≡ full.old.items) × (head.new ≡ head.old)) }
    //~ ensures granted { length head.old.bytes + length text.now ≤ head.old.capacity → IsOk result }
{
    if let Some(span) = head.push_str(text)? {
        let bucket = head_number(full, head);
        return Ok(InternedStr::InBucket { bucket, span });
    }
    full.reserve(1)?;
    let (next, span) = new_head(*full.allocator(), head.capacity(), text)?;
    full.push_reserved(mem::replace(head, next));
    let bucket = head_number(full, head);
    Ok(InternedStr::InBucket { bucket, span })
}
