//! Copying the texts of all buckets into one.

//~ ghost use Rattle.std.specs.Prelude.{◌≡◌, ◌+◌, ◌^◌, ◌<◌, ◌≤◌, ◌↔◌, length, map, sum_by, All, IsSome, IfOk, IfSome, OnOk};
//~ ghost use Rattle.std.specs.Str.{IsUtf8};
//~ ghost use Rattle.string_interner.specs.BucketBackend.{buckets_of, byte_count, interned_text, interned_len, IsPart, IsEntry, IsPiece, after_piece, PushesCopy, AreCopies};

use crate::rt::prelude::*; use crate::erased::backend::bucket::buckets::{bucket_text, piece_text};
use crate::erased::backend::bucket::entries::Entries;
use crate::erased::backend::bucket::fixed_str::{FixedString, Span};
use crate::erased::backend::bucket::interned_str::{InternedStr, Piece};
use crate::rt::alloc::{AllocError, Global};

/// Returns the capacity of a head that holds the bytes of all buckets and keeps this head's spare bytes: `None` exactly
/// if it does not fit a `usize`.
pub fn joint_capacity(full: &[FixedString], head: &FixedString) -> Option<usize>
    //~ ensures value { IfSome result (λ capacity. capacity ≡ head.now.capacity + byte_count full.now) }
    //~ ensures fits { IsSome result ↔ (head.now.capacity + byte_count full.now < 2 ^ 64) }
{
    let mut capacity = head.capacity();
    for bucket in full {
        capacity = capacity.checked_add(bucket.len())?;
    }
    Some(capacity)
}

/// Appends the texts of a piece to `bucket`: adjacent ones, which are copied together.
fn copy_piece(
    piece: Piece,
    full: &[FixedString],
    head: &FixedString,
    bucket: &mut FixedString,
) -> Result<(), AllocError>
    //~ requires piece { IsPiece (buckets_of full.now head.now) piece }
    //~ requires room { length (after_piece (buckets_of full.now head.now) piece bucket.old).bytes
    //~     ≤ bucket.old.capacity }
    //~ ensures { OnOk result (bucket.new
    //~     ≡ after_piece (buckets_of full.now head.now) piece bucket.old) }
{
    let _ = bucket.push_str(piece_text(full, head, piece))?;
    Ok(())
}

/// Makes the piece end where this text begins. If it ends elsewhere, copies it to `bucket`, and begins an empty one there.
#[inline]
fn lead_to(
    number: u8,
    from: usize,
    full: &[FixedString],
    head: &FixedString,
    bucket: &mut FixedString,
    piece: &mut Piece,
) -> Result<(), AllocError>
    //~ requires there { IsPart (buckets_of full.now head.now) number from from }
    //~ requires piece { IsPiece (buckets_of full.now head.now) piece.old }
    //~ requires room { length (after_piece (buckets_of full.now head.now) piece.old bucket.old).bytes
    //~     ≤ bucket.old.capacity }
    //~ ensures same { OnOk result (after_piece (buckets_of full.now head.now) piece.new bucket.new
    //~     ≡ after_piece (buckets_of full.now head.now) piece.old bucket.old) }
    //~ ensures piece { OnOk result (IsPiece (buckets_of full.now head.now) piece.new) }
    //~ ensures ends { OnOk result ((piece.new.bucket ≡ number) × (piece.new.span.to ≡ from)) }
{
    if piece.bucket != number || piece.span.to != from {
        copy_piece(*piece, full, head, bucket)?;
        *piece = Piece {
            bucket: number,
            span: Span { from, to: from },
        };
    }
    Ok(())
}

/// Pushes the copy of an entry. A text in a bucket joins the piece, so it comes next in `bucket`. A static text stays
/// a reference.
#[inline]
fn push_copy(
    copies: &mut Entries,
    interned: InternedStr,
    full: &[FixedString],
    head: &FixedString,
    bucket: &mut FixedString,
    piece: &mut Piece,
) -> Result<(), AllocError>
    //~ requires entry { IsEntry (buckets_of full.now head.now) interned }
    //~ requires piece { IsPiece (buckets_of full.now head.now) piece.old }
    //~ requires room { length (after_piece (buckets_of full.now head.now) piece.old bucket.old).bytes
    //~     + interned_len interned ≤ bucket.old.capacity }
    //~ ensures pushes { OnOk result (PushesCopy (buckets_of full.now head.now) interned
    //~     (after_piece (buckets_of full.now head.now) piece.old bucket.old)
    //~     (after_piece (buckets_of full.now head.now) piece.new bucket.new)
    //~     copies.old.items copies.new.items) }
    //~ ensures piece { OnOk result (IsPiece (buckets_of full.now head.now) piece.new) }
{
    let InternedStr::InBucket {
        bucket: number,
        span,
    } = interned
    else {
        copies.push(interned)?;
        return Ok(());
    };
    lead_to(number, span.from, full, head, bucket, piece)?;
    // For the proof: states that the capacity is a `usize`.
    let _ = bucket.capacity();
    let from = bucket.len() + (piece.span.to - piece.span.from);
    let to = from + (span.to - span.from);
    piece.span.to = span.to;
    let span = Span { from, to };
    copies.push(InternedStr::InBucket { bucket: 0, span })?;
    Ok(())
}

/// Copies the entries, and appends the texts of all buckets to a new one of this capacity.
///
/// Adjacent texts of a bucket are copied at once.
pub fn copies_of(
    alloc: Global,
    entries: &Entries,
    full: &[FixedString],
    head: &FixedString,
    capacity: usize,
) -> Result<(Entries, FixedString), AllocError>
    //~ requires entries { All (IsEntry (buckets_of full.now head.now)) entries.now.items }
    //~ requires utf8 { All IsUtf8
    //~     (map (interned_text (buckets_of full.now head.now)) entries.now.items) }
    //~ requires room { sum_by interned_len entries.now.items ≤ capacity }
    //~ ensures capacity { IfOk result (λ made. made.1.capacity ≡ capacity) }
    //~ ensures copies { IfOk result (λ made. AreCopies (buckets_of full.now head.now) entries.now.items
    //~     made.0.items made.1) }
{
    let mut copies = Entries::with_capacity(alloc, entries.len(), entries.long_len())?;
    let mut bucket = FixedString::with_capacity(alloc, capacity)?;
    // For the proof: states that the first bucket is a text, so that one can begin at its first byte.
    let _ = bucket_text(full, head, 0);
    let span = Span { from: 0, to: 0 };
    let mut piece = Piece { bucket: 0, span };
    for index in 0..entries.len() {
        let interned = entries.get(index);
        push_copy(&mut copies, interned, full, head, &mut bucket, &mut piece)?;
    }
    copy_piece(piece, full, head, &mut bucket)?;
    Ok((copies, bucket))
}
