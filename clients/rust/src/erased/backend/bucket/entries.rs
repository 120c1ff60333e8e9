//! Where the texts of all entries are stored, in 16 bytes each.

//~ ghost use Rattle.std.specs.Prelude.{◌≡◌, ◌↔◌, ◌+◌, ◌^◌, ◌<◌, ◌≤◌, List, [], ◌∷◌, ◌++◌, length, take, slice_index_or, true, false, IsOk, IsSome, IfOk, IfSome, OnOk, OnErr};
//~ ghost use Rattle.string_interner.specs.BucketEntries.{long_count, HasSpan, Packs};
//~ ghost use Rattle.string_interner.specs.declared.backend.bucket.interned_str.InternedStr.{InternedStr};
//~ ghost use Rattle.string_interner.specs.declared.backend.bucket.interned_str.InternedStr.TheVariants.{InBucket};

use crate::rt::prelude::*; use crate::erased::backend::bucket::fixed_str::Span;
use crate::erased::backend::bucket::interned_str::{InternedStr, Piece};
use crate::erased::backend::bucket::lasting::Lasting;
use crate::erased::backend::reserve::reserve_items;
use crate::rt::alloc::{AllocError, Global};
use crate::rt::marker::{Model, Send, Sync};
use crate::rt::mem::size_of;

/// A text of more bytes is long: its length does not fit the entry.
const LONGEST: usize = u32::MAX as usize;

/// A packed entry. The fields of each kind lie around its tag, so that it takes 16 bytes.
//~ #[derive(Drop)]
enum Packed {
    /// A long text: the index of its entry among the long ones.
    Long(usize),
    /// A static text: its length, and where it lies.
    Reference {
        len: u32,
        at: *const u8,
        lasting: Lasting,
    },
    /// A text in a bucket: the bucket's number, the text's length, and the byte where it begins. It comes last, so that it
    /// is told apart first.
    Copied {
        bucket: u8,
        len: u32,
        from: usize,
    },
}

#[test] fn holds_at_line_39() { assert!(size_of::<Packed>() <= 16); }

/// What a static text's address leads to is only read.
unsafe impl Send for Packed {}

/// What a static text's address leads to is only read.
unsafe impl Sync for Packed {}

impl Packed {
    //~ ghost use Rattle.string_interner.specs.BucketEntries.{unpack, is_long, IsSound};

    /// Packs an entry: `None` exactly if its text is long.
    #[inline]
    fn of(interned: InternedStr) -> Option<Packed>
        //~ requires { HasSpan interned }
        //~ ensures short { IfSome result (λ packed. is_long packed ≡ 0) }
        //~ ensures same { IfSome result (λ packed. (long : List InternedStr)
        //~     → unpack long packed ≡ interned) }
        //~ ensures sound { IfSome result IsSound }
        //~ ensures packs { IsSome result ↔ Packs interned }
    {
        match interned {
            InternedStr::InBucket { bucket, span } => {
                let len = span.to - span.from;
                if is_long(len) {
                    return None;
                }
                Some(Packed::Copied {
                    bucket,
                    len: len as u32,
                    from: span.from,
                })
            }
            InternedStr::Static(text) => {
                if is_long(text.len()) {
                    return None;
                }
                let (at, lasting) = Lasting::of(text);
                Some(Packed::Reference {
                    len: text.len() as u32,
                    at,
                    lasting,
                })
            }
        }
    }
}

/// Reports whether a text of so many bytes is too long for a packed entry.
#[inline]
pub fn is_long(len: usize) -> bool
    //~ ensures short { result ≡ false → len < 2 ^ 32 }
    //~ ensures long { result ≡ true → 2 ^ 32 ≤ len }
{
    len > LONGEST
}

/// The entries, in order.
///
/// An entry takes 16 bytes. The *long* ones, of texts that take 4 GiB or more, do not fit these, and take 24 more in a
/// list of their own.
//~ #[derive(Drop)]
pub struct Entries {
    packed: Vec<Packed>,
    long: Vec<InternedStr>,
}

//~ /// Contracts see the entries unpacked, the spare capacity in entries, and that in long ones.
//~ impl Model for Entries {
//~     ghost use Rattle.std.specs.Prelude.{◌-◌, map, vec_len, vec_capacity};
//~     ghost use Rattle.string_interner.specs.BucketEntries.{EntryList, ArePacked, unpack};
//~
//~     ghost Value = { EntryList };
//~
//~     ghost view = { λ e. record {
//~       items = map (unpack e.long.items) e.packed.items;
//~       spare = vec_capacity e.packed - vec_len e.packed;
//~       long_spare = vec_capacity e.long - vec_len e.long;
//~     } };
//~
//~     ghost invariant = { λ e. ArePacked e.long.items e.packed.items };
//~ }

impl Entries {
    /// Makes an empty list without spare capacity. Allocates nothing.
    pub fn new(alloc: Global) -> Self
        //~ ensures { result ≡ record { items = []; spare = 0; long_spare = 0 } }
    {
        Entries {
            packed: Vec::new(alloc),
            long: Vec::new(alloc),
        }
    }

    /// Makes an empty list with capacity for `capacity` entries, of which `long` may be long.
    ///
    /// Returns `Err` only if an allocation fails or a size does not fit a `usize`.
    pub fn with_capacity(alloc: Global, capacity: usize, long: usize) -> Result<Self, AllocError>
        //~ ensures items { IfOk result (λ entries. entries.items ≡ []) }
        //~ ensures spare { IfOk result (λ entries. capacity ≤ entries.spare) }
        //~ ensures long_spare { IfOk result (λ entries. long ≤ entries.long_spare) }
    {
        Ok(Entries {
            packed: Vec::with_capacity(alloc, capacity)?,
            long: Vec::with_capacity(alloc, long)?,
        })
    }

    /// Returns how many entries there are.
    #[inline]
    pub fn len(&self) -> usize
        //~ ensures { result ≡ length self.now.items }
    {
        self.packed.len()
    }

    /// Returns how many bytes of memory the entries take, with what is spare.
    pub fn memory_used(&self) -> usize {
        let packed = self.packed.capacity().saturating_mul(size_of::<Packed>());
        let long = self
            .long
            .capacity()
            .saturating_mul(size_of::<InternedStr>());
        packed.saturating_add(long)
    }

    /// Returns how many of the entries are long.
    pub fn long_len(&self) -> usize
        //~ ensures { result ≤ length self.now.items }
    {
        self.long.len()
    }

    /// Returns the entry `index`.
    #[inline]
    pub fn get(&self, index: usize) -> InternedStr
        //~ requires { index < length self.now.items }
        //~ ensures { result ≡ slice_index_or self.now.items index result }
    {
        match &self.packed[index] {
            Packed::Copied { bucket, len, from } => InternedStr::InBucket {
                bucket: *bucket,
                span: Span {
                    from: *from,
                    to: *from + *len as usize,
                },
            },
            Packed::Reference { len, at, lasting } => {
                InternedStr::Static(lasting.read(*at, *len as usize))
            }
            Packed::Long(at) => self.long[*at],
        }
    }

    /// Returns the part of a bucket that the entry `index` is. Returns `None` if its text is static or long.
    #[inline(always)]
    pub fn piece(&self, index: usize) -> Option<Piece>
        //~ requires { index < length self.now.items }
        //~ ensures { IfSome result (λ piece. slice_index_or self.now.items index
        //~     (InBucket piece.bucket piece.span) ≡ InBucket piece.bucket piece.span) }
    {
        if let Packed::Copied { bucket, len, from } = &self.packed[index] {
            let span = Span {
                from: *from,
                to: *from + *len as usize,
            };
            return Some(Piece {
                bucket: *bucket,
                span,
            });
        }
        None
    }

    /// Makes room for one more entry, and for one more long one if `is_long`.
    ///
    /// Returns `Err` only if an allocation fails or a size does not fit a `usize`.
    #[inline]
    pub fn reserve(&mut self, is_long: bool) -> Result<(), AllocError>
        //~ ensures items { self.new.items ≡ self.old.items }
        //~ ensures spare { self.old.spare ≤ self.new.spare }
        //~ ensures long_spare { self.old.long_spare ≤ self.new.long_spare }
        //~ ensures ok { OnOk result (0 < self.new.spare) }
        //~ ensures long { OnOk result (is_long ≡ true → 0 < self.new.long_spare) }
        //~ ensures short { is_long ≡ false → self.new.long_spare ≡ self.old.long_spare }
        //~ ensures granted { 0 < self.old.spare → is_long ≡ false → IsOk result }
        //~ ensures granted_long { 0 < self.old.spare → 0 < self.old.long_spare → IsOk result }
    {
        reserve_items(&mut self.packed, 1)?;
        if is_long {
            self.long.reserve(1)?;
        }
        Ok(())
    }

    /// Appends an entry, for which there must be room.
    #[inline]
    pub fn push_reserved(&mut self, interned: InternedStr)
        //~ requires span { HasSpan interned }
        //~ requires spare { 0 < self.old.spare }
        //~ requires long { self.old.long_spare ≡ 0 → Packs interned }
        //~ ensures items { self.new.items ≡ self.old.items ++ interned ∷ [] }
        //~ ensures fits { length self.new.items < 2 ^ 64 }
        //~ ensures spare { self.old.spare ≡ self.new.spare + 1 }
        //~ ensures long_spare { self.old.long_spare ≤ self.new.long_spare + 1 }
        //~ ensures short { Packs interned → self.new.long_spare ≡ self.old.long_spare }
    {
        match Packed::of(interned) {
            Some(packed) => self.packed.push_reserved(packed),
            None => {
                self.packed.push_reserved(Packed::Long(self.long.len()));
                self.long.push_reserved(interned);
            }
        }
    }

    /// Appends an entry. Returns `Err`, and leaves the entries unchanged, only if an allocation fails or a size does not
    /// fit a `usize`.
    #[inline]
    pub fn push(&mut self, interned: InternedStr) -> Result<(), AllocError>
        //~ requires { HasSpan interned }
        //~ ensures items { OnOk result (self.new.items ≡ self.old.items ++ interned ∷ []) }
        //~ ensures fits { OnOk result (length self.new.items < 2 ^ 64) }
        //~ ensures err { OnErr result (self.new.items ≡ self.old.items) }
        //~ ensures spare { self.old.spare ≤ self.new.spare + 1 }
        //~ ensures long_spare { self.old.long_spare ≤ self.new.long_spare + 1 }
        //~ ensures unspent { OnErr result (self.old.spare ≤ self.new.spare) }
        //~ ensures long_unspent { OnErr result (self.old.long_spare ≤ self.new.long_spare) }
        //~ ensures short { Packs interned → self.new.long_spare ≡ self.old.long_spare }
        //~ ensures granted { 0 < self.old.spare → Packs interned → IsOk result }
        //~ ensures granted_long { 0 < self.old.spare → 0 < self.old.long_spare → IsOk result }
    {
        self.reserve(is_long(interned.text_len()))?;
        self.push_reserved(interned);
        Ok(())
    }

    /// Keeps the first `len` entries, and drops the rest. Does nothing if there are at most `len`. Allocates nothing, and
    /// reads each entry that it drops.
    pub fn truncate(&mut self, len: usize)
        //~ ensures items { self.new.items ≡ take len self.old.items }
        //~ ensures same { length self.old.items ≤ len → self.new ≡ self.old }
        //~ ensures spare { self.old.spare ≤ self.new.spare }
        //~ ensures long_spare { self.old.long_spare ≤ self.new.long_spare }
    {
        if len < self.packed.len() {
            let dropped = count_long(&self.packed[len..]);
            self.long.truncate(self.long.len() - dropped);
            self.packed.truncate(len);
        }
    }

    /// Releases spare capacity, if it can. Leaves none if there are no entries.
    pub fn shrink_to_fit(&mut self)
        //~ ensures items { self.new.items ≡ self.old.items }
        //~ ensures spare { self.new.spare ≤ self.old.spare }
        //~ ensures long_spare { self.new.long_spare ≤ self.old.long_spare }
        //~ ensures frees { self.old.items ≡ [] → self.new.spare ≡ 0 }
        //~ ensures frees_long { self.old.items ≡ [] → self.new.long_spare ≡ 0 }
    {
        self.packed.shrink_to_fit();
        self.long.shrink_to_fit();
    }
}

/// Returns how many of the entries are long.
fn count_long(packed: &[Packed]) -> usize
    //~ ensures { result ≡ long_count packed.now }
{
    let mut count = 0;
    for entry in packed {
        if matches!(entry, Packed::Long(_)) {
            count += 1;
        }
    }
    count
}
