//! All that is unsafe of what one thread does, but for calls of `resolve_unchecked` (`backend.rs`), the block of a table's words
//! (`rt/words.rs`) and what is in proved source: looking a text up in the tagged table without checks of bounds, cutting texts out of
//! a joined one and out of buckets, telling the compiler that a text has an address, appending a short text without a call, asking for
//! memory ahead, making room, counting, comparing sixteen bytes at once, and taking bytes for a text.
//!
//! # Looking up
//!
//! The proof of the table assumes that a program's own symbols, hashers and backends keep their contracts. Memory must not depend on
//! that. So the eraser takes a check out of these functions of proved code alone, and what they rest on holds whatever such types do:
//!
//! - `item_with` and `lanes_with`, which read slots and tags in a look-up;
//! - `piece_text`, which cuts a text out of a bucket;
//! - `text_at` and `narrow_text`, and in the library for C `text_by_narrow_ends` and `string_entries`, which cut one out of the joined
//!   texts.
//!
//! Whatever writes a slot, or moves one, checks.
//!
//! Of `TaggedSlots`, whose fields only `erased/dedup/tagged.rs` writes:
//!
//! - **A**: `count` is 0 or a power of two from 8 on, and never changes.
//! - **B**: `tags` has `count + 16` elements if `count` is not 0, and none else.
//! - **C**: `tags[count..]` are 0.
//! - **D**: `items` has no element or `count` of them, and `count` if any tag is not 0.
//!
//! Of the table over it, `erased/dedup/table.rs`:
//!
//! - **E**: no look-up begins while `count` is 0: `entry`, `symbol_of` and `guess` test that.
//! - **F**: `put` begins with a checked read of the home, and alone calls `put_behind`: neither passes tags if there are none.
//!
//! | Index | Is |
//! |---|---|
//! | of `tags`, sixteen from it on | a home, which is a code masked by `count - 1`; the slot after one, or 0; so at most `count` (B) |
//! | of `tags`, where a pass ended | at most `count`, because a 0 is there at the latest (C) |
//! | of `items` | one whose tag is that which was looked for, and so not 0; so below `count` (C), and `items` is filled (D) |
//!
//! Neither a load factor nor distinct texts nor honest codes are needed, and no number of a symbol is an index here: the checks of
//! lists whose index a symbol's number is stay.
//!
//! A panic of what a program wrote may leave the table at these calls, before which A to D hold:
//!
//! | Call of a program's own | Made by | What is half done |
//! |---|---|---|
//! | `Backend::resolve_unchecked` | a look, in `entry` and `find` | nothing |
//! | `Symbol::try_from_usize`, `to_usize` | the backend, in `is_full`, `intern` and each look | nothing |
//! | `Symbol::try_from_usize`, `to_usize`, `Backend::resolve` | `intern_slice`, which looks ahead | nothing |
//! | `Backend::intern`, `intern_static` | `intern_coded`, before `insert_at` | there is room for one more slot; all slots are in the table |
//! | `Hasher`, `Backend::resolve_unchecked` | `rehash` above 2^32 slots | the new slots, which are dropped |
//! | `Hasher`, `Symbol::try_from_usize`, `to_usize` | `truncate` over a backend of this crate, which empties slots of texts that go, or empties all and fills them anew | some texts have no slot; the table counts at least as many as have one |
//! | `Backend::iter`, `Drop` of a backend | `truncate` over another backend, which replaces it first | nothing: the new backend has an index of its texts |
//!
//! Symbols are copied by their bits (`SymbolAdapter`), so no `Clone` runs while `items` is filled or copied. `try_copy` copies a list whole or
//! fails.
//!
//! # Cutting texts
//!
//! - **G**: the ends of a `StringBackend` rise. Each is the length that the joined text had when a whole text was appended, and no later
//!   call lets the joined text end before the last of them: so says the contract of `as_parts`, whose source is proved.
//! - **H**: an entry of a `BucketBackend` that names a bucket has the place there of a whole text, or in a clone that is being made, of
//!   texts that follow each other. `store` put them there. No call changes or drops bytes of a bucket, or gives it another number, and
//!   the entries of a clone are of its own bucket: so says the invariant `IsInBuckets`, whose source is proved.
//!
//! Both hold whatever a program's own symbols, hashers and backends do, since none of their code runs between a change of the bytes and
//! that of ends or entries, and the proved backends number texts by symbols of the library. What such a type returns is the number of
//! a text at most: that is checked before its ends or its entry are read. What then says where to cut is no number that it returned.
//! `string_entries` reads ends without that check: it tests that there are as many before its loop.
//!
//! # Addresses
//!
//! `find_bucketed` tells the compiler that a reference is not null. None is.
//!
//! # Asking for memory
//!
//! `ask_for` tells the processor an address, and reads nothing there. A search asks before it has read a tag, so the slot may be empty.
//!
//! # Appending, and room for it
//!
//! `append` tests for itself that there is room, and `with_room` that memory was granted. They rest on nothing else.
//!
//! # Counting
//!
//! `Parts` counts the texts that it yields. While ends of four bytes are left, so many are fewer than there were in all.
//!
//! # Bytes as a text
//!
//! `short_text` tests that all are ASCII. `String::from_utf8_unchecked` is for the programs, which test before.
//!
//! # Vectors
//!
//! `lanes` rests on the target, which has the vectors, and on arrays of sixteen bytes.

#![allow(unsafe_code)]

use crate::erased::backend::string::ends::span;
use crate::erased::backend::{Backend as _, BucketBackend, Store as _, StringBackend};
use alloc::alloc::{alloc, Layout};
use alloc::string::String;
use alloc::vec::Vec;
use core::hint::assert_unchecked;
use core::ops::Range;
use core::slice;

/// Returns a part of a text without a check. With `--cfg string_interner_checks` there is one.
///
/// # Safety
///
/// The part begins and ends with a character, or with the text.
#[inline(always)]
pub unsafe fn cut_unchecked(text: &str, part: Range<usize>) -> &str {
    debug_assert!(text.get(part.clone()).is_some());
    if cfg!(string_interner_checks) {
        return &text[part];
    }
    // SAFETY: the caller promises that both ends lie within the text, in this order, where characters begin.
    unsafe { text.get_unchecked(part) }
}

/// Access without a check. With `--cfg string_interner_checks` there is one.
pub trait Unchecked<T> {
    /// Returns an element.
    ///
    /// # Safety
    ///
    /// There are more than `place`.
    unsafe fn at_unchecked(&self, place: usize) -> &T;

    /// Returns sixteen elements from a place on.
    ///
    /// # Safety
    ///
    /// There are sixteen.
    unsafe fn sixteen_unchecked(&self, place: usize) -> &[T; 16];
}

impl<T> Unchecked<T> for [T] {
    #[inline(always)]
    unsafe fn at_unchecked(&self, place: usize) -> &T {
        debug_assert!(place < self.len());
        if cfg!(string_interner_checks) {
            return &self[place];
        }
        // SAFETY: the caller promises that the place is within.
        unsafe { self.get_unchecked(place) }
    }

    #[inline(always)]
    unsafe fn sixteen_unchecked(&self, place: usize) -> &[T; 16] {
        debug_assert!(place <= self.len() && self.len() - place >= 16);
        if cfg!(string_interner_checks) {
            return self[place..].first_chunk().expect("sixteen");
        }
        // SAFETY: the caller promises that so many elements are there, and an array is laid out as they are.
        unsafe { &*self.as_ptr().add(place).cast() }
    }
}

/// Makes an empty list with room for so many items, by fewer instructions than `try_reserve_exact`, which has to grow a list, too.
/// `None` only if the memory is refused, or its size is too large.
#[inline]
pub fn with_room<T>(count: usize) -> Option<Vec<T>> {
    let layout = Layout::array::<T>(count).ok()?;
    if layout.size() == 0 {
        return Some(Vec::new());
    }
    // SAFETY: the layout has a size.
    let block = unsafe { alloc(layout) };
    // SAFETY: the block is of the allocator of lists, and has the layout of so many items, none of which is there.
    (!block.is_null()).then(|| unsafe { Vec::from_raw_parts(block.cast(), 0, count) })
}

/// Appends a text. Most texts are short, and a call that copies so few bytes takes longer than the copy.
#[inline(always)]
pub fn append(text: &mut String, more: &str) {
    let has_room = more.len() <= text.capacity() - text.len() && !cfg!(string_interner_checks);
    match more.len() {
        // SAFETY: there is room, and there are so many bytes.
        8..=16 if has_room => unsafe { append_ends::<8>(text, more) },
        // SAFETY: as above.
        4..=7 if has_room => unsafe { append_ends::<4>(text, more) },
        _ => text.push_str(more),
    }
}

/// Appends a text as its first `N` bytes and its last `N`, which overlap.
///
/// # Safety
///
/// There is room, and the text has `N` to `2 * N` bytes.
#[inline(always)]
unsafe fn append_ends<const N: usize>(text: &mut String, more: &str) {
    let (len, at) = (more.len(), text.len());
    debug_assert!(N <= len && len <= 2 * N && len <= text.capacity() - at);
    let from = more.as_ptr();
    // SAFETY: both are read within `more` and written within the room, without a claim how they are aligned. Together they are all
    // bytes of `more`, so what is there is a text.
    unsafe {
        let bytes = text.as_mut_vec();
        let to = bytes.as_mut_ptr().add(at);
        let first: [u8; N] = from.cast::<[u8; N]>().read();
        let last: [u8; N] = from.add(len - N).cast::<[u8; N]>().read();
        to.cast::<[u8; N]>().write(first);
        to.add(len - N).cast::<[u8; N]>().write(last);
        bytes.set_len(at + len);
    }
}

/// Has the processor fetch the line of an item, so that whoever reads it soon waits less. Reads nothing, whatever the place is.
#[inline(always)]
pub fn ask_for<T>(items: &[T], at: usize) {
    #[cfg(all(target_arch = "x86_64", target_feature = "sse", not(miri)))]
    {
        use core::arch::x86_64::{_mm_prefetch, _MM_HINT_T0};
        let line = items.as_ptr().wrapping_add(at);
        // SAFETY: the target has SSE, and a hint reads nothing and never faults, so any address is fine.
        unsafe { _mm_prefetch::<_MM_HINT_T0>(line.cast()) }
    }
    #[cfg(not(all(target_arch = "x86_64", target_feature = "sse", not(miri))))]
    let _ = (items, at);
}

/// The high bit of each byte of a word, which no ASCII byte has.
const HIGH_BITS: u64 = 0x8080_8080_8080_8080;

/// Longer texts take Rust's own way at once, which is made for them.
const MOST_SHORT: usize = 64;

/// Reports whether 8 to 64 bytes are ASCII. The last word may overlap the one before.
#[inline(always)]
fn is_short_ascii(bytes: &[u8]) -> bool {
    let Some(last) = bytes.last_chunk() else {
        return false;
    };
    let words = bytes.chunks_exact(8).map(|word| word.first_chunk());
    let all = words
        .flatten()
        .fold(u64::from_le_bytes(*last), |all, word| {
            all | u64::from_le_bytes(*word)
        });
    all & HIGH_BITS == 0
}

/// Returns 8 to 64 bytes as a text if they are ASCII.
#[inline(always)]
pub fn short_text(bytes: &[u8]) -> Option<&str> {
    let is_text = bytes.len() <= MOST_SHORT && is_short_ascii(bytes);
    // SAFETY: ASCII is UTF-8.
    is_text.then(|| unsafe { core::str::from_utf8_unchecked(bytes) })
}

#[cfg(feature = "parts")]
impl crate::rt::string::String {
    /// Makes a text of bytes.
    ///
    /// # Safety
    ///
    /// They are UTF-8.
    pub unsafe fn from_utf8_unchecked(bytes: crate::rt::vec::Vec<u8>) -> Self {
        // SAFETY: the caller promises the same.
        Self(unsafe { String::from_utf8_unchecked(bytes.0) })
    }
}

/// Returns where a text begins and ends, if its end is one of those of four bytes.
#[inline(always)]
fn narrow_span(narrow: &[u32], number: usize) -> Option<(usize, usize)> {
    let end = *narrow.get(number)?;
    let start = match number {
        0 => 0,
        // SAFETY: this is the place before one that the list has.
        _ => unsafe { *narrow.at_unchecked(number - 1) },
    };
    Some((start as usize, end as usize))
}

/// Returns the text of a `BucketBackend` with a number, if there is one.
#[inline(always)]
pub fn find_bucketed(texts: &BucketBackend<usize>, number: usize) -> Option<&str> {
    if number >= texts.count() {
        return None;
    }
    let text = texts.resolve_unchecked(number);
    // SAFETY: no reference is null. The compiler does not know that of one that a call may have returned, and would test it to tell
    // whether there is a text.
    unsafe { assert_unchecked(text.as_ptr().addr() != 0) };
    Some(text)
}

/// Returns the text of a `StringBackend` with a number, if there is one.
#[inline(always)]
pub fn find_joined(texts: &StringBackend<usize>, number: usize) -> Option<&str> {
    let (joined, ends) = texts.as_parts();
    let (start, end) = match narrow_span(ends.as_slices().0, number) {
        Some(narrow) => narrow,
        None if number < ends.len() => span(ends, number),
        None => return None,
    };
    // SAFETY: these are the end of the text before, or 0, and the end of this one (G).
    Some(unsafe { cut_unchecked(joined, start..end) })
}

/// The same. Panics if there is none.
#[inline(always)]
pub fn joined_at(texts: &StringBackend<usize>, number: usize) -> &str {
    let (joined, ends) = texts.as_parts();
    let (start, end) = match narrow_span(ends.as_slices().0, number) {
        Some(narrow) => narrow,
        None => span(ends, number),
    };
    // SAFETY: as in `find_joined`.
    unsafe { cut_unchecked(joined, start..end) }
}

/// All texts of a `StringBackend` in order, with their numbers, as the parts of the joined text from each end to the next.
#[derive(Clone)]
pub struct Parts<'a> {
    joined: &'a str,
    /// The ends of the texts that are left: those of four bytes, of which there were at most `most`, and after them those of eight.
    narrow: slice::Iter<'a, u32>,
    wide: slice::Iter<'a, usize>,
    most: usize,
    /// How many texts were yielded.
    number: usize,
    /// The end of the text before, or 0.
    start: usize,
}

impl<'a> Parts<'a> {
    /// The texts of a backend, whose numbers are all below `most`.
    #[inline]
    pub fn of(texts: &'a StringBackend<usize>, most: usize) -> Self {
        let (joined, ends) = texts.as_parts();
        let (narrow, wide) = ends.as_slices();
        Parts {
            joined,
            narrow: narrow[..narrow.len().min(most)].iter(),
            wide: wide.iter(),
            most,
            number: 0,
            start: 0,
        }
    }

    /// Returns how many texts are left.
    #[inline(always)]
    pub fn left(&self) -> usize {
        self.narrow.len() + self.wide.len()
    }

    /// Returns the next text and its number.
    #[inline(always)]
    pub fn step(&mut self) -> Option<(usize, &'a str)> {
        let number = self.number;
        let end = match self.narrow.next() {
            Some(end) => {
                // SAFETY: of at most `most` texts with such an end, so many came before, and this one is left.
                unsafe { below_unchecked(number, self.most) };
                *end as usize
            }
            None => *self.wide.next()?,
        };
        // SAFETY: these are the end of the text before, or 0, and the next one (G).
        let text = unsafe { cut_unchecked(self.joined, self.start..end) };
        self.number = number + 1;
        self.start = end;
        Some((number, text))
    }

    /// Folds the texts that are left, with their numbers.
    #[inline(always)]
    pub fn fold<A>(self, first: A, mut call: impl FnMut(A, usize, &'a str) -> A) -> A {
        let (joined, mut number, mut start) = (self.joined, self.number, self.start);
        let mut step = |so_far, end| {
            // SAFETY: as in `step`.
            let text = unsafe { cut_unchecked(joined, start..end) };
            start = end;
            let so_far = call(so_far, number, text);
            number += 1;
            so_far
        };
        let so_far = self
            .narrow
            .fold(first, |so_far, end| step(so_far, *end as usize));
        self.wide.fold(so_far, |so_far, end| step(so_far, *end))
    }
}

/// Tells the compiler that a number is below another, so that it leaves out tests of that. With `--cfg string_interner_checks` there is
/// one.
///
/// # Safety
///
/// It is.
#[inline(always)]
unsafe fn below_unchecked(number: usize, bound: usize) {
    debug_assert!(number < bound);
    if cfg!(string_interner_checks) {
        assert!(number < bound);
    }
    // SAFETY: the caller promises it.
    unsafe { assert_unchecked(number < bound) }
}

/// Sixteen bytes as a vector. From some version on the compiler takes calls that only want the vectors for safe.
#[cfg(all(target_feature = "sse2", not(any(miri, string_interner_words))))]
#[allow(unused_unsafe)]
pub mod lanes {
    #[cfg(target_arch = "x86")]
    use core::arch::x86 as arch;
    #[cfg(target_arch = "x86_64")]
    use core::arch::x86_64 as arch;

    use arch::{
        __m128i, _mm_cmpeq_epi8, _mm_loadu_si128, _mm_max_epu8, _mm_movemask_epi8, _mm_set1_epi8,
    };

    pub type Lanes = __m128i;

    #[inline(always)]
    pub fn of(bytes: &[u8; 16]) -> Lanes {
        // SAFETY: the target has SSE2, and the address, which need not be aligned, is that of sixteen bytes.
        unsafe { _mm_loadu_si128(bytes.as_ptr().cast()) }
    }

    #[inline(always)]
    pub fn repeated(byte: u8) -> Lanes {
        // SAFETY: the target has SSE2.
        unsafe { _mm_set1_epi8(byte as i8) }
    }

    #[inline(always)]
    pub fn equal(one: Lanes, other: Lanes) -> u16 {
        // SAFETY: the target has SSE2.
        unsafe { _mm_movemask_epi8(_mm_cmpeq_epi8(one, other)) as u16 }
    }

    #[inline(always)]
    pub fn larger(one: Lanes, other: Lanes) -> Lanes {
        // SAFETY: the target has SSE2.
        unsafe { _mm_max_epu8(one, other) }
    }
}

/// The same. On 32 bits this processor's vectors are not the same in Rust.
#[cfg(all(
    target_arch = "aarch64",
    target_feature = "neon",
    not(any(miri, string_interner_words))
))]
#[allow(unused_unsafe)]
pub mod lanes {
    use core::arch::aarch64::{
        uint8x16_t, vaddv_u8, vandq_u8, vceqq_u8, vdupq_n_u8, vget_high_u8, vget_low_u8, vld1q_u8,
        vmaxq_u8,
    };

    pub type Lanes = uint8x16_t;

    #[inline(always)]
    pub fn of(bytes: &[u8; 16]) -> Lanes {
        // SAFETY: the target has NEON, and the address is that of sixteen bytes.
        unsafe { vld1q_u8(bytes.as_ptr()) }
    }

    #[inline(always)]
    pub fn repeated(byte: u8) -> Lanes {
        // SAFETY: the target has NEON.
        unsafe { vdupq_n_u8(byte) }
    }

    #[inline(always)]
    pub fn equal(one: Lanes, other: Lanes) -> u16 {
        let bits = of(&[1, 2, 4, 8, 16, 32, 64, 128, 1, 2, 4, 8, 16, 32, 64, 128]);
        // SAFETY: the target has NEON.
        unsafe {
            let equal = vandq_u8(vceqq_u8(one, other), bits);
            u16::from(vaddv_u8(vget_low_u8(equal))) | u16::from(vaddv_u8(vget_high_u8(equal))) << 8
        }
    }

    #[inline(always)]
    pub fn larger(one: Lanes, other: Lanes) -> Lanes {
        // SAFETY: the target has NEON.
        unsafe { vmaxq_u8(one, other) }
    }
}
