//! The library through its calls for C, which are linked in as a shared library, over joined strings.

use crate::interner::Interner;
use std::mem::MaybeUninit;

const INTERNER_OK: u32 = 0;
const INTERNER_STRING: u32 = 0;

/// How many entries a call lists.
const PIECE: usize = 64;

/// What a handle points to, of which this crate knows nothing.
#[repr(C)]
#[allow(non_camel_case_types)]
pub struct interner {
    _nothing: [u8; 0],
}

#[repr(C)]
#[allow(non_camel_case_types)]
struct interner_text {
    bytes: *const u8,
    len: usize,
}

#[repr(C)]
#[allow(non_camel_case_types)]
struct interner_entry {
    symbol: u32,
    text: interner_text,
}

#[repr(C)]
#[allow(non_camel_case_types)]
struct interner_cursor {
    index: usize,
    place: usize,
}

// As `string_interner.h` declares them.
extern "C" {
    fn interner_new(kind: u32, out: *mut *mut interner) -> u32;
    fn interner_free(h: *mut interner);
    fn interner_clone(h: *const interner, copy: *mut *mut interner) -> u32;
    fn interner_len(h: *const interner) -> usize;
    fn interner_get(h: *const interner, text: *const u8, len: usize, symbol: *mut u32) -> u32;
    fn interner_get_or_intern(
        h: *mut interner,
        text: *const u8,
        len: usize,
        symbol: *mut u32,
    ) -> u32;
    fn interner_string_find_utf8(h: *const interner, text: *const u8, len: usize) -> u64;
    fn interner_string_intern_utf8(h: *mut interner, text: *const u8, len: usize) -> u64;
    fn interner_string_resolve(h: *const interner, symbol: u32, text: *mut interner_text) -> u32;
    fn interner_entries(
        h: *const interner,
        cursor: *mut interner_cursor,
        entries: *mut interner_entry,
        entries_len: usize,
    ) -> usize;
}

/// A handle, on which each text is handed over as UTF-8, or as bytes that the library looks at.
pub struct ByC<const LOOKS: bool>(*mut interner);

impl<const LOOKS: bool> Drop for ByC<LOOKS> {
    fn drop(&mut self) {
        // SAFETY: nothing else has the handle.
        unsafe { interner_free(self.0) }
    }
}

impl<const LOOKS: bool> Clone for ByC<LOOKS> {
    fn clone(&self) -> Self {
        let mut copy = std::ptr::null_mut();
        // SAFETY: the handle is open, and the place is there for the time of the call.
        let status = unsafe { interner_clone(self.0, &mut copy) };
        assert_eq!(status, INTERNER_OK);
        ByC(copy)
    }
}

/// The text that the library lent.
///
/// # Safety
///
/// It is UTF-8, and stays for this lifetime.
#[inline]
unsafe fn text_of<'a>(text: &interner_text) -> &'a str {
    let bytes = std::slice::from_raw_parts(text.bytes, text.len);
    std::str::from_utf8_unchecked(bytes)
}

impl<const LOOKS: bool> Interner for ByC<LOOKS> {
    type Symbol = u32;

    fn empty() -> Self {
        let mut handle = std::ptr::null_mut();
        // SAFETY: the place is there for the time of the call.
        let status = unsafe { interner_new(INTERNER_STRING, &mut handle) };
        assert_eq!(status, INTERNER_OK);
        ByC(handle)
    }

    #[inline]
    fn intern(&mut self, text: &str) -> u32 {
        if !LOOKS {
            // SAFETY: the handle is open and of the kind that the call serves, and the text is UTF-8.
            let told = unsafe { interner_string_intern_utf8(self.0, text.as_ptr(), text.len()) };
            return u32::try_from(told).unwrap();
        }
        let mut symbol = 0;
        // SAFETY: the handle is open, and the place is there for the time of the call.
        let status =
            unsafe { interner_get_or_intern(self.0, text.as_ptr(), text.len(), &mut symbol) };
        assert_eq!(status, INTERNER_OK);
        symbol
    }

    #[inline]
    fn find(&self, text: &str) -> Option<u32> {
        if !LOOKS {
            // SAFETY: as in `intern`.
            return u32::try_from(unsafe {
                interner_string_find_utf8(self.0, text.as_ptr(), text.len())
            })
            .ok();
        }
        let mut symbol = 0;
        // SAFETY: as in `intern`.
        let status = unsafe { interner_get(self.0, text.as_ptr(), text.len(), &mut symbol) };
        (status == INTERNER_OK).then_some(symbol)
    }

    #[inline]
    fn resolve(&self, symbol: u32) -> Option<&str> {
        let mut text = interner_text {
            bytes: std::ptr::null(),
            len: 0,
        };
        // SAFETY: the handle is open and of this kind, and what it lends is UTF-8 that stays until the handle changes.
        unsafe {
            (interner_string_resolve(self.0, symbol, &mut text) == INTERNER_OK)
                .then(|| text_of(&text))
        }
    }

    #[inline]
    fn number(symbol: u32) -> usize {
        symbol as usize
    }

    fn len(&self) -> usize {
        // SAFETY: the handle is open.
        unsafe { interner_len(self.0) }
    }

    #[inline]
    fn entries(&self) -> impl Iterator<Item = (usize, &str)> {
        let mut cursor = interner_cursor { index: 0, place: 0 };
        let mut piece = [const { MaybeUninit::<interner_entry>::uninit() }; PIECE];
        let (mut next, mut count) = (0, 0);
        std::iter::from_fn(move || {
            if next == count {
                let room = piece.as_mut_ptr().cast();
                // SAFETY: the handle is open, and both places are there for the time of the call.
                count = unsafe { interner_entries(self.0, &mut cursor, room, PIECE) };
                next = 0;
            }
            let entry = piece[..count].get(next)?;
            next += 1;
            // SAFETY: the call wrote so many entries, and lends their texts until the handle changes.
            unsafe {
                let entry = entry.assume_init_ref();
                Some((entry.symbol as usize, text_of(&entry.text)))
            }
        })
    }
}
