//! Texts and entries as C sees them, and texts from bytes.

//~ ghost use Rattle.handles.specs.Calls.{IsTextOf};
//~ ghost use Rattle.std.specs.Prelude.{IsTrue};
//~ ghost use Rattle.std.specs.Str.{IsAscii};

use crate::rt::prelude::*; use crate::handles::status::Status;

/// A text that an interner lends, or that a caller passes.
#[derive(Clone, Copy)]
#[repr(C)]
pub struct Text<'a> {
    pub bytes: &'a [u8],
}

/// A text with its symbol.
#[derive(Clone, Copy)]
#[repr(C)]
pub struct Entry<'a> {
    pub symbol: u32,
    pub text: Text<'a>,
}

/// All texts of an interner, one after another, and where each ends, in bytes from the start of the first: `interner_joined` of
/// C.
#[derive(Clone, Copy)]
#[repr(C)]
pub struct Joined<'a> {
    pub bytes: &'a [u8],
    /// The ends that take four bytes.
    pub ends: &'a [u32],
    /// The ends behind these, which take eight.
    pub long_ends: &'a [usize],
}

/// Where a list of entries continues: `interner_cursor` of C.
#[derive(Clone, Copy)]
#[repr(C)]
pub struct Cursor {
    /// How many entries are before it.
    pub index: usize,
    /// The symbol of the next one, or what it will be.
    pub place: usize,
}

/// The high bit of each byte of a word, which no ASCII byte has.
const HIGH_BITS: u64 = 0x8080_8080_8080_8080;

/// Reports whether 4 to 16 bytes are ASCII, by two words that may overlap. Returns `false` for fewer or more bytes, whatever they
/// are.
#[inline(always)]
fn is_short_ascii(bytes: &[u8]) -> bool
    //~ ensures { IsTrue result → IsAscii bytes.now }
{
    let len = bytes.len();
    if len > 16 || len < 4 {
        false
    } else if len >= 8 {
        let first = u64::from_le_bytes(*bytes.first_chunk::<8>().unwrap());
        let last = u64::from_le_bytes(*bytes.last_chunk::<8>().unwrap());
        (first & HIGH_BITS) | (last & HIGH_BITS) == 0
    } else {
        let first = u32::from_le_bytes(*bytes.first_chunk::<4>().unwrap());
        let last = u32::from_le_bytes(*bytes.last_chunk::<4>().unwrap());
        (first & 0x8080_8080) | (last & 0x8080_8080) == 0
    }
}

/// Returns the bytes as a text, if they are UTF-8.
#[inline(always)]
pub fn text_of(bytes: &[u8]) -> Result<&str, Status>
    //~ ensures { IsTextOf bytes.now result }
{
    if is_short_ascii(bytes) {
        // A call of the standard library takes longer than this test.
        return Ok(unsafe { crate::rt::str::from_utf8_unchecked(bytes) });
    }
    checked_text_of(bytes)
}

/// Returns the bytes as a text, if they are UTF-8, as the standard library says.
///
/// It is a call of its own, so that a short text in ASCII pays for nothing of it.
#[inline(never)]
fn checked_text_of(bytes: &[u8]) -> Result<&str, Status>
    //~ ensures { IsTextOf bytes.now result }
{
    match crate::rt::str::from_utf8(bytes) {
        Ok(text) => Ok(text),
        Err(_) => Err(Status::BadText),
    }
}
