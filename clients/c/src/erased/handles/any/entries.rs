//! All texts, a list of some of them at a time.

//~ ghost use Rattle.std.specs.Prelude.{◌≡◌, ◌+◌, ◌<◌, ◌^◌};
//~ ghost use Rattle.handles.specs.Any.{any_of};
//~ ghost use Rattle.handles.specs.Entries.{IsEntryAt, ListsFrom, step_of};
//~ ghost use Rattle.handles.specs.Kind.{numbering_in};
//~ ghost use Rattle.handles.specs.declared.kind.Kind.TheVariants as kind;

use crate::rt::prelude::*; use super::{AnyInterner, HashedInterner, resolve_in};
use crate::handles::kind::Kind;
use crate::handles::text::{Cursor, Entry, Text};
use crate::erased::backend::{Backend, BufferBackend, StringBackend};
use crate::erased::symbol::SymbolU32;

/// Returns the place behind an entry whose text has this length, in an interner of this kind, if it fits a `usize`.
#[inline(always)]
fn place_after(kind: Kind, place: usize, len: usize) -> usize
    //~ ensures { place + step_of kind len < 2 ^ 64 → result ≡ place + step_of kind len }
{
    match kind {
        Kind::Buffer => {
            let step = BufferBackend::<SymbolU32>::entry_len(len).unwrap_or(usize::MAX);
            place.saturating_add(step)
        }
        _ => place.saturating_add(1),
    }
}

/// Returns the entry at a place, if something is read there.
#[inline(always)]
fn entry_at<'a, B: Backend<Symbol = SymbolU32>>(
    interner: &'a HashedInterner<B>,
    kind: Kind,
    place: usize,
) -> Option<Entry<'a>>
    //~ requires { numbering_in kind ≡ B.numbering }
    //~ ensures { IsEntryAt (any_of kind interner.now) place result }
{
    if place > u32::MAX as usize {
        return None;
    }
    let symbol = place as u32;
    match resolve_in(interner, symbol) {
        Some(text) => Some(Entry {
            symbol,
            text: Text {
                bytes: text.as_bytes(),
            },
        }),
        None => None,
    }
}

/// Lists entries of an interner of this kind, as `entries` does. Inlined, so that the kind is chosen once.
#[inline(always)]
fn entries_in<'a, B: Backend<Symbol = SymbolU32>>(
    interner: &'a HashedInterner<B>,
    kind: Kind,
    cursor: &mut Cursor,
    room: &mut [Entry<'a>],
) -> usize
    //~ requires { numbering_in kind ≡ B.numbering }
    //~ ensures { ListsFrom (any_of kind interner.now)
    //~     (room.old, cursor.old) result (room.new, cursor.new) }
{
    let many = room.len().min(interner.len().saturating_sub(cursor.index));
    for index in 0..many {
        match entry_at(interner, kind, cursor.place) {
            Some(entry) => {
                room[index] = entry;
                cursor.place = place_after(kind, cursor.place, entry.text.bytes.len());
                cursor.index += 1;
            }
            None => return index,
        }
    }
    many
}

/// Lists entries of an interner of the kind `String`, as `entries` does. One loop reads the ends of texts while each takes four
/// bytes.
#[inline(always)]
fn string_entries<'a>(
    interner: &'a HashedInterner<StringBackend<SymbolU32>>,
    cursor: &mut Cursor,
    room: &mut [Entry<'a>],
) -> usize
    //~ ensures { ListsFrom (any_of kind.String interner.now)
    //~     (room.old, cursor.old) result (room.new, cursor.new) }
{
    let (joined, ends) = interner.backend().as_parts();
    let (narrow, wide) = ends.as_slices();
    let place = cursor.place;
    if !wide.is_empty() || place >= narrow.len() {
        return entries_in(interner, Kind::String, cursor, room);
    }
    let ahead = interner.len().saturating_sub(cursor.index);
    let many = room.len().min(ahead).min(narrow.len() - place);
    let mut start = if place == 0 {
        0
    } else {
        narrow[place - 1] as usize
    };
    for index in 0..many {
        let end = *unsafe { narrow.at_unchecked(place + index) } as usize;
        // Field by field: a whole entry would be written with the bytes between its fields.
        let entry = &mut room[index];
        entry.symbol = (place + index) as u32;
        entry.text.bytes = unsafe { crate::unchecked::cut_unchecked(joined, start..end) }.as_bytes();
        start = end;
    }
    cursor.index += many;
    cursor.place += many;
    many
}

impl AnyInterner {
    /// Writes the entries from a cursor on to the front of a buffer, as many as there are and fit. Moves the cursor behind them,
    /// and returns how many they are.
    pub fn entries<'a>(&'a self, cursor: &mut Cursor, room: &mut [Entry<'a>]) -> usize
        //~ ensures { ListsFrom self.now (room.old, cursor.old) result (room.new, cursor.new) }
    {
        match self {
            AnyInterner::String(interner) => string_entries(interner, cursor, room),
            AnyInterner::Bucket(interner) => entries_in(interner, Kind::Bucket, cursor, room),
            AnyInterner::Buffer(interner) => entries_in(interner, Kind::Buffer, cursor, room),
        }
    }
}
