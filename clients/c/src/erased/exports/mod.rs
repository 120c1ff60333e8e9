//! The string interner for C: each export is a call on a handle or on its interner.
//~ #![tactic(auto)]

//~ ghost use Rattle.std.specs.Prelude.{◌≡◌, ◌↔◌, IsTrue, length};
//~ ghost use Rattle.std.specs.Str.{IsUtf8};
//~ ghost use Rattle.handles.specs.Any.{IsShrunk, KeepsFirst, ReadsAs, ReadsBy, any_eq, texts_in};
//~ ghost use Rattle.handles.specs.Calls.{Changes, Copies, CopiesJson, CopiesText, FindsBytes, FindsText, InternsBytes, InternsText, KnowsBytes, MakesNew, MakesRoom, Opens, Packs, Queries, ReadsJson, ResolvesSymbol, Writes};
//~ ghost use Rattle.handles.specs.Entries.{ListsFrom};
//~ ghost use Rattle.handles.specs.InternMany.{InternsMany, listed, parts};
//~ ghost use Rattle.handles.specs.OneKind.{FindsIn, InternsIn, ResolvesIn};
//~ ghost use Rattle.handles.specs.Joined.{LendsJoinedIn};
//~ ghost use Rattle.handles.specs.Options.{MakesBy};
//~ ghost use Rattle.handles.specs.Part.{InternsPart};
//~ ghost use Rattle.handles.specs.declared.kind.Kind.TheVariants as kind;

use crate::rt::prelude::*; use crate::address::{Returned, Slot};
use crate::handles::calls;
use crate::handle::Handle;
use crate::handles::options::Options;
use crate::handles::status::{Status, finish, pack, tell};
use crate::handles::text::{Cursor, Entry, Joined, Text};
use crate::rt::alloc::Global;

/// The number of the interface, `INTERNER_VERSION` in C. A new one means that programs must be compiled again.
pub const VERSION: u32 = 1;

/// Returns the number of the interface.
#[unsafe(no_mangle)]
pub extern "C" fn interner_version() -> u32
    //~ ensures { result ≡ 1 }
{
    VERSION
}

/// Makes a handle on an empty interner of a kind, without keys, and writes its address.
#[unsafe(no_mangle)]
pub extern "C" fn interner_new(/*~ alloc: Global, */ kind: u32, out: &mut Slot) -> u32
    //~ ensures { Opens (MakesNew kind) out.old result out.new }
{ let alloc = Global;
    finish(calls::new(alloc, kind, out))
}

/// Makes a handle on an empty interner with these options, and writes its address.
#[unsafe(no_mangle)]
pub extern "C" fn interner_new_with(/*~ alloc: Global, */ options: &Options, out: &mut Slot) -> u32
    //~ ensures { Opens (MakesBy options.now (MakesRoom options.now.kind options.now.capacity))
    //~     out.old result out.new }
{ let alloc = Global;
    finish(calls::new_with(alloc, options, out))
}

/// Frees a handle and its interner. Does nothing if the handle is null.
#[unsafe(no_mangle)]
pub extern "C" fn interner_free(h: Returned) {
    drop(h);
}

/// Returns the number of texts.
#[unsafe(no_mangle)]
pub extern "C" fn interner_len(h: &Handle) -> usize
    //~ ensures len { result ≡ length (texts_in h.old.value) }
    //~ ensures same { h.new.value ≡ h.old.value }
{
    h.read().len()
}

/// Writes the symbol of a text, and appends the text if it is new.
#[unsafe(no_mangle)]
pub extern "C" fn interner_get_or_intern(h: &mut Handle, text: *const u8, text_len: usize, symbol: &mut u32) -> u32
    //~ ensures { Changes (InternsBytes text.now) (h.old, symbol.old) result (h.new, symbol.new) }
{ let text = unsafe { crate::border::slice(text, text_len) };
    calls::get_or_intern(h, text, symbol)
}

/// The same, but does not check that the bytes are UTF-8: they must be.
#[unsafe(no_mangle)]
pub unsafe extern "C" fn interner_get_or_intern_utf8(
    h: &mut Handle,
    text: *const u8, text_len: usize,
    symbol: &mut u32,
) -> u32
    //~ requires { IsUtf8 text.now }
    //~ ensures { Changes (InternsText text.now) (h.old, symbol.old) result (h.new, symbol.new) }
{ let text = unsafe { crate::border::slice(text, text_len) };
    let text = unsafe { crate::rt::str::from_utf8_unchecked(text) };
    h.interner().write_symbol(text, symbol)
}

/// The same as `interner_get_or_intern`, for bytes that stay where they are, unchanged.
#[unsafe(no_mangle)]
pub extern "C" fn interner_get_or_intern_static(
    h: &mut Handle,
    text: *const u8, text_len: usize,
    symbol: &mut u32,
) -> u32
    //~ ensures { Changes (InternsBytes text.now) (h.old, symbol.old) result (h.new, symbol.new) }
{ let text = unsafe { crate::border::slice(text, text_len) };
    tell(calls::get_or_intern_static(h, text), symbol)
}

/// Writes the symbol of a part of the text at a symbol, and appends the part if it is new.
#[unsafe(no_mangle)]
pub extern "C" fn interner_get_or_intern_part(
    //~ alloc: Global,
    h: &mut Handle,
    symbol: u32,
    from: usize,
    to: usize,
    part: &mut u32,
) -> u32
    //~ ensures { Changes (InternsPart symbol from to) (h.old, part.old) result (h.new, part.new) }
{ let alloc = Global;
    tell(
        h.interner().get_or_intern_part(alloc, symbol, from, to),
        part,
    )
}

/// Writes the symbol of a known text.
#[unsafe(no_mangle)]
pub extern "C" fn interner_get(h: &Handle, text: *const u8, text_len: usize, symbol: &mut u32) -> u32
    //~ ensures found { Queries (FindsBytes text.now) h.old symbol.old result symbol.new }
    //~ ensures same { h.new.value ≡ h.old.value }
{ let text = unsafe { crate::border::slice(text, text_len) };
    tell(calls::get(h, text), symbol)
}

/// The same, but does not check that the bytes are UTF-8: they must be.
#[unsafe(no_mangle)]
pub unsafe extern "C" fn interner_get_utf8(h: &Handle, text: *const u8, text_len: usize, symbol: &mut u32) -> u32
    //~ requires { IsUtf8 text.now }
    //~ ensures found { Queries (FindsText text.now) h.old symbol.old result symbol.new }
    //~ ensures same { h.new.value ≡ h.old.value }
{ let text = unsafe { crate::border::slice(text, text_len) };
    let text = unsafe { crate::rt::str::from_utf8_unchecked(text) };
    tell(h.read().get(text).ok_or(Status::Nothing), symbol)
}

/// Reports whether a text is known.
#[unsafe(no_mangle)]
pub extern "C" fn interner_contains(h: &Handle, text: *const u8, text_len: usize) -> bool
    //~ ensures known { IsTrue result ↔ KnowsBytes text.now h.old.value }
    //~ ensures same { h.new.value ≡ h.old.value }
{ let text = unsafe { crate::border::slice(text, text_len) };
    calls::contains(h, text)
}

/// Lends the text at a symbol.
#[unsafe(no_mangle)]
pub extern "C" fn interner_resolve<'a>(h: &'a Handle, symbol: u32, text: &mut Text<'a>) -> u32
    //~ ensures { Queries (ResolvesSymbol symbol) h.old text.old result text.new }
{
    tell(h.read().lend(symbol), text)
}

/// Lends the text at a symbol, if the interner is of the kind `INTERNER_STRING`.
#[unsafe(no_mangle)]
pub extern "C" fn interner_string_resolve<'a>(
    h: &'a Handle,
    symbol: u32,
    text: &mut Text<'a>,
) -> u32
    //~ ensures { Queries (ResolvesIn kind.String symbol) h.old text.old result text.new }
{
    h.read().write_text_in_string(symbol, text)
}

/// Lends all texts joined, with the end of each, if the interner is of the kind `INTERNER_STRING`.
#[unsafe(no_mangle)]
pub extern "C" fn interner_string_joined<'a>(h: &'a Handle, joined: &mut Joined<'a>) -> u32
    //~ ensures { Queries LendsJoinedIn h.old joined.old result joined.new }
{
    tell(h.read().joined(), joined)
}

/// Returns the symbol of a known text, or 2^32 and a status, if the interner is of the kind `INTERNER_STRING`. The bytes must
/// be UTF-8.
#[unsafe(no_mangle)]
pub unsafe extern "C" fn interner_string_find_utf8(h: &Handle, text: *const u8, text_len: usize) -> u64
    //~ requires { IsUtf8 text.now }
    //~ ensures found { Packs (FindsIn kind.String text.now h.old.value) result }
    //~ ensures same { h.new.value ≡ h.old.value }
{ let text = unsafe { crate::border::slice(text, text_len) };
    let text = unsafe { crate::rt::str::from_utf8_unchecked(text) };
    pack(h.read().get_in_string(text))
}

/// The same, but appends a text that is new.
#[unsafe(no_mangle)]
pub unsafe extern "C" fn interner_string_intern_utf8(h: &mut Handle, text: *const u8, text_len: usize) -> u64
    //~ requires { IsUtf8 text.now }
    //~ ensures { Packs (λ outcome. InternsIn kind.String text.now h.old.value outcome h.new.value)
    //~     result }
{ let text = unsafe { crate::border::slice(text, text_len) };
    let text = unsafe { crate::rt::str::from_utf8_unchecked(text) };
    pack(h.interner().intern_in_string(text))
}

/// Lends the text at a symbol, if the interner is of the kind `INTERNER_BUCKET`.
#[unsafe(no_mangle)]
pub extern "C" fn interner_bucket_resolve<'a>(
    h: &'a Handle,
    symbol: u32,
    text: &mut Text<'a>,
) -> u32
    //~ ensures { Queries (ResolvesIn kind.Bucket symbol) h.old text.old result text.new }
{
    tell(h.read().resolve_in_bucket(symbol), text)
}

/// Returns the symbol of a known text, or 2^32 and a status, if the interner is of the kind `INTERNER_BUCKET`. The bytes must
/// be UTF-8.
#[unsafe(no_mangle)]
pub unsafe extern "C" fn interner_bucket_find_utf8(h: &Handle, text: *const u8, text_len: usize) -> u64
    //~ requires { IsUtf8 text.now }
    //~ ensures found { Packs (FindsIn kind.Bucket text.now h.old.value) result }
    //~ ensures same { h.new.value ≡ h.old.value }
{ let text = unsafe { crate::border::slice(text, text_len) };
    let text = unsafe { crate::rt::str::from_utf8_unchecked(text) };
    pack(h.read().get_in_bucket(text))
}

/// The same, but appends a text that is new.
#[unsafe(no_mangle)]
pub unsafe extern "C" fn interner_bucket_intern_utf8(h: &mut Handle, text: *const u8, text_len: usize) -> u64
    //~ requires { IsUtf8 text.now }
    //~ ensures { Packs (λ outcome. InternsIn kind.Bucket text.now h.old.value outcome h.new.value)
    //~     result }
{ let text = unsafe { crate::border::slice(text, text_len) };
    let text = unsafe { crate::rt::str::from_utf8_unchecked(text) };
    pack(h.interner().intern_in_bucket(text))
}

/// Lends the text at a symbol, if the interner is of the kind `INTERNER_BUFFER`.
#[unsafe(no_mangle)]
pub extern "C" fn interner_buffer_resolve<'a>(
    h: &'a Handle,
    symbol: u32,
    text: &mut Text<'a>,
) -> u32
    //~ ensures { Queries (ResolvesIn kind.Buffer symbol) h.old text.old result text.new }
{
    tell(h.read().resolve_in_buffer(symbol), text)
}

/// Returns the symbol of a known text, or 2^32 and a status, if the interner is of the kind `INTERNER_BUFFER`. The bytes must
/// be UTF-8.
#[unsafe(no_mangle)]
pub unsafe extern "C" fn interner_buffer_find_utf8(h: &Handle, text: *const u8, text_len: usize) -> u64
    //~ requires { IsUtf8 text.now }
    //~ ensures found { Packs (FindsIn kind.Buffer text.now h.old.value) result }
    //~ ensures same { h.new.value ≡ h.old.value }
{ let text = unsafe { crate::border::slice(text, text_len) };
    let text = unsafe { crate::rt::str::from_utf8_unchecked(text) };
    pack(h.read().get_in_buffer(text))
}

/// The same, but appends a text that is new.
#[unsafe(no_mangle)]
pub unsafe extern "C" fn interner_buffer_intern_utf8(h: &mut Handle, text: *const u8, text_len: usize) -> u64
    //~ requires { IsUtf8 text.now }
    //~ ensures { Packs (λ outcome. InternsIn kind.Buffer text.now h.old.value outcome h.new.value)
    //~     result }
{ let text = unsafe { crate::border::slice(text, text_len) };
    let text = unsafe { crate::rt::str::from_utf8_unchecked(text) };
    pack(h.interner().intern_in_buffer(text))
}

/// Copies the text at a symbol to a buffer, if it fits, and writes its length.
#[unsafe(no_mangle)]
pub extern "C" fn interner_copy_text(
    h: &Handle,
    symbol: u32,
    room: *mut u8, room_len: usize,
    len: &mut usize,
) -> u32
    //~ ensures copies { Writes (CopiesText symbol h.old.value)
    //~     (room.old, len.old) result (room.new, len.new) }
    //~ ensures same { h.new.value ≡ h.old.value }
{ let room = unsafe { crate::border::slice_mut(room, room_len) };
    finish(calls::copy_text(h, symbol, room, len))
}

/// Keeps the first `len` texts.
#[unsafe(no_mangle)]
pub extern "C" fn interner_truncate(h: &mut Handle, len: usize)
    //~ ensures { KeepsFirst len h.old.value h.new.value }
{
    h.interner().truncate(len);
}

/// Releases memory that no text needs, if it can.
#[unsafe(no_mangle)]
pub extern "C" fn interner_shrink(h: &mut Handle)
    //~ ensures { IsShrunk h.old.value h.new.value }
{
    h.interner().shrink_to_fit();
}

/// Makes a second handle, on a copy of the first one's interner, and writes its address.
#[unsafe(no_mangle)]
pub extern "C" fn interner_clone(/*~ alloc: Global, */ h: &Handle, copy: &mut Slot) -> u32
    //~ ensures copies { Opens (Copies h.old.value) copy.old result copy.new }
    //~ ensures same { h.new.value ≡ h.old.value }
{ let alloc = Global;
    finish(calls::clone(alloc, h, copy))
}

/// Reports whether both handles hold interners of one kind with the same texts in the same order.
#[unsafe(no_mangle)]
pub extern "C" fn interner_equal(h: &Handle, other: &Handle) -> bool
    //~ ensures equal { result ≡ any_eq h.old.value other.old.value }
    //~ ensures same { h.new.value ≡ h.old.value }
    //~ ensures other_same { other.new.value ≡ other.old.value }
{
    h.read().equals(other.read())
}

/// Copies the JSON array of the texts to a buffer, if it fits, and writes its length.
#[unsafe(no_mangle)]
pub extern "C" fn interner_to_json(
    //~ alloc: Global,
    h: &Handle,
    room: *mut u8, room_len: usize,
    len: &mut usize,
) -> u32
    //~ ensures writes { Writes (CopiesJson h.old.value)
    //~     (room.old, len.old) result (room.new, len.new) }
    //~ ensures same { h.new.value ≡ h.old.value }
{ let alloc = Global; let room = unsafe { crate::border::slice_mut(room, room_len) };
    finish(calls::json::to_json(alloc, h, room, len))
}

/// Makes a handle on an interner of the texts of a JSON array, without keys, and writes its address. Repeats add no text.
#[unsafe(no_mangle)]
pub extern "C" fn interner_from_json(/*~ alloc: Global, */ kind: u32, json: *const u8, json_len: usize, out: &mut Slot) -> u32
    //~ ensures { Opens (ReadsJson ReadsAs kind json.now) out.old result out.new }
{ let alloc = Global; let json = unsafe { crate::border::slice(json, json_len) };
    finish(calls::json::from_json(alloc, kind, json, out))
}

/// The same with these options. If it is `exact`, all texts must differ.
#[unsafe(no_mangle)]
pub extern "C" fn interner_from_json_with(
    //~ alloc: Global,
    options: &Options,
    json: *const u8, json_len: usize,
    exact: bool,
    out: &mut Slot,
) -> u32
    //~ ensures { Opens (MakesBy options.now (ReadsJson (ReadsBy exact) options.now.kind json.now))
    //~     out.old result out.new }
{ let alloc = Global; let json = unsafe { crate::border::slice(json, json_len) };
    finish(calls::json::from_json_with(alloc, options, json, exact, out))
}

/// Interns many texts, which are end to end in the bytes, and writes their symbols.
#[unsafe(no_mangle)]
pub extern "C" fn interner_intern_joined(
    h: &mut Handle,
    bytes: *const u8, bytes_len: usize,
    ends: *const usize, ends_len: usize,
    symbols: *mut u32, symbols_len: usize,
    done: &mut usize,
) -> u32
    //~ ensures { Writes (InternsMany (parts bytes.now 0 ends.now))
    //~     (h.old.value, symbols.old, done.old) result (h.new.value, symbols.new, done.new) }
{ let bytes = unsafe { crate::border::slice(bytes, bytes_len) }; let ends = unsafe { crate::border::slice(ends, ends_len) }; let symbols = unsafe { crate::border::slice_mut(symbols, symbols_len) };
    finish(h.interner().intern_joined(bytes, ends, symbols, done))
}

/// Interns many texts, and writes their symbols.
#[unsafe(no_mangle)]
pub extern "C" fn interner_intern_list(
    h: &mut Handle,
    texts: *const Text, texts_len: usize,
    symbols: *mut u32, symbols_len: usize,
    done: &mut usize,
) -> u32
    //~ ensures { Writes (InternsMany (listed texts.now))
    //~     (h.old.value, symbols.old, done.old) result (h.new.value, symbols.new, done.new) }
{ let texts = unsafe { crate::border::slice(texts, texts_len) }; let symbols = unsafe { crate::border::slice_mut(symbols, symbols_len) };
    finish(h.interner().intern_list(texts, symbols, done))
}

/// Lends the texts from a cursor on, each with its symbol, as many as there are and fit, and returns how many.
#[unsafe(no_mangle)]
pub extern "C" fn interner_entries<'a>(
    h: &'a Handle,
    cursor: &mut Cursor,
    entries: *mut Entry<'a>, entries_len: usize,
) -> usize
    //~ ensures { ListsFrom h.old.value
    //~     (entries.old, cursor.old) result (entries.new, cursor.new) }
{ let entries = unsafe { crate::border::slice_mut(entries, entries_len) };
    h.read().entries(cursor, entries)
}
