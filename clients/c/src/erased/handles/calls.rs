//! What the exports do by more than one call, under their names, each with its outcome.

//~ ghost use Rattle.std.specs.Prelude.{◌≡◌, ◌↔◌, IsTrue, Result};
//~ ghost use Rattle.handles.specs.Calls.{Changes, Copies, CopiesOut, CopiesText, FillsWith, Fills, FindsBytes, InternsBytes, KnowsBytes, MakesNew, MakesRoom};
//~ ghost use Rattle.handles.specs.Options.{MakesBy};

use crate::rt::prelude::*; pub mod json;

use crate::address::Slot;
use crate::handles::any::AnyInterner;
use crate::handle::Handle;
use crate::handles::hasher::ChosenHasher;
use crate::handles::kind::Kind;
use crate::handles::options::Options;
use crate::handles::status::{Status, tell};
use crate::handles::text::text_of;
use crate::rt::alloc::Global;

/// Writes the symbol of the bytes, and appends them if they are a new text. Returns the code of the outcome, because a `Result`
/// that the export takes apart makes a known text slower.
pub fn get_or_intern(h: &mut Handle, bytes: &[u8], symbol: &mut u32) -> u32
    //~ ensures { Changes (InternsBytes bytes.now) (h.old, symbol.old) result (h.new, symbol.new) }
{
    match text_of(bytes) {
        Ok(text) => h.interner().write_symbol(text, symbol),
        Err(status) => tell(Err(status), symbol),
    }
}

/// Returns the symbol of the bytes, if they are a known text.
pub fn get(h: &Handle, bytes: &[u8]) -> Result<u32, Status>
    //~ ensures found { FindsBytes bytes.now h.old.value result }
    //~ ensures same { h.new.value ≡ h.old.value }
{
    h.read().get(text_of(bytes)?).ok_or(Status::Nothing)
}

/// Returns the symbol of a static text, as `get_or_intern` does. A new text may be borrowed and not copied.
pub fn get_or_intern_static(h: &mut Handle, bytes: &'static [u8]) -> Result<u32, Status>
    //~ ensures { InternsBytes bytes.now h.old.value result h.new.value }
{
    let text = text_of(bytes)?;
    Ok(h.interner().get_or_intern_static(text)?)
}

/// Reports whether the bytes are a known text.
pub fn contains(h: &Handle, bytes: &[u8]) -> bool
    //~ ensures known { IsTrue result ↔ KnowsBytes bytes.now h.old.value }
    //~ ensures same { h.new.value ≡ h.old.value }
{
    match text_of(bytes) {
        Ok(text) => h.read().contains(text),
        Err(_) => false,
    }
}

/// Copies bytes to the front of a buffer, if it is long enough. Returns how many there are.
fn copy_out(bytes: &[u8], room: &mut [u8], len: &mut usize) -> Result<(), Status>
    //~ ensures { CopiesOut bytes.now result room.old room.new len.new }
{
    *len = bytes.len();
    if room.len() < bytes.len() {
        return Err(Status::NoRoom);
    }
    room[..bytes.len()].copy_from_slice(bytes);
    Ok(())
}

/// Copies the text at a symbol to a buffer.
pub fn copy_text(
    h: &Handle,
    symbol: u32,
    room: &mut [u8],
    len: &mut usize,
) -> Result<(), Status>
    //~ ensures copies { CopiesText symbol h.old.value (room.old, len.old) result (room.new, len.new) }
    //~ ensures same { h.new.value ≡ h.old.value }
{
    match h.read().resolve(symbol) {
        Some(text) => copy_out(text.as_bytes(), room, len),
        None => Err(Status::Nothing),
    }
}

/// Makes a handle on an interner that was made, and puts its address into a slot.
fn fill(alloc: Global, made: Result<AnyInterner, Status>, slot: &mut Slot) -> Result<(), Status>
    //~ ensures { FillsWith made slot.old result slot.new }
{
    let Ok(interner) = Box::new(alloc, made?) else {
        return Err(Status::NoMemory);
    };
    let Ok(handle) = Box::new(alloc, Handle::of(interner)) else {
        return Err(Status::NoMemory);
    };
    *slot = Slot::of(handle);
    Ok(())
}

/// Makes an empty interner of the kind with this code, without keys.
fn make_interner(alloc: Global, kind: u32) -> Result<AnyInterner, Status>
    //~ ensures { MakesNew kind result }
{
    let kind = Kind::from_code(kind)?;
    Ok(AnyInterner::new(alloc, kind, ChosenHasher::fixed()))
}

/// Makes a handle on an empty interner of the kind with this code, without keys.
pub fn new(alloc: Global, kind: u32, slot: &mut Slot) -> Result<(), Status>
    //~ ensures { Fills (MakesNew kind) slot.old result slot.new }
{
    fill(alloc, make_interner(alloc, kind), slot)
}

/// Makes an empty interner of the kind with this code, with this hasher and spare capacity for `capacity` texts.
fn make_interner_with_capacity(
    alloc: Global,
    kind: u32,
    capacity: usize,
    hasher: ChosenHasher,
) -> Result<AnyInterner, Status>
    //~ ensures { MakesRoom kind capacity result }
{
    let kind = Kind::from_code(kind)?;
    Ok(AnyInterner::with_capacity(alloc, kind, capacity, hasher)?)
}

/// Makes an empty interner with these options.
fn make_interner_with(alloc: Global, options: &Options) -> Result<AnyInterner, Status>
    //~ ensures { MakesBy options.now (MakesRoom options.now.kind options.now.capacity) result }
{
    let Some(hasher) = options.choose_hasher() else {
        return Err(Status::BadHasher);
    };
    make_interner_with_capacity(alloc, options.kind, options.capacity, hasher)
}

/// Makes a handle on an empty interner with these options.
pub fn new_with(alloc: Global, options: &Options, slot: &mut Slot) -> Result<(), Status>
    //~ ensures { Fills (MakesBy options.now (MakesRoom options.now.kind options.now.capacity))
    //~     slot.old result slot.new }
{
    fill(alloc, make_interner_with(alloc, options), slot)
}

/// Copies the interner of a handle.
fn copy_interner(h: &Handle) -> Result<AnyInterner, Status>
    //~ ensures copies { Copies h.old.value result }
    //~ ensures same { h.new.value ≡ h.old.value }
{
    Ok(h.read().try_copy()?)
}

/// Makes a second handle, on a copy of the first one's interner.
pub fn clone(alloc: Global, h: &Handle, slot: &mut Slot) -> Result<(), Status>
    //~ ensures copies { Fills (Copies h.old.value) slot.old result slot.new }
    //~ ensures same { h.new.value ≡ h.old.value }
{
    fill(alloc, copy_interner(h), slot)
}
