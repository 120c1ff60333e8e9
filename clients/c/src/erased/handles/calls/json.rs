//! JSON: the array of the texts, and an interner of such an array.

//~ ghost use Rattle.std.specs.Prelude.{◌≡◌, Result};
//~ ghost use Rattle.serde_json.specs.View.{view};
//~ ghost use Rattle.handles.specs.Any.{ReadsAs, ReadsBy};
//~ ghost use Rattle.handles.specs.Calls.{Fills, IsJsonOf, IsValueOf, ReadsJson, ReadsValue, CopiesJson};
//~ ghost use Rattle.handles.specs.Options.{MakesBy};

use crate::rt::prelude::*; use super::{copy_out, fill};
use crate::address::Slot;
use crate::handles::any::AnyInterner;
use crate::handle::Handle;
use crate::handles::hasher::ChosenHasher;
use crate::handles::kind::Kind;
use crate::handles::options::Options;
use crate::handles::status::Status;
use crate::rt::serde_json::Value;
use crate::rt::alloc::Global;

/// Returns the JSON array of the texts of a handle.
fn json_of(alloc: Global, h: &Handle) -> Result<Vec<u8>, Status>
    //~ ensures json { IsJsonOf h.old.value result }
    //~ ensures same { h.new.value ≡ h.old.value }
{
    let value = h.read().to_json(alloc)?;
    match value.try_to_vec(alloc) {
        Ok(bytes) => Ok(bytes),
        Err(_) => Err(Status::NoMemory),
    }
}

/// Copies the JSON array of the texts to a buffer.
pub fn to_json(
    alloc: Global,
    h: &Handle,
    room: &mut [u8],
    len: &mut usize,
) -> Result<(), Status>
    //~ ensures writes { CopiesJson h.old.value (room.old, len.old) result (room.new, len.new) }
    //~ ensures same { h.new.value ≡ h.old.value }
{
    match json_of(alloc, h) {
        Ok(bytes) => copy_out(&bytes, room, len),
        Err(status) => Err(status),
    }
}

/// Parses the bytes as a JSON value.
fn value_of(alloc: Global, bytes: &[u8]) -> Result<Value, Status>
    //~ ensures { IsValueOf bytes.now result }
{
    match Value::from_slice(alloc, bytes) {
        Ok(value) => Ok(value),
        Err(error) => {
            if error.is_memory() {
                Err(Status::NoMemory)
            } else {
                Err(Status::BadText)
            }
        }
    }
}

/// Makes an interner of this kind with this hasher of a JSON array of strings. If it is `exact`, all strings must differ.
fn read_value(
    alloc: Global,
    kind: Kind,
    value: &Value,
    hasher: ChosenHasher,
    exact: bool,
) -> Result<AnyInterner, Status>
    //~ ensures { ReadsValue (ReadsBy exact kind (view value.now)) result }
{
    if exact {
        Ok(AnyInterner::from_json_exact(alloc, kind, value, hasher)?)
    } else {
        Ok(AnyInterner::from_json(alloc, kind, value, hasher)?)
    }
}

/// Makes an interner of the kind with this code, with this hasher, from a JSON array of strings. If it is `exact`, all strings
/// must differ.
//~ #[tactic(auto, using(crate::proofs::Lemmas::Json::refuses_kind, crate::proofs::Lemmas::Json::reads_bytes))]
fn read(
    alloc: Global,
    kind: u32,
    bytes: &[u8],
    hasher: ChosenHasher,
    exact: bool,
) -> Result<AnyInterner, Status>
    //~ ensures { ReadsJson (ReadsBy exact) kind bytes.now result }
{
    let kind = Kind::from_code(kind)?;
    let value = value_of(alloc, bytes)?;
    read_value(alloc, kind, &value, hasher, exact)
}

/// Makes an interner with these options from a JSON array of strings. If it is `exact`, all strings must differ.
fn read_with(
    alloc: Global,
    options: &Options,
    bytes: &[u8],
    exact: bool,
) -> Result<AnyInterner, Status>
    //~ ensures { MakesBy options.now (ReadsJson (ReadsBy exact) options.now.kind bytes.now) result }
{
    let Some(hasher) = options.choose_hasher() else {
        return Err(Status::BadHasher);
    };
    read(alloc, options.kind, bytes, hasher, exact)
}

/// Makes a handle on an interner of the texts of a JSON array, without keys. Repeats add no text.
pub fn from_json(alloc: Global, kind: u32, bytes: &[u8], slot: &mut Slot) -> Result<(), Status>
    //~ ensures { Fills (ReadsJson ReadsAs kind bytes.now) slot.old result slot.new }
{
    fill(
        alloc,
        read(alloc, kind, bytes, ChosenHasher::fixed(), false),
        slot,
    )
}

/// Makes a handle on an interner of the texts of a JSON array, with these options. Repeats add no text, and if it is `exact`,
/// there must be none.
pub fn from_json_with(
    alloc: Global,
    options: &Options,
    bytes: &[u8],
    exact: bool,
    slot: &mut Slot,
) -> Result<(), Status>
    //~ ensures { Fills (MakesBy options.now (ReadsJson (ReadsBy exact) options.now.kind bytes.now))
    //~     slot.old result slot.new }
{
    fill(alloc, read_with(alloc, options, bytes, exact), slot)
}
