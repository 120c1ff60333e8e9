//! Reading a whole input.

//~ ghost use Rattle.std.specs.Prelude.{◌≡◌, ◌<◌, ◌++◌, length, List, ℕ, IfOk, IfErr, IfSome, IsTrue, OnOk};
//~ ghost use Rattle.std.specs.Io.KnownBytes.{Consumes, IsAtEnd};
//~ ghost use Rattle.dictcol.specs.Fault.{IsReadFault};

use crate::rt::prelude::*; use crate::dictcol::fault::Fault;
use crate::rt::alloc::Global;
use crate::rt::io;
use crate::rt::io::{ErrorKind, Read};

/// How many bytes are read at once.
const BLOCK: usize = 1 << 16;

/// Reads once to the block, and appends what came. Returns whether the input ended.
fn read_more<R: Read>(
    input: &mut R,
    block: &mut Vec<u8>,
    bytes: &mut Vec<u8>,
) -> Result<bool, Fault>
    //~ requires { 0 < length block.old.items }
    //~ ensures block { length block.new.items ≡ length block.old.items }
    //~ ensures more { OnOk result ((more : List ℕ) × (bytes.new.items ≡ bytes.old.items ++ more)
    //~     × Consumes (R.remaining input.old) (R.remaining input.new) more) }
    //~ ensures end { IfOk result (λ is_end. IsTrue is_end → IsAtEnd (R.remaining input.new)) }
    //~ ensures fault { IfErr result IsReadFault }
{
    let count = match input.read(block) {
        Ok(count) => count,
        Err(error) if error.kind() == ErrorKind::Interrupted => return Ok(false),
        Err(error) => return Err(Fault::of_read(error)),
    };
    match bytes.extend_from_slice(&block[..count]) {
        Ok(()) => Ok(count == 0),
        Err(_) => Err(Fault::Memory),
    }
}

/// Reads the whole input, a block at a time: `read_to_end` would write zeros to all room before it reads there, and take a third
/// longer than these copies.
pub fn read_whole<R: Read>(alloc: Global, input: &mut R) -> Result<Vec<u8>, Fault>
    //~ ensures whole { IfOk result (λ bytes.
    //~     IfSome (R.remaining input.old) (λ all. bytes.items ≡ all)) }
    //~ ensures end { OnOk result (IsAtEnd (R.remaining input.new)) }
    //~ ensures fault { IfErr result IsReadFault }
{
    let Ok(mut block) = crate::rt::vec![in alloc; 0_u8; BLOCK] else {
        return Err(Fault::Memory);
    };
    let mut bytes = Vec::new(alloc);
    for _ in 0..u64::MAX {
        if read_more(input, &mut block, &mut bytes)? {
            return Ok(bytes);
        }
    }
    Err(Fault::of_read(io::Error::from(ErrorKind::Interrupted)))
}
