//! Bytes that are held until they are a block.

//~ ghost use Rattle.std.specs.Prelude.{◌≡◌, ◌+◌, ◌<◌, ◌≤◌, ◌^◌, [], ◌++◌, length, IfOk, OnOk};
//~ ghost use Rattle.dictcol.specs.Writes.{Puts};

use crate::rt::prelude::*; use crate::rt::alloc::{AllocError, Global};
use crate::rt::io;
use crate::rt::io::Write;
use crate::rt::marker::Model;

/// How many bytes are written at once, at least.
pub const BLOCK: usize = 1 << 16;

/// For how many bytes there is room: a block, and what is put behind it at once.
const ROOM: usize = 1 << 17;

/// So many bytes are written from where they are.
const LONG: usize = 1 << 15;

/// Bytes that are held for an output.
//~ #[derive(Drop)]
pub struct BlockWriter {
    bytes: Vec<u8>,
}

//~ /// Contracts see the bytes.
//~ impl Model for BlockWriter {
//~     ghost use Rattle.std.specs.Prelude.{◌≤◌, ◌^◌, vec_capacity};
//~     ghost use Rattle.string_interner.specs.Text.{Text};
//~
//~     ghost Value = { Text };
//~
//~     ghost view = { λ h. h.bytes.items };
//~
//~     ghost invariant = { λ h. 2 ^ 17 ≤ vec_capacity h.bytes };
//~ }

impl BlockWriter {
    /// Makes the room, and holds nothing.
    pub fn new(alloc: Global) -> Result<Self, AllocError>
        //~ ensures { IfOk result (λ block. block ≡ []) }
    {
        let bytes = Vec::with_capacity(alloc, ROOM)?;
        Ok(BlockWriter { bytes })
    }

    /// Returns how many bytes are held.
    pub fn len(&self) -> usize
        //~ ensures { result ≡ length self.now }
    {
        self.bytes.len()
    }

    /// Appends bytes, for which there is room.
    #[inline(always)]
    pub fn put(&mut self, bytes: &[u8])
        //~ requires { length self.old + length bytes.now ≤ 2 ^ 17 }
        //~ ensures { self.new ≡ self.old ++ bytes.now }
    {
        let Ok(()) = self.bytes.extend_from_slice(bytes) else {
            unreachable!()
        };
    }

    /// Writes what is held.
    #[cold]
    #[inline(never)]
    pub fn write<W: Write>(&mut self, output: &mut W) -> io::Result<()>
        //~ ensures empty { OnOk result (self.new ≡ []) }
        //~ ensures puts { OnOk result
        //~     (Puts (W.contents output.old) self.old (W.contents output.new) self.new []) }
    {
        output.write_all(&self.bytes)?;
        self.bytes.clear();
        Ok(())
    }

    /// Appends bytes. If they are a block with those that are held, some are written.
    #[inline]
    pub fn append<W: Write>(&mut self, output: &mut W, bytes: &[u8]) -> io::Result<()>
        //~ ensures puts { OnOk result
        //~     (Puts (W.contents output.old) self.old (W.contents output.new) self.new bytes.now) }
        //~ ensures room { OnOk result (length self.new < 2 ^ 17) }
    {
        if bytes.len() >= LONG {
            self.write(output)?;
            return output.write_all(bytes);
        }
        if self.len() >= BLOCK {
            self.write(output)?;
        }
        self.put(bytes);
        Ok(())
    }
}
