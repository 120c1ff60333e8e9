//! A block of an input.

//~ ghost use Rattle.std.specs.Prelude.{◌≡◌, ◌<◌, ◌≤◌, [], ◌++◌, length, take, drop, false, IfOk, IfErr, OnOk, OnErr, MatchOption};
//~ ghost use Rattle.std.specs.Io.KnownBytes.{Consumes, IsAtEnd, Keeps};
//~ ghost use Rattle.string_interner.specs.Text.{Text};
//~ ghost use Rattle.dictcol.specs.declared.fault.Fault.TheVariants.{Memory};
//~ ghost use Rattle.dictcol.specs.Lines.{has_newline};

use crate::rt::prelude::*; use crate::dictcol::fault::Fault;
use crate::memchr::memrchr;
use crate::rt::alloc::Global;
use crate::rt::io;
use crate::rt::io::Read;

/// How many bytes are read at once.
const BLOCK: usize = 1 << 18;

/// What was read and is not taken yet. It begins where a line does.
//~ #[derive(Drop)]
pub struct Block {
    bytes: Vec<u8>,
    /// So many bytes are held. Those behind them are free.
    end: usize,
    //~ ghost within: { end ≤ length bytes.items },
}

impl Block {
    //~ ghost use Rattle.dictcol.specs.Blocks.{held, EndsAtNewline};

    /// Makes a block that holds nothing.
    pub fn new(alloc: Global) -> Result<Self, Fault>
        //~ ensures empty { IfOk result (λ block. held block ≡ []) }
        //~ ensures fault { IfErr result (λ fault. fault ≡ Memory) }
    {
        match crate::rt::vec![in alloc; 0_u8; BLOCK] {
            Ok(bytes) => Ok(Block { bytes, end: 0 }),
            Err(_) => Err(Fault::Memory),
        }
    }

    /// Makes it longer if no byte is free.
    pub fn reserve(&mut self) -> Result<(), Fault>
        //~ ensures same { held self.new ≡ held self.old }
        //~ ensures free { OnOk result (self.new.end < length self.new.bytes.items) }
        //~ ensures fault { IfErr result (λ fault. fault ≡ Memory) }
    {
        if self.end < self.bytes.len() {
            return Ok(());
        }
        let longer = self.end.saturating_add(self.end.max(BLOCK));
        match self.bytes.resize(longer, 0) {
            Ok(()) => Ok(()),
            Err(_) => Err(Fault::Memory),
        }
    }

    /// Reads once, behind what is held. Returns how many bytes came: none at the end of the input.
    pub fn read_from<R: Read>(&mut self, input: &mut R) -> io::Result<usize>
        //~ requires { self.old.end < length self.old.bytes.items }
        //~ ensures ok { IfOk result (λ count. (more : Text) × (length more ≡ count)
        //~     × (held self.new ≡ held self.old ++ more)
        //~     × Consumes (R.remaining input.old) (R.remaining input.new) more) }
        //~ ensures end { IfOk result (λ count. count ≡ 0 → IsAtEnd (R.remaining input.new)) }
        //~ ensures err { OnErr result ((held self.new ≡ held self.old)
        //~     × Keeps (R.remaining input.old) (R.remaining input.new)) }
    {
        let end = self.end;
        let count = input.read(&mut self.bytes[end..])?;
        self.end = end + count;
        Ok(count)
    }

    /// Finds the last newline from `start` on.
    pub fn find_newline(&self, start: usize) -> Option<usize>
        //~ requires { start ≤ length (held self.now) }
        //~ ensures { MatchOption result (has_newline (drop start (held self.now)) ≡ false)
        //~     (λ at. EndsAtNewline (held self.now) at) }
    {
        let at = memrchr(b'\n', &self.bytes[start..self.end])?;
        Some(start + at)
    }

    /// Drops the first bytes.
    pub fn drop_front(&mut self, count: usize)
        //~ requires { count ≤ length (held self.old) }
        //~ ensures { held self.new ≡ drop count (held self.old) }
    {
        let end = self.end;
        self.bytes.copy_within(count..end, 0);
        self.end = end - count;
    }

    /// Returns how many bytes are held.
    pub fn len(&self) -> usize
        //~ ensures { result ≡ length (held self.now) }
    {
        self.end
    }

    /// Returns the first bytes.
    pub fn front(&self, count: usize) -> &[u8]
        //~ requires { count ≤ length (held self.now) }
        //~ ensures { result.now ≡ take count (held self.now) }
    {
        &self.bytes[..count]
    }

    /// Returns what is held.
    pub fn into_bytes(self) -> Vec<u8>
        //~ ensures { result.items ≡ held self }
    {
        let Block { mut bytes, end } = self;
        bytes.truncate(end);
        bytes
    }
}
