//! Output whose lines a zero byte ends, and not a newline.

use crate::rt::prelude::*; use super::BUFFER;
use crate::dictcol::input::zero::exchange_ends;
use crate::rt::alloc::{AllocError, Global};
use crate::rt::io;
use crate::rt::io::Write;

/// Writes what it is given with newlines and zero bytes exchanged, if that is asked for.
//~ #[derive(Drop)]
pub struct Exchanged<W: Write> {
    output: W,
    /// Room for the bytes of a write; none if they are written as they are.
    block: Vec<u8>,
}

impl<W: Write + Drop> Exchanged<W> {
    /// Returns an output that exchanges the bytes, or writes them as they are.
    pub fn new(alloc: Global, output: W, is_exchanged: bool) -> Result<Self, AllocError> {
        let length = if is_exchanged { BUFFER } else { 0 };
        Ok(Exchanged {
            output,
            block: crate::rt::vec![in alloc; 0_u8; length]?,
        })
    }

    /// Returns the output that it writes to.
    pub fn get_ref(&self) -> &W {
        &self.output
    }
}

impl<W: Write> Write for Exchanged<W> {
    fn write(&mut self, buf: &[u8]) -> io::Result<usize> {
        let count = buf.len().min(self.block.len());
        if count == 0 {
            return self.output.write(buf);
        }
        let block = &mut self.block[..count];
        block.copy_from_slice(&buf[..count]);
        exchange_ends(block);
        self.output.write(block)
    }

    fn flush(&mut self) -> io::Result<()> {
        self.output.flush()
    }
}
