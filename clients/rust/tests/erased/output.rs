//! What the program `suite` writes to beside what the programs for cargo do.

use super::io::{Result, Write};
use std::io::Cursor;

macro_rules! rattle_println {
    ($rt:expr; $($text:tt)*) => {
        $crate::rt::io::print($rt.stdout(), format_args!("{}\n", format_args!($($text)*)))
    };
}

pub(crate) use rattle_println as println;

impl<const N: usize> Write for Cursor<[u8; N]> {
    fn write(&mut self, bytes: &[u8]) -> Result<usize> {
        Ok(std::io::Write::write(self, bytes)?)
    }

    fn flush(&mut self) -> Result<()> {
        Ok(())
    }
}
