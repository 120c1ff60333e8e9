//! One field of each line, in the place of the line.

//~ ghost use Rattle.std.specs.Prelude.{◌≡◌, ◌++◌, ◌≤◌, ◌<◌, [], ◌∷◌, length, take, if◌then◌else◌};
//~ ghost use Rattle.dictcol.specs.Field.{fields_left, picked_left, picked_text, Picks};

use crate::rt::prelude::*; use crate::rt::io;
use crate::rt::io::{ErrorKind, Read};
use crate::rt::num::NonZeroUsize;

/// Which part of each line is read.
#[derive(Clone, Copy)]
pub struct Field {
    /// The number of the part, from 1 on.
    pub number: NonZeroUsize,
    /// The byte between two parts. Quotes have no meaning.
    pub separator: u8,
}

/// What was read of a line so far.
#[derive(Clone, Copy)]
enum Seen {
    Nothing,
    /// Bytes of which none is of the field.
    Others,
    Field,
}

/// How far a line was read.
#[derive(Clone, Copy)]
struct BegunLine {
    /// How many separators it has had.
    passed: usize,
    seen: Seen,
}

impl BegunLine {
    /// Moves the bytes of a field, and the ends of lines, to the front of the bytes that come next. Returns how many these are.
    fn pick(&mut self, field: Field, bytes: &mut [u8]) -> usize
        //~ ensures within { result ≤ length bytes.new }
        //~ ensures picked { Picks field self.old self.new bytes.old (take result bytes.new) }
    {
        let mut kept = 0;
        for at in 0..bytes.len() {
            let byte = bytes[at];
            if self.takes(field, byte) {
                bytes[kept] = byte;
                kept += 1;
            }
        }
        kept
    }

    /// Takes the next byte, and returns whether it ends a line or is of the field.
    #[inline(always)]
    fn takes(&mut self, field: Field, byte: u8) -> bool
        //~ ensures { Picks field self.old self.new (byte ∷ []) (if result then byte ∷ [] else []) }
    {
        if byte == b'\n' {
            self.passed = 0;
            self.seen = Seen::Nothing;
            return true;
        }
        let place = field.number.get() - 1;
        if byte == field.separator {
            self.passed = self.passed.saturating_add(1);
        } else if self.passed == place {
            self.seen = Seen::Field;
            return true;
        }
        self.seen = match self.seen {
            Seen::Nothing => Seen::Others,
            seen => seen,
        };
        false
    }

    /// Ends the last line, if nothing was kept of it: an empty line is one by its newline alone. Returns how many bytes that takes.
    fn end(&mut self, buf: &mut [u8]) -> usize
        //~ ensures within { result ≤ length buf.new }
        //~ ensures ended { (field : Field) → fields_left field self.old []
        //~     ≡ take result buf.new ++ fields_left field self.new [] }
        //~ ensures same { result ≡ 0 → self.new ≡ self.old }
        //~ ensures all { 0 < length buf.old → (field : Field) → fields_left field self.new [] ≡ [] }
    {
        match self.seen {
            Seen::Others if !buf.is_empty() => {
                self.seen = Seen::Nothing;
                buf[0] = b'\n';
                1
            }
            _ => 0,
        }
    }
}

/// Reads one field of each line of an input, or the lines as they are. The field of a line of fewer parts is empty. A newline ends it if
/// one ended the line, or if it is empty, so that it is a line, too. Nothing of the input is held.
//~ #[derive(Drop)]
pub struct Picked<R: Read> {
    pub input: R,
    /// What is read of each line, if it is not the line.
    pub field: Option<Field>,
    line: BegunLine,
}

impl<R: Read> Picked<R> {
    /// Returns the input, of each of whose lines this field is read, or all if there is none.
    pub fn new(input: R, field: Option<Field>) -> Self
        //~ ensures text { picked_left result.field result.line (R.remaining result.input)
        //~     ≡ picked_text field (R.remaining input) }
        //~ ensures input { result.input ≡ input }
        //~ ensures field { result.field ≡ field }
    {
        Picked {
            input,
            field,
            line: BegunLine {
                passed: 0,
                seen: Seen::Nothing,
            },
        }
    }
}

impl<R: Read> Read for Picked<R> {
    //~ ghost remaining = { λ picked.
    //~     picked_left picked.field picked.line (R.remaining picked.input) };

    fn read(&mut self, buf: &mut [u8]) -> io::Result<usize> {
        let Some(field) = self.field else {
            return self.input.read(buf);
        };
        for _ in 0..u64::MAX {
            let count = self.input.read(buf)?;
            if count == 0 {
                return Ok(self.line.end(buf));
            }
            let kept = self.line.pick(field, &mut buf[..count]);
            if kept > 0 {
                return Ok(kept);
            }
        }
        Err(io::Error::from(ErrorKind::Interrupted))
    }
}
