//! Readers, writers and their errors. Only `read_to_end` and `BufWriter` ask for memory, and each read and write goes to the system
//! as it is.

use super::alloc::{AllocError, Global};
use super::string::String;
use super::vec::Vec;
use core::ffi::{c_char, c_int, CStr};
use core::fmt;
use core::mem::{replace, take};

/// What kind of error it is, as far as the programs ask. That of Rust's std is younger in part than the oldest compiler.
#[derive(Clone, Copy, Debug, PartialEq, Eq)]
pub enum ErrorKind {
    NotFound,
    AlreadyExists,
    ResourceBusy,
    WouldBlock,
    InvalidInput,
    InvalidData,
    InvalidFilename,
    BrokenPipe,
    WriteZero,
    UnexpectedEof,
    Interrupted,
    OutOfMemory,
    Other,
}

impl ErrorKind {
    /// Returns the kind of an error of the system, by its number of Linux.
    fn of(number: i32) -> Self {
        match number {
            2 => ErrorKind::NotFound,
            4 => ErrorKind::Interrupted,
            11 => ErrorKind::WouldBlock,
            12 => ErrorKind::OutOfMemory,
            16 => ErrorKind::ResourceBusy,
            17 => ErrorKind::AlreadyExists,
            22 => ErrorKind::InvalidInput,
            32 => ErrorKind::BrokenPipe,
            36 => ErrorKind::InvalidFilename,
            _ => ErrorKind::Other,
        }
    }
}

impl fmt::Display for ErrorKind {
    fn fmt(&self, f: &mut fmt::Formatter<'_>) -> fmt::Result {
        f.write_str(match self {
            ErrorKind::NotFound => "entity not found",
            ErrorKind::AlreadyExists => "entity already exists",
            ErrorKind::ResourceBusy => "resource busy",
            ErrorKind::WouldBlock => "operation would block",
            ErrorKind::InvalidInput => "invalid input parameter",
            ErrorKind::InvalidData => "invalid data",
            ErrorKind::InvalidFilename => "invalid filename",
            ErrorKind::BrokenPipe => "broken pipe",
            ErrorKind::WriteZero => "write zero",
            ErrorKind::UnexpectedEof => "unexpected end of file",
            ErrorKind::Interrupted => "operation interrupted",
            ErrorKind::OutOfMemory => "out of memory",
            ErrorKind::Other => "other error",
        })
    }
}

pub type Result<T> = core::result::Result<T, Error>;

/// Why reading, writing or a call about a file failed. Rust's own asks for memory to be displayed.
#[derive(Clone, Copy, Debug)]
pub enum Error {
    /// The system said so, by this number.
    System(i32),
    Kind(ErrorKind),
    /// With a message of its own.
    Told(ErrorKind, &'static str),
}

impl Error {
    /// Returns an error with a message of its own.
    pub fn new(kind: ErrorKind, text: &'static str) -> Self {
        Error::Told(kind, text)
    }

    /// Returns why the last call of the system failed.
    pub(super) fn last() -> Self {
        std::io::Error::last_os_error().into()
    }

    pub fn from_raw_os_error(number: i32) -> Self {
        Error::System(number)
    }

    /// Returns the number by which the system said so.
    pub fn raw_os_error(&self) -> Option<i32> {
        match *self {
            Error::System(number) => Some(number),
            Error::Kind(_) | Error::Told(..) => None,
        }
    }

    pub fn kind(&self) -> ErrorKind {
        match *self {
            Error::System(number) => ErrorKind::of(number),
            Error::Kind(kind) | Error::Told(kind, _) => kind,
        }
    }
}

impl From<ErrorKind> for Error {
    fn from(kind: ErrorKind) -> Self {
        Error::Kind(kind)
    }
}

impl From<AllocError> for Error {
    fn from(_: AllocError) -> Self {
        Error::Kind(ErrorKind::OutOfMemory)
    }
}

impl From<std::io::Error> for Error {
    fn from(error: std::io::Error) -> Self {
        let number = error.raw_os_error();
        number.map_or(Error::Kind(ErrorKind::Other), Error::System)
    }
}

unsafe extern "C" {
    // As POSIX has it, under the name that it has in the C libraries of Linux.
    #[link_name = "__xpg_strerror_r"]
    fn strerror_r(number: c_int, text: *mut c_char, room: usize) -> c_int;
}

/// The most bytes that a message of the system has here.
const MESSAGE: usize = 256;

impl fmt::Display for Error {
    fn fmt(&self, f: &mut fmt::Formatter<'_>) -> fmt::Result {
        match *self {
            Error::System(number) => {
                let mut text = [0_u8; MESSAGE];
                // SAFETY: it writes at most so many bytes, and the last one stays zero.
                unsafe { strerror_r(number, text.as_mut_ptr().cast(), MESSAGE - 1) };
                let text = CStr::from_bytes_until_nul(&text).unwrap_or_default();
                let text = text.to_str().unwrap_or_default();
                write!(f, "{text} (os error {number})")
            }
            Error::Kind(kind) => kind.fmt(f),
            Error::Told(_, text) => f.write_str(text),
        }
    }
}

impl core::error::Error for Error {}

/// Makes a call until it is not interrupted.
fn retry(mut call: impl FnMut() -> Result<usize>) -> Result<usize> {
    loop {
        match call() {
            Err(error) if error.kind() == ErrorKind::Interrupted => {}
            outcome => return outcome,
        }
    }
}

/// What bytes are read from.
pub trait Read {
    /// Reads once, and returns how many bytes came: none at the end.
    fn read(&mut self, bytes: &mut [u8]) -> Result<usize>;

    /// Appends all that is left. On `Err` what was read stays.
    fn read_to_end(&mut self, bytes: &mut Vec<u8>) -> Result<usize>
    where
        Self: Sized,
    {
        let start = bytes.len();
        let mut filled = start;
        let outcome = fill_to_end(self, bytes, &mut filled);
        bytes.truncate(filled);
        outcome.map(|()| filled - start)
    }

    /// Appends all that is left, which must be UTF-8, to a text that is empty.
    fn read_to_string(&mut self, text: &mut String) -> Result<usize>
    where
        Self: Sized,
    {
        let mut bytes = replace(text, String::new(Global)).into_bytes();
        let count = self.read_to_end(&mut bytes)?;
        *text = String::from_utf8(bytes).map_err(|_| {
            let text = "stream did not contain valid UTF-8";
            Error::Told(ErrorKind::InvalidData, text)
        })?;
        Ok(count)
    }
}

/// The room that a list gets first where it has none, and at least for each further read.
const LEAST_ROOM: usize = 512;
/// How many bytes are read at once: at first, and at most if there always were so many.
const FIRST_READ: usize = 8 * 1024;
const LONGEST_READ: usize = 128 * 1024;

/// Reads to the end. `filled` says how many bytes of the list were there or were read.
fn fill_to_end(reader: &mut impl Read, bytes: &mut Vec<u8>, filled: &mut usize) -> Result<()> {
    let first = bytes.capacity();
    let mut most = FIRST_READ;
    loop {
        make_room(bytes, *filled, first)?;
        let end = (bytes.capacity() - *filled).min(most) + *filled;
        if bytes.len() < end {
            bytes.resize(end, 0)?;
        }
        let count = retry(|| reader.read(&mut bytes[*filled..end]))?;
        if count == 0 {
            return Ok(());
        }
        *filled += count;
        if count >= most {
            most = (2 * most).min(LONGEST_READ);
        }
    }
}

/// Makes room for further bytes if a list is full. One that was passed with room first grows by a little, since most often nothing
/// more comes.
fn make_room(bytes: &mut Vec<u8>, filled: usize, first: usize) -> Result<()> {
    let capacity = bytes.capacity();
    if filled < capacity {
        return Ok(());
    }
    let made = if capacity == first {
        bytes.reserve_exact(LEAST_ROOM.max(capacity / 8))
    } else {
        bytes.reserve(LEAST_ROOM)
    };
    made.map_err(Error::from)
}

/// What bytes are written to.
pub trait Write {
    /// Writes once, and returns how many bytes were taken.
    fn write(&mut self, bytes: &[u8]) -> Result<usize>;

    /// Hands on what is held back.
    fn flush(&mut self) -> Result<()>;

    /// Writes all bytes.
    fn write_all(&mut self, bytes: &[u8]) -> Result<()> {
        let mut rest = bytes;
        while !rest.is_empty() {
            match retry(|| self.write(rest))? {
                0 => {
                    let text = "failed to write whole buffer";
                    return Err(Error::Told(ErrorKind::WriteZero, text));
                }
                count => rest = &rest[count..],
            }
        }
        Ok(())
    }

    /// Writes what is formatted. `write!` calls it.
    fn write_fmt(&mut self, text: fmt::Arguments<'_>) -> Result<()>
    where
        Self: Sized,
    {
        let mut formatted = Formatted {
            output: self,
            outcome: Ok(()),
        };
        let is_written = fmt::write(&mut formatted, text).is_ok();
        match formatted.outcome {
            Ok(()) if !is_written => Err(Error::Told(ErrorKind::Other, "formatter error")),
            outcome => outcome,
        }
    }
}

/// An output of formatted text, and how writing it went.
struct Formatted<'a, W> {
    output: &'a mut W,
    outcome: Result<()>,
}

impl<W: Write> fmt::Write for Formatted<'_, W> {
    fn write_str(&mut self, text: &str) -> fmt::Result {
        self.outcome = self.output.write_all(text.as_bytes());
        self.outcome.map_err(|_| fmt::Error)
    }
}

impl<R: Read> Read for &mut R {
    fn read(&mut self, bytes: &mut [u8]) -> Result<usize> {
        (**self).read(bytes)
    }
}

impl Write for Vec<u8> {
    fn write(&mut self, bytes: &[u8]) -> Result<usize> {
        self.extend_from_slice(bytes)?;
        Ok(bytes.len())
    }

    fn flush(&mut self) -> Result<()> {
        Ok(())
    }
}

impl<W: Write> Write for &mut W {
    fn write(&mut self, bytes: &[u8]) -> Result<usize> {
        (**self).write(bytes)
    }

    fn flush(&mut self) -> Result<()> {
        (**self).flush()
    }
}

unsafe extern "C" {
    fn read(file: c_int, bytes: *mut u8, count: usize) -> isize;
    fn write(file: c_int, bytes: *const u8, count: usize) -> isize;
    fn isatty(file: c_int) -> c_int;
}

/// A standard stream. In contrast to Rust's own it has no buffer, and using a closed one fails.
#[derive(Clone, Copy)]
pub struct Stream(c_int);

/// Standard output, by the name that Rattle has for it alone.
pub type Stdout = Stream;

impl Stream {
    pub(super) const INPUT: Self = Stream(0);
    pub(super) const OUTPUT: Self = Stream(1);
    pub(super) const ERROR: Self = Stream(2);
}

impl Read for Stream {
    fn read(&mut self, bytes: &mut [u8]) -> Result<usize> {
        // SAFETY: so many bytes may be written there.
        let count = unsafe { read(self.0, bytes.as_mut_ptr(), bytes.len()) };
        usize::try_from(count).map_err(|_| Error::last())
    }
}

impl Write for Stream {
    fn write(&mut self, bytes: &[u8]) -> Result<usize> {
        // SAFETY: so many bytes are there.
        let count = unsafe { write(self.0, bytes.as_ptr(), bytes.len()) };
        usize::try_from(count).map_err(|_| Error::last())
    }

    fn flush(&mut self) -> Result<()> {
        Ok(())
    }
}

/// What may be a terminal.
pub trait IsTerminal {
    fn is_terminal(&self) -> bool;
}

impl IsTerminal for Stream {
    fn is_terminal(&self) -> bool {
        // SAFETY: it takes each number.
        unsafe { isatty(self.0) == 1 }
    }
}

/// A line on its way to a stream, which gets it at once if it is short.
struct Line {
    stream: Stream,
    bytes: [u8; 1024],
    len: usize,
}

impl Write for Line {
    fn write(&mut self, bytes: &[u8]) -> Result<usize> {
        if self.len == self.bytes.len() {
            self.flush()?;
        }
        let room = &mut self.bytes[self.len..];
        let count = bytes.len().min(room.len());
        room[..count].copy_from_slice(&bytes[..count]);
        self.len += count;
        Ok(count)
    }

    fn flush(&mut self) -> Result<()> {
        self.stream.write_all(&self.bytes[..take(&mut self.len)])
    }
}

/// Prints a text. The macros call it.
pub fn print(stream: Stream, text: fmt::Arguments<'_>) -> Result<()> {
    let mut line = Line {
        stream,
        bytes: [0; 1024],
        len: 0,
    };
    let printed = line.write_fmt(text);
    line.flush().and(printed)
}

/// An input without bytes.
pub struct Empty;

pub fn empty() -> Empty {
    Empty
}

impl Read for Empty {
    fn read(&mut self, _: &mut [u8]) -> Result<usize> {
        Ok(0)
    }
}

/// A buffer before an output.
pub struct BufWriter<W: Write> {
    output: W,
    held: Vec<u8>,
}

impl<W: Write> BufWriter<W> {
    /// Makes a buffer of 8 KiB. `Err` only if memory is refused.
    pub fn new(alloc: Global, output: W) -> Result<Self> {
        BufWriter::with_capacity(alloc, 8192, output)
    }

    /// Makes a buffer of so many bytes. `Err` only if memory is refused.
    pub fn with_capacity(alloc: Global, capacity: usize, output: W) -> Result<Self> {
        let held = Vec::with_capacity(alloc, capacity)?;
        Ok(BufWriter { output, held })
    }

    /// Writes what is held. On `Err` what was not written is still held.
    fn write_held(&mut self) -> Result<()> {
        let mut written = 0;
        let mut outcome = Ok(());
        while written < self.held.len() && outcome.is_ok() {
            match retry(|| self.output.write(&self.held[written..])) {
                Ok(0) => {
                    let text = "failed to write the buffered data";
                    outcome = Err(Error::Told(ErrorKind::WriteZero, text));
                }
                Ok(count) => written += count,
                Err(error) => outcome = Err(error),
            }
        }
        let len = self.held.len();
        self.held.copy_within(written..len, 0);
        self.held.truncate(len - written);
        outcome
    }

    /// Holds bytes, before which others are written if there is no room. Returns whether they have to be written at once, because
    /// they are longer than the buffer.
    #[cold]
    #[inline(never)]
    fn hold_after_others(&mut self, bytes: &[u8]) -> Result<bool> {
        if bytes.len() > self.held.capacity() - self.held.len() {
            self.write_held()?;
        }
        if bytes.len() >= self.held.capacity() {
            self.write_held()?;
            return Ok(true);
        }
        self.held.extend_from_slice(bytes)?;
        Ok(false)
    }

    /// Holds bytes, and returns whether they have to be written at once.
    #[inline(always)]
    fn hold(&mut self, bytes: &[u8]) -> Result<bool> {
        if bytes.len() < self.held.capacity() - self.held.len() {
            self.held.extend_from_slice(bytes)?;
            return Ok(false);
        }
        self.hold_after_others(bytes)
    }
}

impl<W: Write> Write for BufWriter<W> {
    #[inline(always)]
    fn write(&mut self, bytes: &[u8]) -> Result<usize> {
        if self.hold(bytes)? {
            return self.output.write(bytes);
        }
        Ok(bytes.len())
    }

    #[inline(always)]
    fn write_all(&mut self, bytes: &[u8]) -> Result<()> {
        if self.hold(bytes)? {
            return self.output.write_all(bytes);
        }
        Ok(())
    }

    fn flush(&mut self) -> Result<()> {
        self.write_held()?;
        self.output.flush()
    }
}

impl<W: Write> Drop for BufWriter<W> {
    fn drop(&mut self) {
        // Who wants to know whether it was written calls `flush`.
        let _ = self.write_held();
    }
}
