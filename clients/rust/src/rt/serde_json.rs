//! JSON values, for what the prover's library of this name does in the proved code, with the same requests for memory: for what
//! strings with escapes are read into, for each string, and for each list as it grows.

use super::alloc::{AllocError, Global};
use super::string::String;
use super::tokens::{plain_len, Reader, Scratch, Token};
use super::vec::Vec;
use core::fmt::{self, Display, Write};

/// How many lists and objects lie within each other at most.
const DEEPEST: usize = 127;
/// The least room for a string with escapes.
const LEAST_SCRATCH: usize = 8;

/// A value. It takes 32 bytes.
pub enum Value {
    Null,
    Bool(bool),
    Number(Number),
    Text(String),
    Array(Vec<Value>),
    /// The members as they are written.
    Object(Vec<(String, Value)>),
}

/// A number.
#[derive(Clone, Copy)]
pub enum Number {
    /// One from 0 to 2^64 - 1, written without a point and an exponent.
    Integer(u64),
    /// One too large for a float.
    TooLarge,
    Other,
}

/// Why a text was not read, and where: the line, and the column in it, from 1 on and in bytes.
#[derive(Clone, Copy, Debug)]
pub enum Error {
    Memory,
    /// The text ends too early.
    Cut {
        line: usize,
        column: usize,
    },
    Invalid {
        line: usize,
        column: usize,
    },
    /// A number is too large for a float.
    OutOfRange {
        line: usize,
        column: usize,
    },
}

impl Error {
    /// Reports whether memory was refused.
    pub fn is_memory(&self) -> bool {
        matches!(self, Error::Memory)
    }

    /// Reports whether the text ends too early.
    pub fn is_eof(&self) -> bool {
        matches!(self, Error::Cut { .. })
    }
}

impl fmt::Display for Error {
    fn fmt(&self, f: &mut fmt::Formatter<'_>) -> fmt::Result {
        match self {
            Error::Memory => f.write_str("out of memory"),
            Error::Cut { line, column } => {
                write!(f, "EOF while parsing at line {line} column {column}")
            }
            Error::Invalid { line, column } => {
                write!(f, "invalid JSON at line {line} column {column}")
            }
            Error::OutOfRange { line, column } => {
                write!(f, "number out of range at line {line} column {column}")
            }
        }
    }
}

impl core::error::Error for Error {}

impl From<AllocError> for Error {
    fn from(_: AllocError) -> Self {
        Error::Memory
    }
}

impl From<Vec<Value>> for Value {
    fn from(elements: Vec<Value>) -> Self {
        Value::Array(elements)
    }
}

impl From<usize> for Value {
    fn from(number: usize) -> Self {
        Value::Number(Number::Integer(number as u64))
    }
}

impl Value {
    /// Copies a text as a value. `Err` only if memory is refused.
    pub fn try_from_str(alloc: Global, text: &str) -> Result<Self, AllocError> {
        String::from_str(alloc, text).map(Value::Text)
    }

    /// Reads a JSON text of bytes, which must be UTF-8.
    pub fn from_slice(alloc: Global, bytes: &[u8]) -> Result<Self, Error> {
        match core::str::from_utf8(bytes) {
            Ok(json) => Value::from_str(alloc, json),
            Err(error) => Err(invalid_at(bytes, error.valid_up_to())),
        }
    }

    /// Reads a JSON text.
    pub fn from_str(alloc: Global, json: &str) -> Result<Self, Error> {
        match read(alloc, json, true) {
            // If the text ends too early, that is told, and not that a string before has half of a pair.
            Err(invalid @ Error::Invalid { .. }) => match read(alloc, json, false) {
                Err(error @ (Error::Cut { .. } | Error::Memory)) => Err(error),
                _ => Err(invalid),
            },
            outcome => outcome,
        }
    }

    /// Writes the value, which has numbers of `u64`, texts and lists alone. `Err` only if memory is refused.
    pub fn try_to_vec(&self, alloc: Global) -> Result<Vec<u8>, AllocError> {
        let mut json = String::with_capacity(alloc, self.written_len())?;
        write_value(self, &mut json).map_err(|_| AllocError)?;
        Ok(json.into_bytes())
    }

    /// Returns how many bytes it is written in if no byte of a text is escaped. A number may take more.
    fn written_len(&self) -> usize {
        match self {
            Value::Text(text) => text.len() + 2,
            Value::Array(elements) => {
                let lens = elements.iter().map(|element| element.written_len() + 1);
                lens.sum::<usize>() + 2
            }
            _ => 1,
        }
    }

    /// Returns a member of an object. Of several with one key the last counts.
    pub fn get(&self, key: &str) -> Option<&Value> {
        let Value::Object(members) = self else {
            return None;
        };
        let found = members.iter().rev().find(|(other, _)| **other == *key);
        found.map(|(_, value)| value)
    }

    pub fn as_array(&self) -> Option<&Vec<Value>> {
        match self {
            Value::Array(elements) => Some(elements),
            _ => None,
        }
    }

    pub fn as_str(&self) -> Option<&str> {
        match self {
            Value::Text(text) => Some(text),
            _ => None,
        }
    }

    pub fn as_u64(&self) -> Option<u64> {
        match self {
            Value::Number(Number::Integer(number)) => Some(*number),
            _ => None,
        }
    }

    pub fn as_bool(&self) -> Option<bool> {
        match self {
            Value::Bool(is_true) => Some(*is_true),
            _ => None,
        }
    }
}

/// Reads a JSON text. Unless it is strict, half of a pair is a letter, and a number may be too large.
fn read(alloc: Global, json: &str, is_strict: bool) -> Result<Value, Error> {
    let mut scratch = Scratch::with_capacity(alloc, json.len().max(LEAST_SCRATCH))?;
    let mut reader = Reader::with_room(json, &mut scratch);
    if !is_strict {
        reader.take_halves();
    }
    let mut parser = Parser {
        json,
        reader,
        alloc,
        is_strict,
    };
    let value = parser.read_value(DEEPEST)?;
    if parser.reader.is_at_end() {
        Ok(value)
    } else {
        Err(parser.invalid())
    }
}

/// Returns the line and the column of a byte. Those of the end are those of the byte before it.
fn place_of(bytes: &[u8], at: usize) -> (usize, usize) {
    let before = &bytes[..at];
    let line = before.rsplit(|byte| *byte == b'\n').next();
    let column = line.map_or(0, <[u8]>::len);
    let newlines = before.iter().filter(|byte| **byte == b'\n').count();
    let is_end = before.len() == bytes.len();
    (newlines + 1, if is_end { column } else { column + 1 })
}

/// Returns the error of a byte that may not be where it is.
fn invalid_at(bytes: &[u8], at: usize) -> Error {
    let (line, column) = place_of(bytes, at);
    Error::Invalid { line, column }
}

/// Reads values by their tokens.
struct Parser<'a> {
    json: &'a str,
    reader: Reader<'a>,
    alloc: Global,
    is_strict: bool,
}

impl Parser<'_> {
    /// Returns the line and the column of the next token.
    fn find_place(&self) -> (usize, usize) {
        place_of(self.json.as_bytes(), self.reader.offset())
    }

    /// Returns the error of a token that may not stand where it does.
    fn invalid(&self) -> Error {
        invalid_at(self.json.as_bytes(), self.reader.offset())
    }

    /// Returns the error of a number that comes before the next token.
    fn out_of_range(&self) -> Error {
        let (line, column) = self.find_place();
        Error::OutOfRange { line, column }
    }

    /// Returns the error of what is no token, or of the end of the text.
    fn bad(&self, is_value: bool) -> Error {
        let (line, column) = self.find_place();
        if self.reader.is_cut(is_value) {
            Error::Cut { line, column }
        } else {
            Error::Invalid { line, column }
        }
    }

    /// Returns the error of a key without a colon, which may be missing because the text ends.
    fn no_colon(&self) -> Error {
        if self.reader.is_at_end() {
            self.bad(false)
        } else {
            self.invalid()
        }
    }

    /// Reads a value, in which so many lists and objects may lie within each other.
    fn read_value(&mut self, nested: usize) -> Result<Value, Error> {
        let value = match self.reader.next() {
            Some(Token::Null) => Value::Null,
            Some(Token::Bool(is_true)) => Value::Bool(is_true),
            Some(Token::String(text)) => Value::try_from_str(self.alloc, text)?,
            Some(Token::Number(text)) => {
                let number = read_number(text);
                if self.is_strict && matches!(number, Number::TooLarge) {
                    return Err(self.out_of_range());
                }
                Value::Number(number)
            }
            Some(Token::BeginArray) if nested > 0 => Value::Array(self.read_elements(nested - 1)?),
            Some(Token::BeginObject) if nested > 0 => Value::Object(self.read_members(nested - 1)?),
            Some(Token::Bad) | None => return Err(self.bad(true)),
            Some(_) => return Err(self.invalid()),
        };
        Ok(value)
    }

    /// Reads the elements of a list, and the bracket that closes it.
    fn read_elements(&mut self, nested: usize) -> Result<Vec<Value>, Error> {
        let mut elements = Vec::new(self.alloc);
        while !self.reader.take_end_array() {
            let element = self.read_value(nested)?;
            elements.push(element)?;
        }
        Ok(elements)
    }

    /// Reads the members of an object, and the brace that closes it.
    fn read_members(&mut self, nested: usize) -> Result<Vec<(String, Value)>, Error> {
        let mut members = Vec::new(self.alloc);
        loop {
            let key = match self.reader.next() {
                Some(Token::EndObject) => return Ok(members),
                Some(Token::Key(key)) => String::from_str(self.alloc, key)?,
                Some(Token::String(_)) => return Err(self.no_colon()),
                Some(Token::Bad) | None => return Err(self.bad(false)),
                Some(_) => return Err(self.invalid()),
            };
            let value = self.read_value(nested)?;
            members.push((key, value))?;
        }
    }
}

fn read_number(text: &str) -> Number {
    if let Ok(integer) = text.parse() {
        return Number::Integer(integer);
    }
    match text.parse::<f64>() {
        Ok(float) if float.is_finite() => Number::Other,
        _ => Number::TooLarge,
    }
}

/// Fails for what no call of the proved code writes: null, true, false, objects and other numbers than those of `u64`.
impl Display for Value {
    fn fmt(&self, f: &mut fmt::Formatter<'_>) -> fmt::Result {
        write_value(self, f)
    }
}

fn write_value(value: &Value, into: &mut impl Write) -> fmt::Result {
    match value {
        Value::Text(text) => write_text(text, into),
        Value::Array(elements) => write_elements(elements, into),
        Value::Number(Number::Integer(number)) => write!(into, "{number}"),
        _ => Err(fmt::Error),
    }
}

fn write_elements(elements: &[Value], into: &mut impl Write) -> fmt::Result {
    into.write_str("[")?;
    for (number, element) in elements.iter().enumerate() {
        if number > 0 {
            into.write_str(",")?;
        }
        write_value(element, into)?;
    }
    into.write_str("]")
}

/// Writes a text. Fails only if writing does.
pub fn write_text(text: &str, into: &mut impl Write) -> fmt::Result {
    into.write_str("\"")?;
    let mut rest = text;
    while let Some(plain) = plain_len(rest.as_bytes()) {
        into.write_str(&rest[..plain])?;
        write_escape(rest.as_bytes()[plain], into)?;
        rest = &rest[plain + 1..];
    }
    into.write_str(rest)?;
    into.write_str("\"")
}

/// Writes a byte that does not stand for itself.
fn write_escape(byte: u8, into: &mut impl Write) -> fmt::Result {
    let digit = |number: u8| &"0123456789abcdef"[usize::from(number)..][..1];
    let sign = match byte {
        b'"' => "\\\"",
        b'\\' => "\\\\",
        8 => "\\b",
        9 => "\\t",
        10 => "\\n",
        12 => "\\f",
        13 => "\\r",
        _ => {
            into.write_str("\\u00")?;
            into.write_str(digit(byte / 16))?;
            digit(byte % 16)
        }
    };
    into.write_str(sign)
}
