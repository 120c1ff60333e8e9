//! The tokens of a JSON text, one after another, for what the prover's library `json` does in the proved code.
//!
//! A reader checks where commas and colons are. Whether each bracket closes what was opened, and whether keys are where they have
//! to be, is for its caller to check: so it may begin within a list.

use super::alloc::{AllocError, Global};
use super::memchr::{find, memchr};
use super::simd::prelude::u8x16;
use super::string::String;

/// A token.
#[derive(Clone, Copy)]
pub enum Token<'a> {
    BeginObject,
    EndObject,
    BeginArray,
    EndArray,
    /// A string with a colon behind it.
    Key(&'a str),
    String(&'a str),
    /// As it is written.
    Number(&'a str),
    Bool(bool),
    Null,
    /// From here on the text is no JSON.
    Bad,
}

/// What may come next.
#[derive(Clone, Copy, PartialEq, Eq)]
enum Place {
    /// A value, a key or the end of what was opened.
    Fresh,
    /// The end of what was opened.
    AfterValue,
    /// A value or a key.
    AfterComma,
}

/// Why a string or a word is bad.
#[derive(Clone, Copy, PartialEq, Eq)]
enum Fault {
    /// The text ends within it.
    Cut,
    Invalid,
}

/// Memory for the strings that have escapes.
pub struct Scratch(String);

impl Scratch {
    pub fn new(alloc: Global) -> Self {
        Scratch(String::new(alloc))
    }

    /// Makes room for so many bytes. `Err` only if memory is refused.
    pub fn with_capacity(alloc: Global, capacity: usize) -> Result<Self, AllocError> {
        String::with_capacity(alloc, capacity).map(Scratch)
    }
}

/// Reads the tokens of a text.
pub struct Reader<'a> {
    text: &'a str,
    /// Where the next token begins, or the text ends.
    at: usize,
    place: Place,
    /// The last string that had escapes. There is room for each.
    unescaped: &'a mut String,
    takes_halves: bool,
}

impl<'a> Reader<'a> {
    /// Reads a text from its begin on. `Err` only if memory is refused.
    pub fn new(text: &'a str, scratch: &'a mut Scratch) -> Result<Self, AllocError> {
        // What stands for an escape is no longer than the escape.
        if memchr(b'\\', text.as_bytes()).is_some() {
            scratch.0.reserve_exact(text.len())?;
        }
        Ok(Reader::with_room(text, scratch))
    }

    /// The same, if there is room for the text.
    pub fn with_room(text: &'a str, scratch: &'a mut Scratch) -> Self {
        let mut reader = Reader {
            text,
            at: 0,
            place: Place::Fresh,
            unescaped: &mut scratch.0,
            takes_halves: false,
        };
        reader.pass_spaces();
        reader
    }

    /// Takes half of a pair of escapes, which stands for no letter, as U+FFFD from here on.
    pub fn take_halves(&mut self) {
        self.takes_halves = true;
    }

    /// Returns where the next token begins. It is behind the comma or colon after the last one.
    pub fn offset(&self) -> usize {
        self.at
    }

    /// Returns whether the text ends here, behind a value or a bracket.
    pub fn is_at_end(&self) -> bool {
        self.at == self.text.len() && self.place != Place::AfterComma
    }

    /// Returns whether what comes next is bad because the text ends too early. `is_value` tells whether a value may come, or else a
    /// string alone.
    pub fn is_cut(&self, is_value: bool) -> bool {
        let rest = &self.text.as_bytes()[self.at..];
        match rest.first() {
            None => true,
            Some(_) if self.place == Place::AfterValue => false,
            Some(b'"') => scan_string(&rest[1..]) == Err(Fault::Cut),
            Some(_) => {
                let word = &rest[..word_len(rest)];
                is_value && word.len() == rest.len() && check_word(word) == Err(Fault::Cut)
            }
        }
    }

    /// Takes the bracket that closes a list, if it is next.
    #[inline]
    pub fn take_end_array(&mut self) -> bool {
        let is_end = self.next_byte() == Some(b']') && self.place != Place::AfterComma;
        if is_end {
            self.close();
        }
        is_end
    }

    /// Returns the next token, or `None` at the end of the text.
    #[inline]
    pub fn next(&mut self) -> Option<Token<'_>> {
        let Some(byte) = self.next_byte() else {
            return match self.place {
                Place::AfterComma => Some(Token::Bad),
                _ => None,
            };
        };
        let is_closed = matches!(byte, b'}' | b']');
        let is_allowed = match self.place {
            Place::Fresh => true,
            Place::AfterValue => is_closed,
            Place::AfterComma => !is_closed,
        };
        if !is_allowed {
            return Some(Token::Bad);
        }
        Some(match byte {
            b'{' => self.open(Token::BeginObject),
            b'[' => self.open(Token::BeginArray),
            b'}' => {
                self.close();
                Token::EndObject
            }
            b']' => {
                self.close();
                Token::EndArray
            }
            b'"' => self.read_string(),
            _ => self.read_word(),
        })
    }

    #[inline(always)]
    fn next_byte(&self) -> Option<u8> {
        self.text.as_bytes().get(self.at).copied()
    }

    #[inline(always)]
    fn pass_spaces(&mut self) {
        while self.next_byte().is_some_and(is_space) {
            self.at += 1;
        }
    }

    /// Passes this byte and the spaces behind it, if it is next.
    #[inline(always)]
    fn passes(&mut self, byte: u8) -> bool {
        let is_next = self.next_byte() == Some(byte);
        if is_next {
            self.at += 1;
            self.pass_spaces();
        }
        is_next
    }

    /// Passes a bracket that opens.
    fn open(&mut self, token: Token<'static>) -> Token<'static> {
        self.at += 1;
        self.place = Place::Fresh;
        self.pass_spaces();
        token
    }

    /// Passes a bracket that closes.
    #[inline(always)]
    fn close(&mut self) {
        self.end_value(self.at + 1);
    }

    /// Goes behind a value, which ends here, and behind the comma after it.
    #[inline(always)]
    fn end_value(&mut self, end: usize) {
        self.at = end;
        self.pass_spaces();
        self.place = if self.passes(b',') {
            Place::AfterComma
        } else {
            Place::AfterValue
        };
    }

    /// Returns a number, or another word.
    #[inline(always)]
    fn read_word(&mut self) -> Token<'_> {
        let start = self.at;
        let len = word_len(&self.text.as_bytes()[start..]);
        let word = &self.text[start..start + len];
        let token = match word {
            "true" => Token::Bool(true),
            "false" => Token::Bool(false),
            "null" => Token::Null,
            _ if check_number(word.as_bytes()).is_ok() => Token::Number(word),
            _ => return Token::Bad,
        };
        self.end_value(start + len);
        token
    }

    /// Returns a string, or a key.
    fn read_string(&mut self) -> Token<'_> {
        let start = self.at + 1;
        let Ok(string) = scan_string(&self.text.as_bytes()[start..]) else {
            return Token::Bad;
        };
        let text = &self.text[start..start + string.len];
        if string.has_escape {
            let half = self.takes_halves.then_some(char::REPLACEMENT_CHARACTER);
            if unescape(text, half, self.unescaped).is_none() {
                return Token::Bad;
            }
        }
        self.at = start + string.len + 1;
        self.pass_spaces();
        let is_key = self.passes(b':');
        if is_key {
            self.place = Place::Fresh;
        } else {
            self.end_value(self.at);
        }
        let text = if string.has_escape {
            self.unescaped.as_str()
        } else {
            text
        };
        if is_key {
            Token::Key(text)
        } else {
            Token::String(text)
        }
    }
}

fn is_space(byte: u8) -> bool {
    matches!(byte, b' ' | b'\n' | b'\t' | b'\r')
}

/// Returns how many bytes come before a bracket, a comma, a colon, a space or the end.
#[inline(always)]
fn word_len(bytes: &[u8]) -> usize {
    let ends =
        |byte: &u8| is_space(*byte) || matches!(byte, b'{' | b'}' | b'[' | b']' | b',' | b':');
    bytes.iter().position(ends).unwrap_or(bytes.len())
}

/// Checks that a word is one of three, or a number.
fn check_word(word: &[u8]) -> Result<(), Fault> {
    for known in [&b"true"[..], b"false", b"null"] {
        if known == word {
            return Ok(());
        }
        if known.starts_with(word) {
            return Err(Fault::Cut);
        }
    }
    check_number(word)
}

/// Checks that a word is a number, as JSON writes it.
#[inline(always)]
fn check_number(word: &[u8]) -> Result<(), Fault> {
    let unsigned = word.strip_prefix(b"-").unwrap_or(word);
    let mut rest = match unsigned.strip_prefix(b"0") {
        Some(rest) => rest,
        None => pass_digits(unsigned)?,
    };
    if let Some(fraction) = rest.strip_prefix(b".") {
        rest = pass_digits(fraction)?;
    }
    if let [b'e' | b'E', exponent @ ..] = rest {
        let digits = match exponent {
            [b'+' | b'-', digits @ ..] => digits,
            digits => digits,
        };
        rest = pass_digits(digits)?;
    }
    if rest.is_empty() {
        Ok(())
    } else {
        Err(Fault::Invalid)
    }
}

/// Returns what is behind one digit or more.
#[inline(always)]
fn pass_digits(bytes: &[u8]) -> Result<&[u8], Fault> {
    let is_other = |byte: &u8| !byte.is_ascii_digit();
    match bytes.iter().position(is_other) {
        Some(0) => Err(Fault::Invalid),
        Some(end) => Ok(&bytes[end..]),
        None if bytes.is_empty() => Err(Fault::Cut),
        None => Ok(&[]),
    }
}

/// A string, as it is written.
#[derive(PartialEq, Eq)]
struct Quoted {
    /// How many bytes come before the quote that ends it.
    len: usize,
    has_escape: bool,
}

/// Returns where the first byte is that does not stand for itself in a string: a quote, a backslash or a control character.
#[inline(always)]
pub fn plain_len(bytes: &[u8]) -> Option<usize> {
    let [quote, backslash, space] = [b'"', b'\\', b' '].map(u8x16::splat);
    find(
        bytes,
        |lanes| {
            let is_sign = lanes.simd_eq(quote) | lanes.simd_eq(backslash);
            (is_sign | lanes.simd_lt(space)).to_bitmask()
        },
        |byte| matches!(byte, b'"' | b'\\' | 0..=31),
    )
}

/// Finds the end of a string, whose first quote is before these bytes.
fn scan_string(bytes: &[u8]) -> Result<Quoted, Fault> {
    let mut len = 0;
    let mut has_escape = false;
    loop {
        let rest = &bytes[len..];
        let end = plain_len(rest).ok_or(Fault::Cut)?;
        len += end;
        match rest[end] {
            b'"' => return Ok(Quoted { len, has_escape }),
            b'\\' => {
                has_escape = true;
                len += scan_escape(&rest[end + 1..])? + 1;
            }
            _ => return Err(Fault::Invalid),
        }
    }
}

/// Returns how many bytes an escape has behind its backslash.
fn scan_escape(bytes: &[u8]) -> Result<usize, Fault> {
    match bytes.first() {
        None => Err(Fault::Cut),
        Some(b'"' | b'\\' | b'/' | b'b' | b'f' | b'n' | b'r' | b't') => Ok(1),
        Some(b'u') => match bytes.get(1..5) {
            None => Err(Fault::Cut),
            Some(digits) if digits.iter().all(u8::is_ascii_hexdigit) => Ok(5),
            Some(_) => Err(Fault::Invalid),
        },
        Some(_) => Err(Fault::Invalid),
    }
}

/// Writes what a string with escapes stands for into a text, which has room for it. Returns `None` if one is half of a pair, unless
/// a letter is put there.
fn unescape(quoted: &str, half: Option<char>, into: &mut String) -> Option<()> {
    into.truncate(0);
    let mut rest = quoted;
    while let Some(at) = memchr(b'\\', rest.as_bytes()) {
        into.push_str(&rest[..at]).ok()?;
        let (letter, len) = read_escape(&rest.as_bytes()[at + 1..]);
        let letter = letter.or(half)?;
        into.push_str(letter.encode_utf8(&mut [0; 4])).ok()?;
        rest = &rest[at + 1 + len..];
    }
    into.push_str(rest).ok()
}

/// Returns the letter that an escape stands for, unless it is half of a pair, and how many bytes it has behind its backslash.
fn read_escape(escape: &[u8]) -> (Option<char>, usize) {
    let letter = match escape {
        [b'u', digits @ ..] => return read_unicode(digits),
        [b'b', ..] => '\u{8}',
        [b'f', ..] => '\u{c}',
        [b'n', ..] => '\n',
        [b'r', ..] => '\r',
        [b't', ..] => '\t',
        [byte, ..] => char::from(*byte),
        [] => return (None, 0),
    };
    (Some(letter), 1)
}

/// The same for an escape by number. A letter may take two of them.
fn read_unicode(digits: &[u8]) -> (Option<char>, usize) {
    let (first, behind) = read_hexadecimal(digits);
    let second = behind
        .strip_prefix(b"\\u")
        .map_or(0, |digits| read_hexadecimal(digits).0);
    match char::decode_utf16([first, second]).next() {
        Some(Ok(letter)) if letter > '\u{ffff}' => (Some(letter), 11),
        Some(Ok(letter)) => (Some(letter), 5),
        _ => (None, 5),
    }
}

/// Returns the number of four hexadecimal digits, and what is behind them.
fn read_hexadecimal(bytes: &[u8]) -> (u16, &[u8]) {
    let (digits, behind) = bytes.split_at(bytes.len().min(4));
    let number = digits.iter().fold(0, |number, digit| {
        number << 4 | char::from(*digit).to_digit(16).unwrap_or_default() as u16
    });
    (number, behind)
}
