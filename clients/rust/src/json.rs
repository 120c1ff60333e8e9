//! An interner as a JSON array of its texts.

use crate::backend::Backend;
use crate::error::InternError;
use crate::interner::StringInterner;
use crate::rt::alloc::Global;
use crate::rt::serde_json::{self, write_text, Value};
use alloc::string::String;
use core::error::Error;
use core::fmt;
use core::hash::BuildHasher;

/// Why reading an interner from JSON failed, and where.
#[derive(Clone, Copy, Debug, PartialEq, Eq)]
#[non_exhaustive]
pub enum JsonError {
    /// The text is not JSON. The place is that of what is no token, or of the token behind one that may not be where it is; or that of
    /// the last byte, if the text ends too early.
    NotJson {
        /// The line, counted from 1.
        line: usize,
        /// The byte in the line, counted from 1.
        column: usize,
    },
    /// The value is not an array.
    NotAList,
    /// An element is not a string.
    NotAText {
        /// Which element it is, counted from 0.
        index: usize,
    },
    /// No symbol is left for a text.
    NoSymbol,
    /// An allocation failed.
    Memory,
}

impl From<InternError> for JsonError {
    fn from(error: InternError) -> Self {
        match error {
            InternError::NoSymbol => JsonError::NoSymbol,
            InternError::Memory => JsonError::Memory,
        }
    }
}

impl From<serde_json::Error> for JsonError {
    fn from(error: serde_json::Error) -> Self {
        match error {
            serde_json::Error::Memory => JsonError::Memory,
            serde_json::Error::Cut { line, column }
            | serde_json::Error::Invalid { line, column }
            | serde_json::Error::OutOfRange { line, column } => JsonError::NotJson { line, column },
        }
    }
}

impl fmt::Display for JsonError {
    fn fmt(&self, f: &mut fmt::Formatter<'_>) -> fmt::Result {
        match self {
            JsonError::NotJson { line, column } => {
                write!(f, "not JSON at line {line} column {column}")
            }
            JsonError::NotAList => f.write_str("not an array"),
            JsonError::NotAText { index } => write!(f, "element {index} is not a string"),
            JsonError::NoSymbol => f.write_str("no symbol is left"),
            JsonError::Memory => f.write_str("out of memory"),
        }
    }
}

impl Error for JsonError {}

impl<B: Backend, H: BuildHasher + Default> StringInterner<B, H> {
    /// Returns an interner of the texts of a JSON array of strings. Repeats add no text.
    ///
    /// ```
    /// use string_interner::{DefaultStringInterner, JsonError};
    ///
    /// let names = <DefaultStringInterner>::from_json(r#"["Tiger", "Horse", "Tiger"]"#).unwrap();
    /// assert_eq!(names.len(), 2);
    /// let error = <DefaultStringInterner>::from_json("[\"Tiger\",\n Horse]").unwrap_err();
    /// assert_eq!(error, JsonError::NotJson { line: 2, column: 2 });
    /// ```
    ///
    /// # Errors
    ///
    /// Returns an error if the text is not such an array, no symbol is left for a text, or an allocation fails. What is not JSON, or
    /// no string, is told by its [place](JsonError).
    pub fn from_json(json: &str) -> Result<Self, JsonError> {
        let value = Value::from_str(Global, json)?;
        let elements = value.as_array().ok_or(JsonError::NotAList)?;
        let mut interner = Self::new();
        for (index, element) in elements.iter().enumerate() {
            let text = element.as_str().ok_or(JsonError::NotAText { index })?;
            interner.try_get_or_intern(text)?;
        }
        Ok(interner)
    }
}

impl<B: Backend, H> StringInterner<B, H> {
    /// Returns the JSON array of the texts.
    pub fn to_json(&self) -> String {
        write(self.iter().map(|(_, text)| text))
    }
}

/// Returns the JSON array of these texts.
pub(crate) fn write<'a>(texts: impl Iterator<Item = &'a str>) -> String {
    let mut json = String::from("[");
    for (number, text) in texts.enumerate() {
        if number > 0 {
            json.push(',');
        }
        write_text(text, &mut json).expect("writing to a string does not fail");
    }
    json.push(']');
    json
}
