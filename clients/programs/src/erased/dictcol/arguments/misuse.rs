//! What may be wrong with the arguments.

use crate::rt::prelude::*; use crate::dictcol::shown::ShownWord;
use crate::dictcol::source::INPUT_TWICE;
//~ use thiserror::Error;

/// What is wrong with the arguments. It is displayed as the message for standard error.
#[derive(Clone, Copy, Debug)]
pub enum Misuse<'a> {
    //~ #[error("missing command")]
    NoCommand,
    //~ #[error("unknown command {0}")]
    UnknownCommand(ShownWord<'a>),
    //~ #[error("unknown option {0}")]
    UnknownOption(ShownWord<'a>),
    //~ #[error("{0} takes no option '{1}'")]
    OptionOfAnother(&'a str, &'static str),
    //~ #[error("option '{0}' needs a value")]
    NoValue(&'static str),
    //~ #[error("option '{0}' needs option '{1}'")]
    NeedsOption(&'static str, &'static str),
    //~ #[error("option {0} takes no value")]
    HasValue(ShownWord<'a>),
    //~ #[error("unknown backend {0}")]
    UnknownBackend(ShownWord<'a>),
    //~ #[error("option '--invalid' takes error, replace or skip, and not {0}")]
    UnknownMending(ShownWord<'a>),
    //~ #[error("option '{0}' takes a number above 0, and not {1}")]
    NotPositive(&'static str, ShownWord<'a>),
    //~ #[error("option '--at-least' takes a number, and not {0}")]
    NoLeast(ShownWord<'a>),
    //~ #[error("option '{0}' takes one byte but no newline, and not {1}")]
    NoByte(&'static str, ShownWord<'a>),
    //~ #[error("extra operand {0}")]
    ExtraOperand(ShownWord<'a>),
    //~ #[error("extra operand {0}: files are named by option '--files0-from'")]
    FileBesideList(ShownWord<'a>),
    //~ #[error("option '{0}' excludes option '{1}'")]
    Excluded(&'static str, &'static str),
    //~ #[error("option '{0}' is given twice")]
    Repeated(&'static str),
    //~ #[error("merge needs a FILE")]
    NoFile,
    //~ #[error("shard needs a number and a DIR")]
    NoShards,
    //~ #[error("shard takes a number of files, and not {0}")]
    NoCount(ShownWord<'a>),
    //~ #[error("the DIR of {0} is empty")]
    EmptyFolder(&'static str),
    //~ #[error("get needs a DIR, and a TEXT or option '--rows'")]
    NoText,
    //~ #[error("option '--rows' takes a range like 3..5, and not {0}")]
    NoRange(ShownWord<'a>),
    //~ #[error("extra operand {0}: option '--rows' takes no TEXT beside it")]
    TextBesideRows(ShownWord<'a>),
    //~ #[error("{INPUT_TWICE}")]
    InputTwice,
    /// An allocation failed, which is no fault of the arguments.
    //~ #[error("out of memory")]
    Memory,
} impl<'a> ::core::error::Error for Misuse<'a> {} impl<'a> ::core::fmt::Display for Misuse<'a> { fn fmt(&self, f: &mut ::core::fmt::Formatter<'_>) -> ::core::fmt::Result { match self { Self::NoCommand { .. } => f.write_str("missing command"), Self::UnknownCommand(it) => ::core::write!(f, "unknown command {0}", it), Self::UnknownOption(it) => ::core::write!(f, "unknown option {0}", it), Self::OptionOfAnother(it0, it1) => ::core::write!(f, "{0} takes no option '{1}'", it0, it1), Self::NoValue(it) => ::core::write!(f, "option '{0}' needs a value", it), Self::NeedsOption(it0, it1) => ::core::write!(f, "option '{0}' needs option '{1}'", it0, it1), Self::HasValue(it) => ::core::write!(f, "option {0} takes no value", it), Self::UnknownBackend(it) => ::core::write!(f, "unknown backend {0}", it), Self::UnknownMending(it) => ::core::write!(f, "option '--invalid' takes error, replace or skip, and not {0}", it), Self::NotPositive(it0, it1) => ::core::write!(f, "option '{0}' takes a number above 0, and not {1}", it0, it1), Self::NoLeast(it) => ::core::write!(f, "option '--at-least' takes a number, and not {0}", it), Self::NoByte(it0, it1) => ::core::write!(f, "option '{0}' takes one byte but no newline, and not {1}", it0, it1), Self::ExtraOperand(it) => ::core::write!(f, "extra operand {0}", it), Self::FileBesideList(it) => ::core::write!(f, "extra operand {0}: files are named by option '--files0-from'", it), Self::Excluded(it0, it1) => ::core::write!(f, "option '{0}' excludes option '{1}'", it0, it1), Self::Repeated(it) => ::core::write!(f, "option '{0}' is given twice", it), Self::NoFile { .. } => f.write_str("merge needs a FILE"), Self::NoShards { .. } => f.write_str("shard needs a number and a DIR"), Self::NoCount(it) => ::core::write!(f, "shard takes a number of files, and not {0}", it), Self::EmptyFolder(it) => ::core::write!(f, "the DIR of {0} is empty", it), Self::NoText { .. } => f.write_str("get needs a DIR, and a TEXT or option '--rows'"), Self::NoRange(it) => ::core::write!(f, "option '--rows' takes a range like 3..5, and not {0}", it), Self::TextBesideRows(it) => ::core::write!(f, "extra operand {0}: option '--rows' takes no TEXT beside it", it), Self::InputTwice => ::core::write!(f, "{INPUT_TWICE}"), Self::Memory { .. } => f.write_str("out of memory"), } } }
