//! The names of commands and of their options.

use crate::rt::prelude::*; use CommandName::{Count, Decode, Distinct, Encode, Get, Merge, Shard};

/// The name of a command.
#[derive(Clone, Copy, PartialEq)]
pub enum CommandName {
    Encode,
    Decode,
    Count,
    Distinct,
    Merge,
    Shard,
    Get,
}

/// What an option sets.
#[derive(Clone, Copy)]
pub enum Setting {
    Plain,
    Onto,
    OntoDictionary,
    Append,
    List,
    Sorted,
    Top,
    AtLeast,
    Backend,
    Field,
    Separator,
    Mending,
    ZeroEnded,
    Encoded,
    Rows,
    Check,
    Help,
    Version,
}

impl Setting {
    /// Returns whether it says how lines are read.
    pub fn is_of_lines(self) -> bool {
        matches!(
            self,
            Setting::Field | Setting::Separator | Setting::Mending | Setting::ZeroEnded
        )
    }

    /// Returns whether it says whose dictionary columns begin with.
    pub fn is_onto(self) -> bool {
        matches!(self, Setting::Onto | Setting::OntoDictionary)
    }

    /// Returns whether it says what columns begin with.
    pub fn is_of_columns(self) -> bool {
        self.is_onto() || matches!(self, Setting::Append)
    }
}

/// The commands that take an option.
const NONE: &[CommandName] = &[];

const ENCODE: &[CommandName] = &[Encode];

const COUNT: &[CommandName] = &[Count];

const GET: &[CommandName] = &[Get];

const ENDED: &[CommandName] = &[Count, Distinct, Shard];

const OF_LINES: &[CommandName] = &[Encode, Count, Distinct, Shard];

const STORING: &[CommandName] = &[Encode, Count, Distinct, Merge];

/// The name of an option, what it sets, whether it has a value, and the commands that take it.
pub type OptionRow = (&'static str, Setting, bool, &'static [CommandName]);

/// The options, in the order in which the first is told that the command does not take.
pub const OPTIONS: [OptionRow; 22] = [
    ("--plain", Setting::Plain, true, ENCODE),
    ("--onto", Setting::Onto, true, ENCODE),
    ("--onto-dictionary", Setting::OntoDictionary, true, ENCODE),
    ("--append", Setting::Append, false, ENCODE),
    ("--files0-from", Setting::List, true, OF_LINES),
    ("--sorted", Setting::Sorted, false, COUNT),
    ("--top", Setting::Top, true, COUNT),
    ("--at-least", Setting::AtLeast, true, COUNT),
    ("--backend", Setting::Backend, true, STORING),
    ("--field", Setting::Field, true, OF_LINES),
    ("-f", Setting::Field, true, OF_LINES),
    ("--separator", Setting::Separator, true, OF_LINES),
    ("-t", Setting::Separator, true, OF_LINES),
    ("--invalid", Setting::Mending, true, OF_LINES),
    ("--zero-terminated", Setting::ZeroEnded, false, ENDED),
    ("-z", Setting::ZeroEnded, false, ENDED),
    ("--encoded", Setting::Encoded, false, COUNT),
    ("--rows", Setting::Rows, true, GET),
    ("--check", Setting::Check, false, GET),
    ("--help", Setting::Help, false, NONE),
    ("-h", Setting::Help, false, NONE),
    ("--version", Setting::Version, false, NONE),
];

/// Returns the option of this name.
pub fn find_option(name: &str) -> Option<OptionRow> {
    for row in OPTIONS {
        if row.0 == name {
            return Some(row);
        }
    }
    None
}

/// Returns the option that a word begins with, and the value behind `=`, or behind the letter of an option, if there is one.
pub fn split_value(word: &str) -> (&str, Option<&str>) {
    for letter in ["-f", "-t"] {
        match word.strip_prefix(letter) {
            Some(value) if !value.is_empty() => return (letter, Some(value)),
            _ => {}
        }
    }
    match word.split_once('=') {
        Some((name, value)) if name.starts_with("--") => (name, Some(value)),
        _ => (word, None),
    }
}
