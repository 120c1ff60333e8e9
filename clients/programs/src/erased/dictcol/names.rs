//! The names of files in a list. A zero byte ends each, as `find -print0` writes them.

//~ ghost use Rattle.std.specs.Prelude.{◌≡◌, ◌≢◌, ◌+◌, ◌≤◌, List, [], true, false, count_by, length, IfErr, IfOk, IsTrue, OnOk};
//~ ghost use Rattle.string_interner.specs.Extend.{texts_of};
//~ ghost use Rattle.string_interner.specs.Text.{Text};
//~ ghost use Rattle.std.specs.List.{AllZip, slice_split};
//~ ghost use Rattle.dictcol.specs.Names.{dash, is_dash, is_zero, names_of, AreGood, IsListFault, IsNamesFault, IsWrong, Names};

use crate::rt::prelude::*; use crate::dictcol::input::blocks::count_byte;
use crate::dictcol::source::{INPUT_TWICE, NAME_ADVICE, Source};
use crate::rt::alloc::{AllocError, Global};
//~ use thiserror::Error;

/// What is wrong with a list of names. It is displayed as the message for standard error, behind the name of the list and a colon.
#[derive(Clone, Copy, Debug)]
pub enum NameFault {
    /// The name with this number (1-based) is empty.
    //~ #[error("{0}: invalid zero-length file name")]
    Empty(usize),
    /// The name with this number (1-based) is the first that is not UTF-8.
    //~ #[error("{0}: the file name is not UTF-8{NAME_ADVICE}")]
    NotUtf8(usize),
    /// The name with this number (1-based) is standard input, which the list comes from.
    //~ #[error("{0}: no file name may be '-' if the names come from standard input")]
    ListIsInput(usize),
    /// The name with this number (1-based) is standard input, as one before it.
    //~ #[error("{0}: {INPUT_TWICE}")]
    InputTwice(usize),
    /// An allocation failed, which is no fault of the list.
    //~ #[error("out of memory")]
    Memory,
} impl ::core::error::Error for NameFault {} impl ::core::fmt::Display for NameFault { fn fmt(&self, f: &mut ::core::fmt::Formatter<'_>) -> ::core::fmt::Result { match self { Self::Empty(it) => ::core::write!(f, "{0}: invalid zero-length file name", it), Self::NotUtf8(it) => ::core::write!(f, "{0}: the file name is not UTF-8{NAME_ADVICE}", it), Self::ListIsInput(it) => ::core::write!(f, "{0}: no file name may be '-' if the names come from standard input", it), Self::InputTwice(it) => ::core::write!(f, "{0}: {INPUT_TWICE}", it), Self::Memory { .. } => f.write_str("out of memory"), } } }

/// Returns what stands before, between and behind the zero bytes of a list.
fn split_at_zeros(alloc: Global, list: &str) -> Result<Vec<&str>, AllocError>
    //~ ensures { IfOk result (λ parts. texts_of parts.items ≡ slice_split is_zero list.now) }
{
    list.split('\0').try_collect(alloc)
}

/// Returns the names in a list.
fn split_names(alloc: Global, list: &str) -> Result<Vec<&str>, AllocError>
    //~ ensures { IfOk result (λ names. texts_of names.items ≡ names_of list.now) }
{
    let mut names = split_at_zeros(alloc, list)?;
    if let Some(name) = names.pop() {
        if !name.is_empty() {
            names.push(name)?;
        }
    }
    Ok(names)
}

/// Checks a name. `number` is its number, and `has_input` says whether one before it is standard input.
fn check_name(name: &str, number: usize, is_input: bool, has_input: bool) -> Result<(), NameFault>
    //~ ensures ok { OnOk result ((name.now ≢ [])
    //~     × (name.now ≡ dash → (is_input ≡ false) × (has_input ≡ false))) }
    //~ ensures fault { (before : List Text) → number ≡ length before + 1
    //~     → (IsTrue has_input → 1 ≤ count_by is_dash before)
    //~     → IfErr result (IsWrong is_input before name.now) }
{
    match Source::of_word(name) {
        Source::File("") => Err(NameFault::Empty(number)),
        Source::StandardInput if is_input => Err(NameFault::ListIsInput(number)),
        Source::StandardInput if has_input => Err(NameFault::InputTwice(number)),
        _ => Ok(()),
    }
}

/// Returns the files of these names. If the list comes from standard input, none of them may be that.
fn name_files<'a>(
    alloc: Global,
    names: &[&'a str],
    is_input: bool,
) -> Result<Vec<Source<'a>>, NameFault>
    //~ ensures files { IfOk result (λ files. AllZip Names (texts_of names.now) files.items) }
    //~ ensures good { IfOk result (λ files. AreGood is_input (texts_of names.now)) }
    //~ ensures fault { IfErr result (IsNamesFault is_input (texts_of names.now)) }
{
    let mut files = Vec::new(alloc);
    let mut has_input = false;
    for name in names {
        check_name(name, files.len().saturating_add(1), is_input, has_input)?;
        let file = Source::of_word(name);
        has_input |= matches!(file, Source::StandardInput);
        files.push(file).map_err(|_| NameFault::Memory)?;
    }
    Ok(files)
}

/// Returns the files that a list names. What is wrong with the list is told of the first name that is not UTF-8, and if there is
/// none, of the first name that is not good otherwise.
pub fn find_files<'a>(
    alloc: Global,
    list: &'a [u8],
    is_input: bool,
) -> Result<Vec<Source<'a>>, NameFault>
    //~ ensures files { IfOk result (λ files. AllZip Names (names_of list.now) files.items) }
    //~ ensures good { IfOk result (λ files. AreGood is_input (names_of list.now)) }
    //~ ensures fault { IfErr result (IsListFault is_input list.now) }
{
    match str::from_utf8(list) {
        Ok(list) => {
            let names = split_names(alloc, list).map_err(|_| NameFault::Memory)?;
            name_files(alloc, &names, is_input)
        }
        Err(error) => {
            let ends = count_byte(0, &list[..error.valid_up_to()]);
            Err(NameFault::NotUtf8(ends.saturating_add(1)))
        }
    }
}
