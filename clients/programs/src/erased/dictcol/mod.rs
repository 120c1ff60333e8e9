//! The program `dictcol`: writes lines as a dictionary with a number for each line, reads them back, finds some of them, merges such
//! files, and counts and splits lines.
//~ #![tactic(auto)]

use crate::rt::prelude::*; pub mod arguments;
pub mod columns;
pub mod command;
pub mod count;
pub mod decode;
pub mod distinct;
pub mod encode;
pub mod fault;
pub mod get;
pub mod hasher;
pub mod help;
pub mod input;
pub mod json_form;
pub mod lines;
pub mod located;
pub mod merge;
pub mod names;
pub mod output;
pub mod plain;
pub mod reader;
pub mod shards;
pub mod shown;
pub mod source;
pub mod unfinished;

use arguments::misuse::Misuse;
use command::{BackendKind, Command, Files, Invocation};
use fault::Fault;
use get::Get;
use help::{HELP, USAGE};
use input::inputs::Inputs;
use input::streams;
use input::whole::read_whole;
use located::Located;
use names::NameFault;
use plain::folder;
use reader::Reading;
use shown::ShownPath;
use source::{NAME_ADVICE, Source};
use crate::rt::env;
use crate::rt::env::{Env, FillError};
use crate::rt::io::Write;
use crate::rt::process::ExitCode;

/// The status if the arguments are wrong.
const MISUSED: u8 = 2;

/// The status if a text that is asked for is not there.
const MISSING: u8 = 1;

/// What `--version` prints.
const VERSION: &str = "dictcol 0.1.0\n";

/// What may be done if a list with newlines and no zero byte names a file that cannot be read.
const LIST_ADVICE: &str = " (no zero byte ends a name in the list: see --files0-from)";

/// What is said of a folder in the place of a file.
const IS_FOLDER: &str = "a folder that encode --plain wrote; decode writes its text";

/// Returns the arguments behind the program's name.
fn read_arguments(rt: &HostRuntime) -> Result<Vec<String>, Fault> {
    let words = env::args(rt).map_err(Fault::of_arguments)?;
    words.skip(1).try_collect(rt.alloc()).map_err(|_| Fault::Memory)
}

/// Returns the number of the first argument that is not UTF-8. One longer than any path is passed over.
fn find_argument(rt: &HostRuntime) -> Option<usize> {
    let mut bytes = [0; 4096];
    for number in 1..usize::MAX {
        match rt.arg(number, &mut bytes) {
            Ok(length) if str::from_utf8(&bytes[..length]).is_err() => return Some(number),
            Ok(_) | Err(FillError::TooLong) => {}
            Err(FillError::NotPresent) => return None,
        }
    }
    None
}

/// Prints a text.
fn print(rt: &HostRuntime, text: &str) -> Result<(), Located<'static>> {
    let outcome = rt.stdout().write_all(text.as_bytes());
    Ok(outcome.map_err(Fault::of_write)?)
}

/// Prints on standard error what failed, if something did, and what may be done about it. Returns the status.
fn end(rt: &HostRuntime, outcome: Result<(), Located<'_>>) -> ExitCode {
    let Err(located) = outcome else {
        return ExitCode::SUCCESS;
    };
    let (fault, advice) = (&located.fault, located.advice);
    // Nothing is left to do if standard error is closed.
    let _ = match (located.source, fault) {
        // A reader that closed the output, as `head` does, needs no message.
        (_, Fault::ClosedOutput) => Ok(()),
        // The file has no part in what is written.
        (Source::StandardInput, _) | (_, Fault::Output(_)) => {
            crate::rt::eprintln!(rt; "dictcol: {fault}{advice}")
        }
        (Source::File(path), Fault::Input(_)) if folder::has_columns(rt, path) => {
            let path = ShownPath(path);
            crate::rt::eprintln!(rt; "dictcol: {path}: {IS_FOLDER}")
        }
        (Source::File(path), _) => {
            let path = ShownPath(path);
            crate::rt::eprintln!(rt; "dictcol: {path}: {fault}{advice}")
        }
    };
    ExitCode::from(fault.status())
}

/// Prints why the arguments cannot be read, and returns the status.
fn end_arguments(rt: &HostRuntime, fault: Fault) -> ExitCode {
    match (&fault, find_argument(rt)) {
        (Fault::Argument, Some(number)) => {
            let _ = crate::rt::eprintln!(rt; "dictcol: argument {number} is not UTF-8{NAME_ADVICE}");
            ExitCode::from(MISUSED)
        }
        _ => end(rt, Err(Located::from(fault))),
    }
}

/// Writes what is got of a folder, prints what failed, and returns the status.
fn act_on_columns(rt: &HostRuntime, asked: &Get<'_>) -> ExitCode {
    match get::write(rt, asked) {
        Ok(true) => ExitCode::SUCCESS,
        Ok(false) => ExitCode::from(MISSING),
        Err(fault) => end(rt, Err(Located::new(Source::File(asked.folder), fault))),
    }
}

/// Prints what is wrong with a list of names, and returns the status.
fn end_list(rt: &HostRuntime, list: Source<'_>, fault: NameFault) -> ExitCode {
    let path = match list {
        Source::StandardInput => "-",
        Source::File(path) => path,
    };
    let path = ShownPath(path);
    // Nothing is left to do if standard error is closed.
    let _ = crate::rt::eprintln!(rt; "dictcol: {path}:{fault}");
    ExitCode::from(MISUSED)
}

/// Returns whether newlines end the names in a list, as it looks.
fn is_unended(list: &[u8]) -> bool {
    list.contains(&b'\n') && !list.contains(&0)
}

/// Runs a command on the files that a list names.
fn run_on_listed(
    rt: &HostRuntime,
    command: Command<'_>,
    backend: BackendKind,
    reading: Reading,
    list: Source<'_>,
) -> ExitCode {
    let sources = [list];
    let bytes = match read_whole(rt.alloc(), &mut Inputs::new(rt, &sources)) {
        Ok(bytes) => bytes,
        Err(fault) => return end(rt, Err(Located::new(list, fault))),
    };
    let has_input = matches!(list, Source::StandardInput);
    match names::find_files(rt.alloc(), &bytes, has_input) {
        Ok(files) => {
            let mut outcome = command.run(rt, backend, reading, &files);
            if let Err(located) = &mut outcome {
                if matches!(located.fault, Fault::Input(_)) && is_unended(&bytes) {
                    located.advice = LIST_ADVICE;
                }
            }
            end(rt, outcome)
        }
        Err(NameFault::Memory) => end(rt, Err(Located::new(list, Fault::Memory))),
        Err(fault) => end_list(rt, list, fault),
    }
}

pub fn main(rt: HostRuntime) -> ExitCode {
    streams::take_closed(&rt);
    let arguments = match read_arguments(&rt) {
        Ok(arguments) => arguments,
        Err(fault) => return end_arguments(&rt, fault),
    };
    match arguments::parse_arguments(rt.alloc(), &arguments) {
        Ok(Invocation::Help) => end(&rt, print(&rt, HELP)),
        Ok(Invocation::Version) => end(&rt, print(&rt, VERSION)),
        Ok(Invocation::Run(command, backend, reading, Files::Named(files))) if files.is_empty() => {
            end(
                &rt,
                command.run(&rt, backend, reading, &[Source::StandardInput]),
            )
        }
        Ok(Invocation::Run(command, backend, reading, Files::Named(files))) => {
            end(&rt, command.run(&rt, backend, reading, &files))
        }
        Ok(Invocation::Run(command, backend, reading, Files::Listed(list))) => {
            run_on_listed(&rt, command, backend, reading, list)
        }
        Ok(Invocation::Get(asked)) => act_on_columns(&rt, &asked),
        Err(Misuse::Memory) => end(&rt, Err(Located::from(Fault::Memory))),
        Err(misuse) => {
            let _ = crate::rt::eprintln!(rt; "dictcol: {misuse}\n{USAGE}");
            ExitCode::from(MISUSED)
        }
    }
}
