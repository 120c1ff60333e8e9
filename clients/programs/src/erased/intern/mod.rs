//! The program `intern`: runs a list of commands on an empty interner, and prints one line for each reply.
//~ #![tactic(auto)]

use crate::rt::prelude::*; pub mod fault;
pub mod help;
pub mod line;
pub mod serve;
pub mod split;
//~ #[cfg(test)]
//~ mod tests;

use fault::Fault;
use help::{HELP, VERSION};
use crate::rt::env;
use crate::rt::io::{BufWriter, Write};
use crate::rt::process::ExitCode;

/// Returns what is asked for by the one word that asks for a text of the program.
fn find_text(arguments: &[String]) -> Option<&'static str> {
    match arguments {
        [word] if word.as_str() == "--help" => Some(HELP),
        [word] if word.as_str() == "--version" => Some(VERSION),
        _ => None,
    }
}

/// Prints what is asked for, or runs `serve` on standard input and output. If the output buffer cannot be allocated, lines are
/// written one by one: whether the run fails is for `serve` alone to find.
fn run(rt: &HostRuntime) -> Result<(), Fault> {
    let alloc = rt.alloc();
    let arguments: Vec<String> = env::args(rt)
        .map_err(|_| Fault::Usage)?
        .skip(1)
        .try_collect(alloc)
        .map_err(|_| Fault::Usage)?;
    if let Some(text) = find_text(&arguments) {
        return rt
            .stdout()
            .write_all(text.as_bytes())
            .map_err(|_| Fault::Output);
    }
    match BufWriter::new(alloc, rt.stdout()) {
        Ok(mut output) => serve::serve(alloc, &arguments, &mut rt.stdin(), &mut output),
        Err(_) => serve::serve(alloc, &arguments, &mut rt.stdin(), &mut rt.stdout()),
    }
}

pub fn main(rt: HostRuntime) -> ExitCode {
    match run(&rt) {
        Ok(()) => ExitCode::SUCCESS,
        Err(fault) => {
            // Nothing is left to do if standard error is closed.
            let _ = crate::rt::eprintln!(rt; "{fault}");
            ExitCode::from(fault.status())
        }
    }
}
