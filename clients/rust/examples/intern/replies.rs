//! What the example `intern` replies. It needs no std.

use alloc::format;
use alloc::string::String;
use alloc::vec::Vec;
use core::fmt::Display;
use string_interner::backend::{Backend, BucketBackend, BufferBackend, StringBackend};
use string_interner::{StringInterner, Symbol};

enum Command<'a> {
    Intern(&'a str),
    Get(&'a str),
    Reply(usize),
    Number(usize),
    Len,
    Shrink,
}

fn number(text: &str) -> Option<usize> {
    let is_plain = text.bytes().all(|digit| digit.is_ascii_digit());
    let number: u64 = is_plain.then(|| text.parse().ok()).flatten()?;
    // No reply and no symbol has a number that does not fit.
    Some(usize::try_from(number).unwrap_or(usize::MAX))
}

fn command(line: &str) -> Option<Command<'_>> {
    match line.split_once(' ') {
        None if line == "len" => Some(Command::Len),
        None if line == "shrink" => Some(Command::Shrink),
        Some(("i", text)) => Some(Command::Intern(text)),
        Some(("g", text)) => Some(Command::Get(text)),
        Some(("r", text)) => number(text).map(Command::Reply),
        Some(("n", text)) => number(text).map(Command::Number),
        _ => None,
    }
}

fn told(reply: Option<impl Display>, kind: &str) -> String {
    reply.map_or_else(|| "none".into(), |told| format!("{kind} {told}"))
}

/// Returns the reply to each command.
fn replies<B: Backend>(commands: &[Command]) -> Vec<String> {
    let mut interner = StringInterner::<B>::new();
    let mut symbols: Vec<Option<B::Symbol>> = Vec::with_capacity(commands.len());
    let mut replies = Vec::with_capacity(commands.len());
    for command in commands {
        let symbol = match command {
            Command::Intern(text) => Some(interner.get_or_intern(text)),
            Command::Get(text) => interner.get(text),
            _ => None,
        };
        replies.push(match command {
            Command::Intern(_) | Command::Get(_) => told(symbol.map(Symbol::to_usize), "symbol"),
            Command::Reply(place) => match symbols.get(*place).copied().flatten() {
                Some(symbol) => told(interner.resolve(symbol), "text"),
                None => "no reply".into(),
            },
            Command::Number(number) => {
                let symbol = B::Symbol::try_from_usize(*number);
                told(symbol.and_then(|symbol| interner.resolve(symbol)), "text")
            }
            Command::Len => format!("len {}", interner.len()),
            Command::Shrink => {
                interner.shrink_to_fit();
                "ok".into()
            }
        });
        symbols.push(symbol);
    }
    replies
}

/// Returns the replies to the commands of an input, a line each, or which line is bad.
fn answer<B: Backend>(input: &str) -> Result<String, String> {
    let mut commands = Vec::new();
    for (place, line) in input.split_terminator('\n').enumerate() {
        match command(line) {
            Some(command) => commands.push(command),
            None => return Err(format!("bad line {}", place + 1)),
        }
    }
    let replies = replies::<B>(&commands);
    Ok(replies.iter().flat_map(|reply| [reply, "\n"]).collect())
}

/// What answers an input.
pub type Answer = fn(&str) -> Result<String, String>;

/// Returns what answers by the backend of this name, if there is one.
pub fn find(word: &str) -> Option<Answer> {
    match word {
        "string" => Some(answer::<StringBackend>),
        "bucket" => Some(answer::<BucketBackend>),
        "buffer" => Some(answer::<BufferBackend>),
        _ => None,
    }
}
