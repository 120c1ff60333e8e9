//! The lines that the program reads and writes.

//~ ghost use Rattle.std.specs.Prelude.{Some, OnOk, IfSome, IsNone};
//~ ghost use Rattle.std.specs.Option.{SomeIff};
//~ ghost use Rattle.std.specs.Io.KnownBytes.{Appends};
//~ ghost use Rattle.std.specs.Str.Parse.{digits_value};
//~ ghost use Rattle.intern.specs.Line.{IsNumber, States, reply_text, reply_line};
//~ ghost use Rattle.string_interner.specs.declared.run.Command.{Command};

use crate::rt::prelude::*; use crate::rt::io::Write;
use crate::rt::{fmt, io};
use crate::erased::run::{Command, Reply};

/// Parses decimal digits. A leading plus, which `parse` accepts, is no digit.
fn parse_number(digits: &str) -> Option<usize>
    //~ ensures { SomeIff result (IsNumber digits.now) (digits_value 10 digits.now) }
{
    if digits.starts_with('+') {
        return None;
    }
    digits.parse().ok()
}

/// Parses a line as a command, which borrows the line's text. Returns `None` exactly if the line states no command.
pub fn parse_command(line: &str) -> Option<Command<'_>>
    //~ ensures stated { IfSome result (λ command. States command line.now) }
    //~ ensures bad { IsNone result → (command : Command) → ¬ (States command line.now) }
{
    match line.split_once(' ') {
        Some(("i", text)) => Some(Command::Intern(text)),
        Some(("g", text)) => Some(Command::Get(text)),
        Some(("r", digits)) => Some(Command::Resolve(parse_number(digits)?)),
        Some(("n", digits)) => Some(Command::Number(parse_number(digits)?)),
        None if line == "len" => Some(Command::Len),
        None if line == "shrink" => Some(Command::Shrink),
        _ => None,
    }
}

/// A reply, displayed as its line without the newline.
//~ #[derive(Drop)]
struct Line<'r>(&'r Reply);

impl fmt::Display for Line<'_> {
    //~ ghost use Rattle.std.specs.Prelude.{Some};
    //~ ghost use Rattle.intern.specs.Line.{reply_text};

    //~ ghost output = { λ line. Some (reply_text line.0.now) };

    fn fmt(&self, f: &mut fmt::Formatter<'_>) -> fmt::Result {
        match self.0 {
            Reply::Symbol(number) => write!(f, "symbol {number}"),
            Reply::Nothing => write!(f, "none"),
            Reply::Text(text) => write!(f, "text {text}"),
            Reply::Len(count) => write!(f, "len {count}"),
            Reply::Done => write!(f, "ok"),
            Reply::NoReply => write!(f, "no reply"),
            Reply::NoSymbol => write!(f, "no symbol"),
            Reply::NoMemory => write!(f, "no memory"),
        }
    }
}

/// Writes the line of a reply, with its newline.
pub fn write_reply<W: Write>(output: &mut W, reply: &Reply) -> io::Result<()>
    //~ ensures { OnOk result (Appends (W.contents output.old) (W.contents output.new)
    //~     (reply_line reply.now)) }
{
    writeln!(output, "{}", Line(reply))
}
