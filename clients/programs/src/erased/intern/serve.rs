//! From the arguments and the input to the output.

//~ ghost use Rattle.std.specs.Prelude.{◌≡◌, ℕ, List, [], ◌+◌, ◌<◌, ◌^◌, ◌↔◌, ◌⊎◌, flat_map, string_bytes, All, IfErr, IfOk, IfSome, IsErrOf, IsNone, IsOk, IsOkUnless, MatchOption, OnOk};
//~ ghost use Rattle.std.specs.List.{AllZip};
//~ ghost use Rattle.std.specs.Io.KnownBytes.{Appends, IsAtEnd};
//~ ghost use Rattle.intern.specs.Arguments.{Names};
//~ ghost use Rattle.intern.specs.Fault.{IsReadFault, IsLineFault};
//~ ghost use Rattle.intern.specs.Line.{States, reply_line};
//~ ghost use Rattle.intern.specs.Lines.{IsFirstBad, IsFirstBadLine, IsStated, lines_of};
//~ ghost use Rattle.intern.specs.Served.{WritesReplies, numbering_over};
//~ ghost use Rattle.intern.specs.declared.serve.Choice.{Choice};
//~ ghost use Rattle.string_interner.specs.Run.{Run};
//~ ghost use Rattle.string_interner.specs.Text.{Text};

use crate::rt::prelude::*; use crate::intern::fault::Fault;
use crate::intern::line;
use crate::intern::split::Lines;
use crate::rt::alloc::Global;
use crate::rt::io::{ErrorKind, Read, Write};
use crate::erased::StringInterner;
use crate::erased::backend::{Backend, BucketBackend, BufferBackend, StringBackend};
use crate::erased::run::{Command, Reply, run};

/// Which backend the interner stores its texts in.
#[derive(Clone, Copy)]
enum Choice {
    String,
    Bucket,
    Buffer,
}

/// Returns the backend that the arguments name, if they are one known word.
fn parse_backend(arguments: &[String]) -> Option<Choice>
    //~ ensures named { IfSome result (Names arguments.now) }
    //~ ensures unnamed { IsNone result → (choice : Choice) → ¬ (Names arguments.now choice) }
{
    match arguments {
        [word] if word.as_str() == "string" => Some(Choice::String),
        [word] if word.as_str() == "bucket" => Some(Choice::Bucket),
        [word] if word.as_str() == "buffer" => Some(Choice::Buffer),
        _ => None,
    }
}

/// Reads the whole input, which must be UTF-8. A failed allocation is a kind of read error, and reported as `Memory`.
fn read_text<R: Read>(alloc: Global, input: &mut R) -> Result<String, Fault>
    //~ ensures whole { IfOk result (λ text.
    //~     IfSome (R.remaining input.old) (λ bytes. string_bytes text ≡ bytes)) }
    //~ ensures end { OnOk result (IsAtEnd (R.remaining input.new)) }
    //~ ensures fault { IfErr result IsReadFault }
{
    let mut text = String::new(alloc);
    match input.read_to_string(&mut text) {
        Ok(_) => Ok(text),
        Err(error) if error.kind() == ErrorKind::OutOfMemory => Err(Fault::Memory),
        Err(_) => Err(Fault::Input),
    }
}

/// Returns the index of the first bad line, if there is one.
fn find_bad_line(text: &str) -> Option<usize>
    //~ ensures first { MatchOption result (All IsStated (lines_of text.now))
    //~     (IsFirstBad (lines_of text.now)) }
    //~ ensures room { IfSome result (λ index. index + 1 < 2 ^ 64) }
{
    Lines::new(text).position(|line| line::parse_command(line).is_none())
}

/// Returns the fault if the commands cannot be allocated: the first bad line, if there is one, and otherwise `Memory`.
fn find_line_fault(text: &str) -> Fault
    //~ ensures { IsLineFault (lines_of text.now) result }
{
    match find_bad_line(text) {
        Some(index) => Fault::BadLine(index + 1),
        None => Fault::Memory,
    }
}

/// Parses each line. A bad line is reported even if the commands cannot be allocated.
fn parse_commands(alloc: Global, text: &str) -> Result<Vec<Command<'_>>, Fault>
    //~ ensures stated { IfOk result (λ commands. AllZip States commands.items (lines_of text.now)) }
    //~ ensures fault { IfErr result (IsLineFault (lines_of text.now)) }
{
    let Ok(mut commands) = Vec::with_capacity(alloc, Lines::new(text).count()) else {
        return Err(find_line_fault(text));
    };
    for line in Lines::new(text) {
        let Some(command) = line::parse_command(line) else {
            return Err(Fault::BadLine(commands.len() + 1));
        };
        commands.push_reserved(command);
    }
    Ok(commands)
}

/// Runs the commands on an empty interner over the backend `B`, and returns the replies.
fn run_over<B: Backend + Drop>(alloc: Global, commands: &[Command<'_>]) -> Result<Vec<Reply>, Fault>
    //~ ensures ran { IfOk result (λ replies. (texts : List Text)
    //~     × Run B.numbering [] [] commands.now replies.items texts) }
    //~ ensures fault { IsOkUnless result Fault.Memory }
{
    let mut interner = StringInterner::<B>::new(alloc);
    run(alloc, &mut interner, commands).map_err(|_| Fault::Memory)
}

/// Runs the commands on an empty interner over the chosen backend, and returns the replies.
fn run_commands(
    alloc: Global,
    choice: Choice,
    commands: &[Command<'_>],
) -> Result<Vec<Reply>, Fault>
    //~ ensures ran { IfOk result (λ replies. (texts : List Text)
    //~     × Run (numbering_over choice) [] [] commands.now replies.items texts) }
    //~ ensures fault { IsOkUnless result Fault.Memory }
{
    match choice {
        Choice::String => run_over::<StringBackend>(alloc, commands),
        Choice::Bucket => run_over::<BucketBackend>(alloc, commands),
        Choice::Buffer => run_over::<BufferBackend>(alloc, commands),
    }
}

/// Writes a line for each reply.
fn write_replies<W: Write>(output: &mut W, replies: &[Reply]) -> Result<(), Fault>
    //~ ensures written { OnOk result (Appends (W.contents output.old) (W.contents output.new)
    //~     (flat_map reply_line replies.now)) }
    //~ ensures fault { IsOkUnless result Fault.Output }
{
    for reply in replies {
        line::write_reply(output, reply).map_err(|_| Fault::Output)?;
    }
    output.flush().map_err(|_| Fault::Output)
}

/// Runs the commands of the input on an empty interner over the backend that the arguments name, and writes a line for each
/// reply.
///
/// Reports the first fault in this order: wrong arguments, input that cannot be read, the first bad line, lack of memory, output
/// that cannot be written. If a line is bad, no command runs. Nothing is written before the last command has run. The whole
/// input is in memory, and a command and a reply for each line.
pub fn serve<R: Read, W: Write>(
    alloc: Global,
    arguments: &[String],
    input: &mut R,
    output: &mut W,
) -> Result<(), Fault>
    //~ ensures usage { IsErrOf result Fault.Usage
    //~     ↔ ((choice : Choice) → ¬ (Names arguments.now choice)) }

    // Wrong arguments are reported before any input is read.
    //~ ensures untouched { IsErrOf result Fault.Usage → input.new ≡ input.old }

    // A bad line and writing are blamed only if the input was read to its end.
    //~ ensures read { IsErrOf result Fault.Usage ⊎ (IsErrOf result Fault.Input
    //~     ⊎ (IsErrOf result Fault.Memory ⊎ IsAtEnd (R.remaining input.new))) }

    // For a reader whose bytes are known: what a bad line and a whole output say about them.
    //~ ensures bad_line { (n : ℕ) → IsErrOf result (Fault.BadLine n)
    //~     → IfSome (R.remaining input.old) (λ bytes. IsFirstBadLine (lines_of bytes) n) }
    //~ ensures answered { OnOk result (IfSome (R.remaining input.old) (λ bytes. (choice : Choice)
    //~     × Names arguments.now choice
    //~     × WritesReplies choice bytes (W.contents output.old) (W.contents output.new))) }

    //~ ensures output { IsErrOf result Fault.Output
    //~     → IfSome (R.remaining input.old) (λ bytes. All IsStated (lines_of bytes)) }

    // Unless all went well or a write failed, the output was not touched.
    //~ ensures silent { IsOk result ⊎ (IsErrOf result Fault.Output ⊎ (output.new ≡ output.old)) }
{
    let choice = parse_backend(arguments).ok_or(Fault::Usage)?;
    let text = read_text(alloc, input)?;
    let commands = parse_commands(alloc, &text)?;
    let replies = run_commands(alloc, choice, &commands)?;
    write_replies(output, &replies)
}
