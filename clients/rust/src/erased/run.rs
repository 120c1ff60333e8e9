//! Commands: [`run`] runs a list of them on an interner, and returns one reply for each.
//!
//! This is for programs that read requests as data, and for statements about a whole session: one contract says what all
//! replies are, for every backend.

//~ ghost use Rattle.std.specs.Prelude.{◌≡◌, [], slice_get, Option, Some, None, IfOk, OnErr};
//~ ghost use Rattle.std.specs.Option.{option_copied};
//~ ghost use Rattle.string_interner.specs.Extend.{texts_of, fresh};
//~ ghost use Rattle.string_interner.specs.Interner.{KeepsBucketsAndSlots};
//~ ghost use Rattle.string_interner.specs.ListAnswers.{AnswersAsAList};
//~ ghost use Rattle.string_interner.specs.Run.{refusal, intern_reply, reply_number, CopyReply, text_at_number, NumberReply, ExtendReply, InternsNone, InternsKnown, KeepsUnlessNew, Step, RunsAll};

use crate::rt::prelude::*; use crate::erased::backend::{Backend, InternError};
use crate::erased::dedup::TextIndex;
use crate::erased::hash::TextHasher;
use crate::erased::interner::StringInterner;
use crate::erased::symbol::Symbol;
use crate::rt::alloc::{AllocError, Global};

/// A command to an interner, and how it is replied to.
#[derive(Clone, Copy, Debug, PartialEq, Eq)]
pub enum Command<'c> {
    /// Interns the text. Replies `Symbol`, or on failure `NoSymbol` or `NoMemory`.
    Intern(&'c str),
    /// Interns the text by `get_or_intern_static`. Replies as `Intern` does.
    InternStatic(&'static str),
    /// Looks the text up. Replies `Symbol`, or `Nothing` if the text is new.
    Get(&'c str),
    /// Resolves the symbol in the reply with this index (0-based), replying as `Number` would; `NoReply` if there is no
    /// such reply yet or it holds no symbol. If the entry was dropped since, another text or nothing may be read there.
    Resolve(usize),
    /// Resolves the symbol with this number. Replies `Text`; `Nothing` if the symbol type has no such number or nothing
    /// is read there; `NoMemory` if the copy cannot be allocated.
    Number(usize),
    /// Counts the texts. Replies `Len`.
    Len,
    /// Releases memory that no text needs, if it can. Replies `Done`.
    Shrink,
    /// Keeps this many of the first texts and drops the rest, which are then new again. Replies `Done`.
    Truncate(usize),
    /// Interns the texts in order. Replies `Done`, or `NoSymbol` or `NoMemory` for the first that fails. Those before
    /// it stay.
    Extend(&'c [&'c str]),
}

/// The reply to a command.
#[derive(Debug, PartialEq, Eq)]
pub enum Reply {
    /// The number of the text's symbol.
    Symbol(usize),
    /// There is no such text, or nothing is read at that number.
    Nothing,
    /// A copy of the text.
    Text(String),
    /// The number of texts.
    Len(usize),
    /// The command is done, and returns no value.
    Done,
    /// There is no earlier reply with that index, or it holds no symbol.
    NoReply,
    /// The text is new, and the symbol type has no symbol for it.
    NoSymbol,
    /// An allocation failed, for this command alone.
    NoMemory,
}

/// Returns the reply for an error.
fn refusal(error: InternError) -> Reply
    //~ ensures { result ≡ refusal error }
{
    match error {
        InternError::NoSymbol => Reply::NoSymbol,
        InternError::Memory(_) => Reply::NoMemory,
    }
}

/// Returns the reply for the outcome of interning a text.
fn intern_reply<S: Symbol>(outcome: Result<S, InternError>) -> Reply
    //~ ensures { result ≡ intern_reply S.number outcome }
{
    match outcome {
        Ok(symbol) => Reply::Symbol(symbol.to_usize()),
        Err(error) => refusal(error),
    }
}

/// Interns the texts in order, and returns the reply for the outcome.
fn extend_reply<B: Backend, H: TextHasher, I: TextIndex<B::Symbol>>(
    interner: &mut StringInterner<B, H, I>,
    texts: &[&str],
) -> Reply
    //~ ensures replies { ExtendReply B.numbering interner.old.texts (texts_of texts.now)
    //~     result interner.new.texts }
    //~ ensures known { fresh interner.old.texts (texts_of texts.now) ≡ []
    //~     → interner.new ≡ interner.old }
{
    match interner.extend(texts.iter().copied()) {
        Ok(()) => Reply::Done,
        Err(error) => refusal(error),
    }
}

/// Returns a copy of the text, or `NoMemory` if it cannot be allocated. Asks for memory once.
fn copy_reply(alloc: Global, text: &str) -> Reply
    //~ ensures { CopyReply text.now result }
{
    String::from_str(alloc, text).map_or(Reply::NoMemory, Reply::Text)
}

/// Returns the number of the symbol in reply `k`, if it holds one.
fn reply_number(earlier: &[Reply], k: usize) -> Option<usize>
    //~ ensures { result ≡ reply_number (slice_get earlier.now k) }
{
    match earlier.get(k) {
        Some(Reply::Symbol(n)) => Some(*n),
        _ => None,
    }
}

/// Returns the text at a number, if the number has a symbol and a text is read there.
fn text_at_number<B: Backend, H: TextHasher, I: TextIndex<B::Symbol>>(
    interner: &StringInterner<B, H, I>,
    n: usize,
) -> Option<&str>
    //~ ensures { option_copied result ≡ text_at_number B.numbering interner.now.texts n }
{
    interner.resolve(B::Symbol::try_from_usize(n)?)
}

/// Returns the reply to `Number`: a copy of the text, or `Nothing`.
fn number_reply<B: Backend, H: TextHasher, I: TextIndex<B::Symbol>>(
    alloc: Global,
    interner: &StringInterner<B, H, I>,
    n: usize,
) -> Reply
    //~ ensures { NumberReply B.numbering interner.now.texts n result }
{
    match text_at_number(interner, n) {
        Some(text) => copy_reply(alloc, text),
        None => Reply::Nothing,
    }
}

/// Runs one command. `earlier` holds the replies so far.
fn step<B: Backend, H: TextHasher, I: TextIndex<B::Symbol>>(
    alloc: Global,
    interner: &mut StringInterner<B, H, I>,
    earlier: &[Reply],
    command: &Command<'_>,
) -> Reply
    //~ ensures step { Step B.numbering interner.old.texts earlier.now command.now
    //~     result interner.new.texts }
    //~ ensures stays { InternsNone command.now → KeepsBucketsAndSlots interner.old interner.new }
    //~ ensures known { InternsKnown interner.old.texts command.now
    //~     → (interner.new.texts ≡ interner.old.texts)
    //~     × KeepsBucketsAndSlots interner.old interner.new }
{
    match command {
        Command::Intern(text) => intern_reply(interner.get_or_intern(text)),
        Command::InternStatic(text) => intern_reply(interner.get_or_intern_static(text)),
        Command::Get(text) => match interner.get(text) {
            Some(symbol) => Reply::Symbol(symbol.to_usize()),
            None => Reply::Nothing,
        },
        Command::Resolve(k) => match reply_number(earlier, *k) {
            Some(n) => number_reply(alloc, interner, n),
            None => Reply::NoReply,
        },
        Command::Number(n) => number_reply(alloc, interner, *n),
        Command::Len => Reply::Len(interner.len()),
        Command::Shrink => {
            interner.shrink_to_fit();
            Reply::Done
        }
        Command::Truncate(len) => {
            interner.truncate(*len);
            Reply::Done
        }
        Command::Extend(texts) => extend_reply(interner, texts),
    }
}

/// Runs the commands in order, and returns one reply for each.
///
/// The replies are those of a list of distinct texts: a known text is replied to with the number of its entry and
/// changes nothing; a new one is appended, at the next place of the backend. Its reply is `NoSymbol` exactly if the
/// symbol type has none for that place, and `NoMemory` only if an allocation fails or a size does not fit a `usize`;
/// the list is then unchanged.
///
/// If no command is a `Number` or a `Truncate` and none fails, the replies are one function of the list and the
/// commands, with each symbol's number the place of its entry. So all backends reply alike, but for these numbers.
///
/// Buckets and slots are unchanged if no command interns a text, or if each interned text is known and no command is a
/// `Truncate`; texts are unchanged, too, in the second case.
///
/// Memory for all replies is reserved first, in one allocation. Returns `Err` only if that fails; no command has run
/// then.
///
/// On an empty interner over strings, the replies to `Intern("a")`, `Intern("b")`, `Intern("a")`, `Resolve(1)` and
/// `Len` are `Symbol(0)`, `Symbol(1)`, `Symbol(0)`, `Text("b")` and `Len(2)`.
pub fn run<B: Backend, H: TextHasher, I: TextIndex<B::Symbol>>(
    alloc: Global,
    interner: &mut StringInterner<B, H, I>,
    commands: &[Command<'_>],
) -> Result<Vec<Reply>, AllocError>
    //~ ensures run { RunsAll B.numbering interner.old.texts commands.now result interner.new.texts }

    //~ ensures as_a_list { IfOk result (λ replies. AnswersAsAList B.numbering.place
    //~     interner.old.texts commands.now replies.items interner.new.texts) }
    //~ ensures err { OnErr result (interner.new ≡ interner.old) }
    //~ ensures quiet { KeepsUnlessNew interner.old commands.now interner.new }
{
    let mut replies = Vec::with_capacity(alloc, commands.len())?;
    for command in commands {
        let reply = step(alloc, interner, &replies, command);
        replies.push_reserved(reply);
    }
    // For the proof: states that the texts are a valid list.
    let _ = interner.len();
    Ok(replies)
}
