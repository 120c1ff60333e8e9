//! Reading lines from an input, a block at a time: however long the input is, no more of it is held than a block, of 256 KiB or up
//! to twice the longest line.

//~ ghost use Rattle.std.specs.Prelude.{◌≡◌, ◌==◌, ◌+◌, ◌≤◌, ℕ, List, [], ◌++◌, length, take, drop, min, false, ◌-◌, ◌^◌, Option, Some, IfOk, IfErr, OnOk, IsUtf8, IsTrue, count_by, string_bytes};
//~ ghost use Rattle.std.specs.Io.KnownBytes.{IsAtEnd};
//~ ghost use Rattle.std.specs.List.{slice_split};
//~ ghost use Rattle.string_interner.specs.Text.{Text};
//~ ghost use Rattle.dictcol.specs.Blocks.{held, EndsAtNewline, HasRead, HoldsNoNewline, IsLinesFault, IsTextFault, IsTextOf, Takes};
//~ ghost use Rattle.dictcol.specs.Fault.{IsNotUtf8, IsTakeFault};
//~ ghost use Rattle.dictcol.specs.Lines.{has_newline, is_newline};
//~ ghost use Rattle.dictcol.specs.TooMany.{HasRefused};

use crate::rt::prelude::*; use crate::dictcol::fault::Fault;
use crate::dictcol::input::block::Block;
use crate::rt::alloc::Global;
use crate::rt::io;
use crate::rt::io::{ErrorKind, Read};

/// What lines are given to, one after another.
pub trait Taker: Sized {
    //~ /// These are the lines that it has taken.
    //~ ghost has_taken: { Self → List Text → Type 0 };

    //~ /// Behind these lines this one is refused, because there are too many.
    //~ ghost refuses: { List Text → Text → Type 0 };

    //~ /// What taking lines leaves as it is.
    //~ ghost Kept: { Type 0 } = { Unit {0} };

    //~ ghost kept: { Self → Kept };
}

/// What takes the lines of a text.
pub trait TakesLines: Sized + Taker {
    /// Takes the lines of a text: what stands before, between and behind its newlines.
    fn take_lines(&mut self, text: &str) -> Result<(), Fault>;
        //~ ensures ok { OnOk result
        //~     (Takes Self.has_taken self.old self.new (slice_split is_newline text.now)) }
        //~ ensures same { Self.kept self.new ≡ Self.kept self.old }
        //~ ensures fault { (lines : List Text) → Self.has_taken self.old lines → IfErr result
        //~     (IsTakeFault (HasRefused Self.refuses (lines ++ slice_split is_newline text.now))) };

    /// Returns how many lines it has taken, or `usize::MAX` if there are more.
    fn count_lines(&self) -> usize;
        //~ ensures { (lines : List Text) → Self.has_taken self.now lines
        //~     → result ≡ min (length lines) (2 ^ 64 - 1) };
}

/// Returns how often a byte occurs.
pub fn count_byte(wanted: u8, bytes: &[u8]) -> usize
    //~ ensures { result ≡ count_by (λ byte. byte == wanted) bytes.now }
{
    let mut count = 0;
    for byte in bytes {
        if *byte == wanted {
            count += 1;
        }
    }
    count
}

/// Checks that the bytes are UTF-8. `before` lines stand in front of them.
pub fn check_utf8(before: usize, bytes: &[u8]) -> Result<&str, Fault>
    //~ ensures ok { IfOk result (λ text. text.now ≡ bytes.now) }
    //~ ensures err { IfErr result (IsNotUtf8 before (Some bytes.now)) }
{
    match crate::simdutf8::compat::from_utf8(bytes) {
        Ok(text) => Ok(text),
        Err(error) => {
            let newlines = count_byte(b'\n', &bytes[..error.valid_up_to()]);
            Err(Fault::NotUtf8(before.saturating_add(newlines).saturating_add(1)))
        }
    }
}

/// Takes the lines up to the newline at `at`, and drops them from the block.
fn take_front<L: TakesLines>(block: &mut Block, at: usize, lines: &mut L) -> Result<(), Fault>
    //~ requires { EndsAtNewline (held block.old) at }
    //~ ensures taken { OnOk result (Takes L.has_taken lines.old lines.new
    //~     (slice_split is_newline (take at (held block.old)))) }
    //~ ensures same { L.kept lines.new ≡ L.kept lines.old }
    //~ ensures rest { OnOk result (held block.new ≡ drop (at + 1) (held block.old)) }
    //~ ensures utf8 { OnOk result (IsUtf8 (take at (held block.old))) }
    //~ ensures fault { (seen : List Text) → L.has_taken lines.old seen
    //~     → IfErr result (IsTextFault L.refuses seen (take at (held block.old))) }
{
    let text = check_utf8(lines.count_lines(), block.front(at))?;
    lines.take_lines(text)?;
    block.drop_front(at + 1);
    Ok(())
}

/// Takes the whole lines of a block. No newline stands before `start`.
fn take_whole_lines<L: TakesLines>(
    block: &mut Block,
    start: usize,
    lines: &mut L,
) -> Result<(), Fault>
    //~ requires within { start ≤ length (held block.old) }
    //~ requires plain { has_newline (take start (held block.old)) ≡ false }
    //~ ensures read { (input left : Option Text)
    //~     → HasRead L.has_taken input left lines.old (held block.old)
    //~     → OnOk result (HasRead L.has_taken input left lines.new (held block.new)) }
    //~ ensures same { L.kept lines.new ≡ L.kept lines.old }
    //~ ensures rest { OnOk result (HoldsNoNewline block.new) }
    //~ ensures fault { (input left : Option Text)
    //~     → HasRead L.has_taken input left lines.old (held block.old)
    //~     → IfErr result (IsLinesFault L.refuses input) }
{
    match block.find_newline(start) {
        Some(at) => take_front(block, at, lines),
        None => Ok(()),
    }
}

/// Reads once, and takes the lines that are whole then. Returns whether the input ended.
pub fn read_block<R: Read, L: TakesLines>(
    block: &mut Block,
    input: &mut R,
    lines: &mut L,
) -> Result<bool, Fault>
    //~ requires { HoldsNoNewline block.old }
    //~ ensures read { (all : Option Text)
    //~     → HasRead L.has_taken all (R.remaining input.old) lines.old (held block.old)
    //~     → OnOk result (HasRead L.has_taken all (R.remaining input.new) lines.new (held block.new)) }
    //~ ensures same { L.kept lines.new ≡ L.kept lines.old }
    //~ ensures rest { OnOk result (HoldsNoNewline block.new) }
    //~ ensures end { IfOk result (λ is_end. IsTrue is_end → IsAtEnd (R.remaining input.new)) }
    //~ ensures fault { (all : Option Text)
    //~     → HasRead L.has_taken all (R.remaining input.old) lines.old (held block.old)
    //~     → IfErr result (IsLinesFault L.refuses all) }
{
    block.reserve()?;
    let start = block.len();
    match block.read_from(input) {
        Ok(0) => Ok(true),
        Ok(_) => {
            take_whole_lines(block, start, lines)?;
            Ok(false)
        }
        Err(error) if error.kind() == ErrorKind::Interrupted => Ok(false),
        Err(error) => Err(Fault::of_read(error)),
    }
}

/// Returns what is held as a text. `before` lines stand in front of it.
pub fn end_block(block: Block, before: usize) -> Result<String, Fault>
    //~ ensures ok { IfOk result (λ text. string_bytes text ≡ held block) }
    //~ ensures fault { IfErr result (IsNotUtf8 before (Some (held block))) }
{
    let bytes = block.into_bytes();
    match check_utf8(before, &bytes) {
        Ok(_) => Ok(unsafe { String::from_utf8_unchecked(bytes) }),
        Err(fault) => Err(fault),
    }
}

/// Reads an input to its end. The lines that a newline ends are taken, and what is behind the last newline is returned.
pub fn read_lines<R: Read, L: TakesLines>(
    alloc: Global,
    input: &mut R,
    lines: &mut L,
) -> Result<String, Fault>
    //~ requires { L.has_taken lines.old [] }
    //~ ensures ok { IfOk result (λ rest. (seen : List Text) × L.has_taken lines.new seen
    //~     × IsTextOf (R.remaining input.old) seen (string_bytes rest)) }
    //~ ensures same { L.kept lines.new ≡ L.kept lines.old }
    //~ ensures fault { IfErr result (IsLinesFault L.refuses (R.remaining input.old)) }
{
    let mut block = Block::new(alloc)?;
    for _ in 0..u64::MAX {
        if read_block(&mut block, input, lines)? {
            return end_block(block, lines.count_lines());
        }
    }
    Err(Fault::of_read(io::Error::from(ErrorKind::Interrupted)))
}
