//! Many texts in one call: in a list, or end to end.

//~ ghost use Rattle.std.specs.Prelude.{◌<◌, ◌≡◌, List, Result, ℕ, length, slice_get, IfSome};
//~ ghost use Rattle.string_interner.specs.StringBackend.{span_of};
//~ ghost use Rattle.handles.specs.InternMany.{InKindsOf, InternsMany, IsGiven, cut, listed, parts};
//~ ghost use Rattle.handles.specs.declared.status.Status.{Status};

use crate::rt::prelude::*; use super::guessed::{are_likely_known, first_block, intern_one, touch_block};
use super::{AnyInterner, HashedInterner, to_u32};
use crate::handles::status::Status;
use crate::handles::text::{Text, text_of};
use crate::erased::backend::Backend;
use crate::erased::symbol::SymbolU32;

/// Texts that a caller passes, read by their indexes.
pub trait Texts: Sized {
    //~ /// The bytes of each, or why there are none.
    //~ ghost given: { Self → List (Result (List ℕ) Status) };

    /// Returns the number of texts.
    fn len(&self) -> usize;
        //~ ensures { result ≡ length (given self.now) };

    /// Returns the text at an index, if there are bytes and they are UTF-8.
    fn text_at(&self, index: usize) -> Result<&str, Status>;
        //~ requires { index < length (given self.now) }
        //~ ensures { IfSome (slice_get (given self.now) index) (λ it. IsGiven it result) };
}

/// Texts in a list.
#[derive(Clone, Copy)]
pub struct Listed<'a> {
    texts: &'a [Text<'a>],
}

impl<'a> Texts for Listed<'a> {
    //~ ghost given = { λ l. listed l.texts.now };

    #[inline(always)]
    fn len(&self) -> usize {
        self.texts.len()
    }

    #[inline(always)]
    fn text_at(&self, index: usize) -> Result<&str, Status> {
        text_of(self.texts[index].bytes)
    }
}

/// Texts that are end to end in the bytes, each up to its end.
#[derive(Clone, Copy)]
pub struct Parts<'a> {
    bytes: &'a [u8],
    ends: &'a [usize],
}

impl<'a> Texts for Parts<'a> {
    //~ ghost given = { λ p. parts p.bytes.now 0 p.ends.now };

    #[inline(always)]
    fn len(&self) -> usize {
        self.ends.len()
    }

    #[inline(always)]
    fn text_at(&self, index: usize) -> Result<&str, Status> {
        let (from, end) = bounds_of(self.ends, index);
        text_between(self.bytes, from, end)
    }
}

/// Returns where a part begins and ends.
#[inline(always)]
fn bounds_of(ends: &[usize], index: usize) -> (usize, usize)
    //~ requires { index < length ends.now }
    //~ ensures { result ≡ span_of ends.now index }
{
    if index == 0 {
        (0, ends[index])
    } else {
        (ends[index - 1], ends[index])
    }
}

/// Returns the bytes between these two ends as a text.
#[inline(always)]
fn text_between(bytes: &[u8], from: usize, end: usize) -> Result<&str, Status>
    //~ ensures { IsGiven (cut bytes.now from end) result }
{
    match bytes.get(from..end) {
        Some(part) => text_of(part),
        None => Err(Status::BadEnds),
    }
}

/// Interns texts, and writes their symbols. Stops at the first that fails, and returns how many were interned before it. With
/// `guesses` it is fastest if most texts are known, and without if most are new.
///
/// Inlined, so that there is a loop for each kind, with guesses and without.
#[inline(always)]
fn intern_each<B: Backend<Symbol = SymbolU32>, T: Texts>(
    interner: &mut HashedInterner<B>,
    texts: &T,
    symbols: &mut [u32],
    done: &mut usize,
    guesses: bool,
) -> Result<(), Status>
    //~ ensures { InKindsOf B.numbering (InternsMany (T.given texts.now))
    //~     (interner.old, symbols.old, done.old) result
    //~     (interner.new, symbols.new, done.new) }
{
    *done = 0;
    if symbols.len() < texts.len() {
        return Err(Status::NoRoom);
    }
    let mut next = first_block(interner, guesses);
    for at in 0..texts.len() {
        if at == next {
            next = touch_block(interner, texts, next);
        }
        let text = texts.text_at(at)?;
        let symbol = intern_one(interner, text, guesses)?;
        symbols[at] = to_u32(symbol);
        *done = at + 1;
    }
    Ok(())
}

impl AnyInterner {
    /// Interns texts, and writes their symbols. Stops at the first that fails, and returns how many were interned before it.
    #[inline(always)]
    fn intern_many<T: Texts>(
        &mut self,
        texts: &T,
        symbols: &mut [u32],
        done: &mut usize,
    ) -> Result<(), Status>
        //~ ensures { InternsMany (T.given texts.now)
        //~     (self.old, symbols.old, done.old) result (self.new, symbols.new, done.new) }
    {
        if each!(&*self, interner => are_likely_known(interner, texts)) {
            each!(self, interner => intern_each(interner, texts, symbols, done, true))
        } else {
            each!(self, interner => intern_each(interner, texts, symbols, done, false))
        }
    }

    /// Interns the texts of a list, and writes their symbols. Stops at the first that fails: `done` says how many were interned
    /// before it. `NoRoom` if there are fewer places for symbols than texts: then `done` is 0, and nothing else changes.
    pub fn intern_list<'a>(
        &mut self,
        texts: &'a [Text<'a>],
        symbols: &mut [u32],
        done: &mut usize,
    ) -> Result<(), Status>
        //~ ensures { InternsMany (listed texts.now)
        //~     (self.old, symbols.old, done.old) result (self.new, symbols.new, done.new) }
    {
        self.intern_many(&Listed { texts }, symbols, done)
    }

    /// Interns the texts that are end to end in the bytes, each up to its end, and writes their symbols. Stops, and fails, as
    /// `intern_list` does, and also at an end that is in front of the one before it or behind the bytes.
    pub fn intern_joined(
        &mut self,
        bytes: &[u8],
        ends: &[usize],
        symbols: &mut [u32],
        done: &mut usize,
    ) -> Result<(), Status>
        //~ ensures { InternsMany (parts bytes.now 0 ends.now)
        //~     (self.old, symbols.old, done.old) result (self.new, symbols.new, done.new) }
    {
        self.intern_many(&Parts { bytes, ends }, symbols, done)
    }
}
