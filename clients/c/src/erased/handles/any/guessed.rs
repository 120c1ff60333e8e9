//! Interning one of many texts, by a guess if most of them are known.

//~ ghost use Rattle.string_interner.specs.Interner.{InternsInto};
//~ ghost use Rattle.string_interner.specs.LoadFactor.{seven_eighths};

use crate::rt::prelude::*; use super::HashedInterner;
use super::intern_many::Texts;
use crate::handles::status::Status;
use crate::erased::BLOCK_LEN;
use crate::erased::backend::{Backend, InternError};
use crate::erased::symbol::SymbolU32;

/// Returns the symbol of a text. Appends a new text. With `guesses` it asks for a guess first, which is shorter if it is right.
#[inline(always)]
pub fn intern_one<B: Backend<Symbol = SymbolU32>>(
    interner: &mut HashedInterner<B>,
    text: &str,
    guesses: bool,
) -> Result<SymbolU32, InternError>
    //~ ensures { InternsInto B.numbering seven_eighths interner.old text.now result interner.new }
{
    if guesses {
        // For the proof: states that the texts are those of an interner.
        let _ = interner.len();
        if let Some(symbol) = interner.get_by_guess(text) {
            return Ok(symbol);
        }
        return intern_missed(interner, text);
    }
    interner.get_or_intern(text)
}

/// Returns the symbol of a text that no guess found. Appends a new text.
///
/// It is a call of its own, so that the loop around a guess needs few registers.
#[inline(never)]
fn intern_missed<B: Backend<Symbol = SymbolU32>>(
    interner: &mut HashedInterner<B>,
    text: &str,
) -> Result<SymbolU32, InternError>
    //~ ensures { InternsInto B.numbering seven_eighths interner.old text.now result interner.new }
{
    interner.get_or_intern(text)
}

/// Reports whether a guess finds a text.
fn is_found<B: Backend<Symbol = SymbolU32>>(
    interner: &HashedInterner<B>,
    text: Result<&str, Status>,
) -> bool {
    match text {
        Ok(text) => interner.get_by_guess(text).is_some(),
        Err(_) => false,
    }
}

/// Fewer texts are interned without guesses: to ask of few takes as long as what it saves.
const FEWEST_FOR_GUESSES: usize = 8;

/// Reports whether most of these texts are likely to be known, by the first and the one in the middle.
pub fn are_likely_known<B: Backend<Symbol = SymbolU32>, T: Texts>(
    interner: &HashedInterner<B>,
    texts: &T,
) -> bool {
    let count = texts.len();
    if count < FEWEST_FOR_GUESSES {
        return false;
    }
    is_found(interner, texts.text_at(0)) && is_found(interner, texts.text_at(count / 2))
}

/// From so many texts on a block pays. A known text that a guess finds takes one comparison alone.
const FEWEST_FOR_BLOCKS: usize = 4 * crate::erased::FEWEST_FOR_BLOCKS;

/// Returns the index of the first text for which `touch_block` is called: 0 if the interner is large and guesses are asked for, and
/// else `usize::MAX`, behind all texts.
#[inline(always)]
pub fn first_block<B: Backend<Symbol = SymbolU32>>(
    interner: &HashedInterner<B>,
    guesses: bool,
) -> usize {
    if guesses && interner.len() >= FEWEST_FOR_BLOCKS {
        0
    } else {
        usize::MAX
    }
}

/// Looks for a block of texts together, from an index on, so that they wait for memory at the same time. Returns the index of
/// the text at which it is time for the next block.
#[inline(never)]
pub fn touch_block<B: Backend<Symbol = SymbolU32>, T: Texts>(
    interner: &HashedInterner<B>,
    texts: &T,
    from: usize,
) -> usize {
    let count = texts.len().saturating_sub(from).min(BLOCK_LEN);
    let mut block = [""; BLOCK_LEN];
    for at in 0..count {
        if let Ok(text) = texts.text_at(from + at) {
            block[at] = text;
        }
    }
    from.saturating_add(interner.touch(&block[..count]))
}
