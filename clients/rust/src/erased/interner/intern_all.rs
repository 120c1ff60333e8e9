//! Interning the texts of an iterator into a list of their symbols.

//~ ghost use Rattle.std.specs.Prelude.{◌≡◌, ◌+◌, ◌≤◌, List, [], ◌∷◌, ◌++◌, length, map, Some, vec_capacity};
//~ ghost use Rattle.string_interner.specs.Extend.{IsFinite, YieldedBy};
//~ ghost use Rattle.string_interner.specs.InternAll.{InternsEach, Lists};

use crate::rt::prelude::*; use super::StringInterner;
use super::intern_slice::intern_front;
use super::look_ahead::{Ahead, BLOCK_LEN, FEWEST_FOR_BLOCKS};
use crate::erased::backend::{InternError, Store};
use crate::erased::dedup::TextIndex;
use crate::erased::hash::TextHasher;
use crate::erased::symbol::Symbol;

impl<B: Store, H: TextHasher, I: TextIndex<B::Symbol>> StringInterner<B, H, I> {
    /// Interns the texts of a finite iterator in order, and appends the symbol of each to a list: a column becomes its symbols.
    /// Stops at the first text that fails, as `get_or_intern` does.
    ///
    /// - On `Err` the texts before the failed one stay, and the list has their symbols: its new length says how many.
    /// - It also fails if the list is full and cannot grow. The text that it lacks room for is not interned.
    /// - The iterator may be up to 31 texts past the failed one.
    ///
    /// ```ignore
    /// let mut symbols = Vec::new(alloc);
    /// interner.intern_all(["red", "green", "red"].iter().copied(), &mut symbols)?; // two texts, three symbols
    /// ```
    pub fn intern_all<'t, T: IntoIterator<Item = &'t str>>(
        &mut self,
        texts: T,
        symbols: &mut Vec<B::Symbol>,
    ) -> Result<(), InternError>
        //~ requires { IsFinite T.IntoIterator T.IntoIter.Iterator texts }
        //~ ensures { InternsEach B.numbering I.rule
        //~     (YieldedBy T.IntoIterator T.IntoIter.Iterator texts)
        //~     (self.old, symbols.old) result (self.new, symbols.new) }
    {
        // For the proof: states the load factor before the first text.
        let _ = self.len();
        let mut block = [""; BLOCK_LEN];
        let mut len = 0;
        // How many texts are still interned one by one.
        let mut alone: usize = 0;
        for text in texts {
            // A block that has begun is filled first, so that texts stay in order.
            let is_alone = len == 0 && (alone > 0 || self.len() < FEWEST_FOR_BLOCKS);
            if is_alone {
                self.intern_next(text, symbols)?;
                alone = alone.saturating_sub(1);
                continue;
            }
            if len == 0 {
                symbols.reserve(1)?;
            }
            block[len] = text;
            len += 1;
            // No more texts than the list has room for, so that none is interned whose symbol is lost.
            if len == BLOCK_LEN || len == symbols.capacity() - symbols.len() {
                self.intern_block(&block[..len], symbols, &mut alone)?;
                len = 0;
            }
        }
        if len == 0 {
            return Ok(());
        }
        self.intern_block(&block[..len], symbols, &mut alone)
    }

    /// Interns a text, and appends its symbol to a list.
    #[inline(always)]
    fn intern_next(&mut self, text: &str, symbols: &mut Vec<B::Symbol>) -> Result<(), InternError>
        //~ ensures interns { InternsEach B.numbering I.rule (Lists (text.entry ∷ []))
        //~     (self.old, symbols.old) result (self.new, symbols.new) }
        //~ ensures capacity { vec_capacity symbols.old ≤ vec_capacity symbols.new }
    {
        // For the proof: states the load factor before the text and after it.
        let _ = self.len();
        symbols.reserve(1)?;
        let symbol = self.get_or_intern(text)?;
        let _ = self.len();
        symbols.push_reserved(symbol);
        Ok(())
    }

    /// Interns the texts of a block in order, and appends the symbol of each to a list, which has room for them. Stops at the first
    /// text that fails.
    ///
    /// Stores in `alone` how many texts are best interned one by one before the next block.
    #[inline(never)]
    fn intern_block(
        &mut self,
        texts: &[&str],
        symbols: &mut Vec<B::Symbol>,
        alone: &mut usize,
    ) -> Result<(), InternError>
        //~ requires few { length texts.now ≤ 32 }
        //~ requires room { length symbols.old.items + length texts.now ≤ vec_capacity symbols.old }
        //~ ensures interns { InternsEach B.numbering I.rule (Lists texts.now)
        //~     (self.old, symbols.old) result (self.new, symbols.new) }
        //~ ensures capacity { vec_capacity symbols.new ≡ vec_capacity symbols.old }
    {
        let mut ahead = Ahead::new();
        let mut numbers = [0; BLOCK_LEN];
        let ended = intern_front(
            &mut self.backend,
            &self.hasher,
            &mut self.index,
            texts,
            &mut numbers,
            &mut ahead,
        );
        *alone = ahead.alone_after(texts.len());
        match ended {
            Ok(()) => {
                push_numbers(symbols, &numbers[..texts.len()]);
                Ok(())
            }
            Err(stopped) => {
                push_numbers(symbols, &numbers[..stopped.done]);
                Err(stopped.error)
            }
        }
    }
}

/// Appends the symbols with these numbers to a list, which has room for them.
#[inline(always)]
fn push_numbers<S: Symbol>(symbols: &mut Vec<S>, numbers: &[usize])
    //~ requires room { length symbols.old.items + length numbers.now ≤ vec_capacity symbols.old }
    //~ requires named { (list : List S) × (map S.symbol_of numbers.now ≡ map Some list) }
    //~ ensures pushed { (list : List S) → map S.symbol_of numbers.now ≡ map Some list
    //~     → symbols.new.items ≡ symbols.old.items ++ list }
    //~ ensures capacity { vec_capacity symbols.new ≡ vec_capacity symbols.old }
{
    for at in 0..numbers.len() {
        let Some(symbol) = S::try_from_usize(numbers[at]) else {
            unreachable!()
        };
        symbols.push_reserved(symbol);
    }
}
