//! Interning many texts. All are looked for first, without a lock. Then the locks of the shards of those that were not found are taken,
//! each once, so that new texts get their numbers in the order in which they come.

use super::index::{ask_for_entry, ask_for_word, glance};
use super::shared::shard_of;
use super::Interner;
use crate::erased::interner::given::Given;
use crate::erased::interner::look_ahead::FEWEST_FOR_BLOCKS;
use crate::error::InternError;
use crate::interner::block::{InternSlice, LEN};
use crate::symbol::Symbol;
use core::hash::BuildHasher;

/// Stands for the number of a text that was not found. No text has it.
const NONE: usize = usize::MAX;

impl<S: Symbol, H: BuildHasher> Interner<S, H> {
    /// Looks for texts with these codes, and writes their numbers. Returns the shards of those that are not found, a bit each.
    fn find_all(&self, texts: &[&str], codes: &[u64], numbers: &mut [usize]) -> u32 {
        let mut shards = 0;
        for ((text, code), number) in texts.iter().zip(codes).zip(numbers) {
            let found = glance(&self.memory, *code, text).or_else(|| self.find(*code, text));
            *number = match found {
                Some(number) => number as usize,
                None => {
                    shards |= 1 << shard_of(*code);
                    NONE
                }
            };
        }
        shards
    }

    /// Has the processor fetch what a search for texts with these codes reads, for many at the same time.
    fn ask_for_all(&self, codes: &[u64]) {
        codes
            .iter()
            .for_each(|code| ask_for_word(&self.memory, *code));
        codes
            .iter()
            .for_each(|code| ask_for_entry(&self.memory, *code));
    }
}

impl<S: Symbol, H: BuildHasher> InternSlice for &Interner<S, H> {
    fn intern_slice(&mut self, texts: &[&str], numbers: &mut [usize]) -> Result<(), InternError> {
        let codes = &mut [0; LEN][..texts.len()];
        for (code, text) in codes.iter_mut().zip(texts) {
            *code = self.shared.code_of(text);
        }
        if self.len() >= FEWEST_FOR_BLOCKS {
            self.ask_for_all(codes);
        }
        let shards = self.find_all(texts, codes, numbers);
        if shards == 0 {
            return Ok(());
        }
        let mut locked = self.memory.lock(shards);
        for ((text, code), number) in texts.iter().zip(&*codes).zip(numbers) {
            if *number == NONE {
                let (shard, store) = locked.shard(shard_of(*code));
                let interned = shard.intern(&self.shared, store, *code, Given::Copied(text))?;
                *number = interned.number as usize;
            }
        }
        Ok(())
    }
}
