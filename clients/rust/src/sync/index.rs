//! Looking a text up without a lock, in the words of its shard's proved index.
//!
//! The library's own code does that, over the two traits here, which say what threads are shown. Whatever that is, a number that is
//! found has the text. A text that is not found was not known when the look began: that rests on how threads see each other's writes
//! ([`orders`](super::orders)).

use super::memory::{Memory, Store, Table, Texts};
use super::shared::shard_of;
use crate::erased::dedup::probe::home_of;
use crate::erased::dedup::shown::{self, ShownTexts, ShownWords};
use crate::erased::symbol::{Symbol as _, SymbolU32};

impl ShownWords for Table<'_> {
    #[inline(always)]
    fn len(&self) -> usize {
        Table::len(*self)
    }

    #[inline(always)]
    fn load(&self, at: usize) -> u64 {
        Table::load(*self, at)
    }
}

impl ShownTexts for Texts {
    #[inline(always)]
    fn get(&self, number: SymbolU32) -> Option<&str> {
        Texts::get(self, number.to_usize() as u32)
    }
}

/// Returns the number of a text with this code, if its shard shows it at once. Few known texts it does not.
#[inline(always)]
pub(super) fn glance(memory: &Memory, code: u64, text: &str) -> Option<u32> {
    let words = memory.table(shard_of(code));
    shown::glance(&words, memory.texts(), code, text).map(|number| number.to_usize() as u32)
}

/// Returns the number of a text with this code, if it was known when this was called, and perhaps if it came meanwhile.
#[inline]
pub(super) fn look(memory: &Memory, code: u64, text: &str) -> Option<u32> {
    let words = memory.table(shard_of(code));
    shown::look(&words, memory.texts(), code, text).map(|number| number.to_usize() as u32)
}

/// Returns the number of a text with this code, if the shard whose lock is taken has it.
#[cold]
pub(super) fn look_under_lock(store: &Store<'_>, code: u64, text: &str) -> Option<u32> {
    shown::look(&store.table(), store.texts(), code, text).map(|number| number.to_usize() as u32)
}

/// Has the processor fetch the first word of a text with this code.
#[inline(always)]
pub(super) fn ask_for_word(memory: &Memory, code: u64) {
    let words = memory.table(shard_of(code));
    if words.len() > 0 {
        words.ask_for(home_of(code, words.len()));
    }
}

/// Has the processor fetch the entry of the number in that word, whose text it may be.
#[inline(always)]
pub(super) fn ask_for_entry(memory: &Memory, code: u64) {
    let words = memory.table(shard_of(code));
    if words.len() > 0 {
        let word = words.load(home_of(code, words.len()));
        memory.texts().ask_for((word as u32).wrapping_sub(1));
    }
}
