//! The words of a table, which threads may read while the one that has the table writes them: what `dedup/words/list.rt` is in the
//! proved source.
//!
//! A list has its words in a block of memory that begins with a cache line, and behind them the count of the lists that have the same
//! block. What is unsafe here rests on that: the last of these lists frees the block. A list can be taken apart into a name, which is
//! put together again once.

#![allow(unsafe_code)]

use super::alloc::{AllocError, Global};
use alloc::alloc::{alloc_zeroed, dealloc};
use core::alloc::Layout;
use core::mem::ManuallyDrop;
use core::ptr::NonNull;
use core::slice;
use core::sync::atomic::{fence, AtomicPtr, AtomicUsize, Ordering::*};

#[cfg(target_has_atomic = "64")]
mod word {
    use core::sync::atomic::{AtomicU64, Ordering::Relaxed};

    /// A word that threads may read while one writes it. Neither orders anything: what a word names has an order of its own.
    #[repr(transparent)]
    pub struct Word(AtomicU64);

    impl Word {
        #[inline(always)]
        pub fn load(&self) -> u64 {
            self.0.load(Relaxed)
        }

        #[inline(always)]
        pub(super) fn store(&self, word: u64) {
            self.0.store(word, Relaxed);
        }
    }
}

#[cfg(not(target_has_atomic = "64"))]
mod word {
    use core::cell::Cell;

    /// A word that one thread has.
    #[repr(transparent)]
    pub struct Word(Cell<u64>);

    impl Word {
        #[inline(always)]
        pub fn load(&self) -> u64 {
            self.0.get()
        }

        #[inline(always)]
        pub(super) fn store(&self, word: u64) {
            self.0.set(word);
        }
    }
}

pub use word::Word;

/// A block begins at a multiple of so many bytes, which share a cache line.
pub const LINE: usize = 64;

/// What is behind the words of a block.
struct Tail {
    /// How many lists have the block.
    lists: AtomicUsize,
    /// The name of a list that came before, or null.
    before: AtomicPtr<Word>,
}

/// A list of words, which begin as 0.
pub struct Words {
    /// A block of so many words and a tail. Without words there is none.
    block: NonNull<Word>,
    count: usize,
}

// SAFETY: whoever has the block has a count in it, which is atomic, as the words are that threads share.
#[cfg(target_has_atomic = "64")]
unsafe impl Send for Words {}

/// The size of a block of so many words, which is within bounds since there is such a block or is asked for.
fn layout(count: usize) -> Option<Layout> {
    let words = Layout::array::<Word>(count).ok()?;
    let (block, _) = words.extend(Layout::new::<Tail>()).ok()?;
    block.align_to(LINE).ok()
}

/// The size of a block of so many words.
pub fn size_of_words(count: usize) -> usize {
    match count {
        0 => 0,
        _ => layout(count).map_or(usize::MAX, |layout| layout.size()),
    }
}

/// Returns where the words of a list with this name are, and how many: none at null for null.
#[inline(always)]
pub fn parts_of_name(name: *mut Word) -> (*mut Word, usize) {
    let bits = name.addr() % LINE;
    (name.wrapping_byte_sub(bits), (1 << bits) & !1)
}

impl Words {
    /// Makes a list of no words. Allocates nothing.
    pub const fn new(_alloc: Global) -> Words {
        Words {
            block: NonNull::dangling(),
            count: 0,
        }
    }

    /// Makes a list of so many words. `Err` only if the memory is refused, or its size is too large.
    pub fn zeros(alloc: Global, count: usize) -> Result<Words, AllocError> {
        if count == 0 {
            return Ok(Words::new(alloc));
        }
        let layout = layout(count).ok_or(AllocError)?;
        // SAFETY: the size is not 0.
        let block = NonNull::new(unsafe { alloc_zeroed(layout) }.cast());
        let words = Words {
            block: block.ok_or(AllocError)?,
            count,
        };
        words.tail().lists.store(1, Relaxed);
        Ok(words)
    }

    /// Makes a list of the same words in a block of its own. `Err` only if the memory is refused.
    pub fn try_copy(&self) -> Result<Words, AllocError> {
        let copy = Words::zeros(Global, self.count)?;
        for (to, from) in copy.as_slice().iter().zip(self.as_slice()) {
            to.store(from.load());
        }
        Ok(copy)
    }

    /// Returns another list of the same block, which stays until both are dropped. What is written by one is read by the other.
    pub fn share(&self) -> Words {
        if self.count > 0 {
            self.tail().lists.fetch_add(1, Relaxed);
        }
        Words { ..*self }
    }

    /// Returns what is behind the words. There are some.
    #[inline]
    fn tail(&self) -> &Tail {
        assert!(self.count > 0);
        // SAFETY: it is behind the words, made of bytes that were 0, and nobody has the block but by its lists.
        unsafe { self.block.add(self.count).cast().as_ref() }
    }

    /// Takes a list of two words or more apart, and returns its name: where the words are, and in the low bits the logarithm of their
    /// count, a power of two. It remembers a name that came before, or null.
    pub fn into_name(self, before: *mut Word) -> *mut Word {
        assert!(self.count.is_power_of_two() && self.count > 1);
        self.tail().before.store(before, Relaxed);
        let bits = self.count.ilog2() as usize;
        ManuallyDrop::new(self)
            .block
            .as_ptr()
            .wrapping_byte_add(bits)
    }

    /// Puts a list together again, and returns it with the name that it remembers. There is none of null.
    ///
    /// # Safety
    ///
    /// `into_name` returned the name, and nobody else puts this list together.
    pub unsafe fn of_name(name: *mut Word) -> Option<(Words, *mut Word)> {
        let (block, count) = parts_of_name(name);
        let block = NonNull::new(block)?;
        let words = Words { block, count };
        let before = words.tail().before.load(Relaxed);
        Some((words, before))
    }

    /// Returns the words.
    #[inline(always)]
    pub fn as_slice(&self) -> &[Word] {
        // SAFETY: the block has so many, or there are none.
        unsafe { slice::from_raw_parts(self.block.as_ptr(), self.count) }
    }

    /// Returns how many words there are.
    #[inline(always)]
    pub fn len(&self) -> usize {
        self.count
    }

    /// Returns how many bytes the block takes.
    pub fn size(&self) -> usize {
        size_of_words(self.count)
    }

    /// Returns a word.
    #[inline(always)]
    pub fn get(&self, at: usize) -> u64 {
        self.as_slice()[at].load()
    }

    /// Writes a word.
    #[inline(always)]
    pub fn set(&mut self, at: usize, word: u64) {
        self.as_slice()[at].store(word);
    }

    /// Writes 0 to all words.
    pub fn clear(&mut self) {
        self.as_slice().iter().for_each(|word| word.store(0));
    }
}

impl Drop for Words {
    fn drop(&mut self) {
        if self.count == 0 || self.tail().lists.fetch_sub(1, Release) > 1 {
            return;
        }
        // What other lists read and wrote comes before.
        fence(Acquire);
        if let Some(layout) = layout(self.count) {
            // SAFETY: `zeros` made the block by this layout, and no list has it any more.
            unsafe { dealloc(self.block.as_ptr().cast(), layout) };
        }
    }
}
