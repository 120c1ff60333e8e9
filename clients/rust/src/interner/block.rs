//! Texts that wait to be interned together.

use super::StringInterner;
use crate::backend::Backend;
use crate::error::InternError;
use core::hash::BuildHasher;
#[cfg(feature = "std")]
use std::panic::{catch_unwind, AssertUnwindSafe};

/// How many texts wait at most. The proved call looks at 32 of so many, to see whether it pays to look further.
pub(crate) const LEN: usize = 512;

/// What takes texts in blocks.
pub(crate) trait InternSlice {
    /// Interns at most [`LEN`] texts, up to one that fails, and writes the numbers of their symbols.
    fn intern_slice(&mut self, texts: &[&str], numbers: &mut [usize]) -> Result<(), InternError>;
}

impl<B: Backend, H: BuildHasher> InternSlice for StringInterner<B, H> {
    fn intern_slice(&mut self, texts: &[&str], numbers: &mut [usize]) -> Result<(), InternError> {
        let ended = self.proved.intern_slice(texts, numbers);
        ended.map_err(|stopped| stopped.error.into())
    }
}

/// Makes a call while a panic unwinds. If the call panics, too, that ends here, because it would end the process.
fn call_quietly(call: impl FnOnce()) {
    #[cfg(feature = "std")]
    if let Err(payload) = catch_unwind(AssertUnwindSafe(call)) {
        // To drop it could panic once more.
        core::mem::forget(payload);
    }
    #[cfg(not(feature = "std"))]
    call();
}

/// Texts of items that wait to be interned. If something panics meanwhile, they are interned all the same, as if each had been interned
/// when it came.
pub(crate) struct Block<'a, 't, I: InternSlice> {
    interner: &'a mut I,
    texts: [&'t str; LEN],
    /// How many texts wait, from the first on.
    waiting: usize,
}

impl<'a, 't, I: InternSlice> Block<'a, 't, I> {
    pub fn new(interner: &'a mut I) -> Self {
        Block {
            interner,
            texts: [""; LEN],
            waiting: 0,
        }
    }

    /// Takes a text. There is room for it.
    #[inline]
    pub fn push(&mut self, text: &'t str) {
        self.texts[self.waiting] = text;
        self.waiting += 1;
    }

    /// Takes an item for each place, as far as there are so many, and reads the text of each as it comes. Returns whether there may be
    /// more. There is room for so many texts.
    pub fn fill<T: AsRef<str>>(
        &mut self,
        places: &'t mut [Option<T>],
        items: &mut impl Iterator<Item = T>,
    ) -> bool {
        for place in places {
            let Some(item) = items.next() else {
                return false;
            };
            let item: &'t T = place.insert(item);
            self.push(item.as_ref());
        }
        true
    }

    /// Returns how many texts wait.
    pub fn len(&self) -> usize {
        self.waiting
    }

    /// Interns the texts that wait, up to one that fails. Writes the numbers of their symbols, and returns these.
    pub fn intern<'n>(
        &mut self,
        numbers: &'n mut [usize; LEN],
    ) -> Result<&'n [usize], InternError> {
        let count = self.waiting;
        let ended = self
            .interner
            .intern_slice(&self.texts[..count], &mut numbers[..count]);
        // Until here a hasher of the program's own may have panicked, and some before its text were looked for, and not yet interned.
        self.waiting = 0;
        ended?;
        Ok(&numbers[..count])
    }
}

impl<I: InternSlice> Drop for Block<'_, '_, I> {
    fn drop(&mut self) {
        for text in &self.texts[..self.waiting] {
            let mut is_interned = false;
            call_quietly(|| is_interned = self.interner.intern_slice(&[text], &mut [0]).is_ok());
            if !is_interned {
                break;
            }
        }
    }
}
