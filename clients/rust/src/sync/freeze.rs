//! Making a shared interner of a plain one, and something smaller and faster of a shared one, once all texts are known.

use super::Interner;
use crate::backend::{symbol_of, Backend, BackendAdapter, BucketBackend, StringBackend};
use crate::erased::dedup::probe::Vacancy;
use crate::erased::dedup::tagged::coded_symbol;
use crate::erased::dedup::TextIndex;
use crate::error::expect;
use crate::hasher::HasherAdapter;
use crate::interner::{reserve, Index, StringInterner};
use crate::rt::alloc::Global;
use crate::symbol::{Symbol, SymbolAdapter};
use core::hash::BuildHasher;
use std::vec::Vec;

/// Up to so many texts no index of a shard has more than 2³² slots, and 32 bits of a code tell which slot is the home of its text.
const MOST_BY_CODES: u64 = 3 << 30;

/// Returns the code of each text that the index of an interner keeps, by the number of its symbol.
#[track_caller]
fn codes_of<B: Backend, H: BuildHasher>(plain: &StringInterner<B, H>) -> Vec<Option<u32>> {
    let (count, index) = (plain.len(), plain.proved.index());
    let mut codes = Vec::new();
    expect(reserve(&mut codes, count));
    codes.resize(count, None);
    if count as u64 > MOST_BY_CODES {
        return codes;
    }
    for slot in 0..index.slots() {
        let Some((SymbolAdapter(symbol), code)) = coded_symbol(index, slot) else {
            continue;
        };
        // A program's own type may make up a number that is none of these.
        if let Some(place) = codes.get_mut(symbol.to_usize()) {
            *place = Some(code);
        }
    }
    codes
}

impl<S: Symbol, H: BuildHasher> Interner<S, H> {
    /// Returns an interner of the texts of a plain one whose symbols number 0, 1, 2, ..
    #[track_caller]
    fn of_plain<B: Backend<Symbol = S>>(plain: StringInterner<B, H>) -> Self {
        let codes = codes_of(&plain);
        let (BackendAdapter(texts), HasherAdapter(hasher)) = plain.proved.into_parts();
        let mut interner = Self::with_capacity_and_hasher(codes.len(), hasher);
        for ((_, text), code) in texts.iter().zip(codes) {
            let code = match code {
                Some(code) => code.into(),
                None => interner.shared.code_of(text),
            };
            expect(interner.intern_coded_alone(code, text));
        }
        interner.shrink_to_fit();
        interner
    }

    /// Returns a plain interner with the same texts under the same symbols. Threads may read it at the same time through a `&`, and
    /// a call takes less time and memory there. It copies each text, and hashes and compares none.
    ///
    /// ```
    /// use string_interner::sync::Interner;
    ///
    /// let parsed = Interner::new();
    /// let tiger = parsed.get_or_intern("Tiger");
    /// let names = parsed.into_interner();
    /// assert_eq!(names.get("Tiger"), Some(tiger));
    /// ```
    ///
    /// # Panics
    ///
    /// If an allocation fails.
    #[must_use]
    #[track_caller]
    pub fn into_interner(self) -> StringInterner<StringBackend<S>, H> {
        let texts = self.copy_texts();
        let mut index: Index<StringBackend<S>> =
            expect(TextIndex::with_capacity(Global, self.len()));
        let is_wider_than_codes = index.slots() as u64 > 1 << 32;
        // In the order of the words, which is nearly that of the slots, so that few lines of the index are far from the last ones.
        self.memory.items().for_each(|(number, code)| {
            let code = match is_wider_than_codes {
                true => self.shared.code_of(self.memory.wait_for(number)),
                false => code.into(),
            };
            // The texts are distinct, and there is room for all.
            index.insert_at(
                Vacancy::by_code(code),
                SymbolAdapter(symbol_of(number as usize)),
            );
        });
        StringInterner::over(texts, self.shared.hasher.0, index)
    }
}

impl<S: Symbol, H: BuildHasher> From<StringInterner<StringBackend<S>, H>> for Interner<S, H> {
    /// Returns a shared interner with the same texts under the same symbols. It copies each text, and hashes none.
    ///
    /// ```
    /// use string_interner::{sync::Interner, StringInterner};
    ///
    /// let mut keywords = StringInterner::default();
    /// let tiger = keywords.get_or_intern("Tiger");
    /// let names = Interner::from(keywords);
    /// assert_eq!(names.get("Tiger"), Some(tiger));
    /// ```
    ///
    /// # Panics
    ///
    /// If an allocation fails, or there are more texts than 2³² − 1.
    #[track_caller]
    fn from(plain: StringInterner<StringBackend<S>, H>) -> Self {
        Self::of_plain(plain)
    }
}

impl<S: Symbol, H: BuildHasher> From<StringInterner<BucketBackend<S>, H>> for Interner<S, H> {
    /// The same of an interner over buckets. It copies static texts, too.
    #[track_caller]
    fn from(plain: StringInterner<BucketBackend<S>, H>) -> Self {
        Self::of_plain(plain)
    }
}

impl<S: Symbol, H> Interner<S, H> {
    /// Returns all texts in a backend, which resolves symbols and looks no text up. It takes the least memory. It copies each text.
    ///
    /// ```
    /// use string_interner::{backend::Backend, sync::Interner};
    ///
    /// let parsed = Interner::new();
    /// let tiger = parsed.get_or_intern("Tiger");
    /// let texts = parsed.into_backend();
    /// assert_eq!(texts.resolve(tiger), Some("Tiger"));
    /// ```
    ///
    /// # Panics
    ///
    /// If an allocation fails.
    #[must_use]
    #[track_caller]
    pub fn into_backend(self) -> StringBackend<S> {
        let mut backend = self.copy_texts();
        backend.shrink_to_fit();
        backend
    }

    /// Returns copies of all texts under their symbols.
    #[track_caller]
    fn copy_texts(&self) -> StringBackend<S> {
        let mut texts = StringBackend::with_capacity(self.len());
        for number in 0..self.shared.count() {
            texts.intern(self.memory.wait_for(number));
        }
        texts
    }
}
