//! An interner that threads share.
//!
//! [`StringInterner`](crate::StringInterner) needs `&mut self` to intern, so threads that share one wait for each other behind a
//! lock. The calls of an [`Interner`] take `&self`:
//!
//! ```
//! use string_interner::sync::Interner;
//!
//! let names = Interner::new();
//! let [one, other] = std::thread::scope(|scope| {
//!     let intern = || names.get_or_intern("Tiger");
//!     [scope.spawn(intern), scope.spawn(intern)].map(|thread| thread.join().unwrap())
//! });
//! assert_eq!(one, other);
//! assert_eq!(names.resolve(one), Some("Tiger"));
//! ```
//!
//! # What a call costs
//!
//! [`get`](Interner::get) takes no lock, nor does a call for a known text, and they write nothing that another thread reads: by
//! processor time four threads do four times the work of one. [`resolve`](Interner::resolve) takes none, unless it waits long for a text
//! that is just being added. A new text takes one of 32 locks, which its hash code chooses.
//!
//! Beside a plain interner, with one thread and texts of 9 bytes on average, as the repository's `bench/run` measured it:
//!
//! | | 10,000 texts | 1,000,000 texts |
//! |---|---:|---:|
//! | time of a known text | 1.4 | 1.1 |
//! | of a new text | 1.6 | 2.1 |
//! | of resolving | 1.0 | 1.0 |
//! | memory of a text | 1.2 | 1.6 |
//!
//! A new interner takes 3 KB where it lies, of bytes that are 0, so that a `static` takes no room in the program's file, and nothing
//! else until the first text comes. One of 100 texts takes 8 KB, which is 2.6 times as much as a plain one: have one for all threads,
//! and not one for each file or request. Once all texts are known, [`into_interner`](Interner::into_interner) makes a plain one.
//!
//! Indexes that were replaced by larger ones take a third of the memory, or less, until they are freed. There are none if
//! [`with_capacity`](Interner::with_capacity) makes room at once, or [`extend`](Extend::extend) all the texts.
//!
//! # How it works
//!
//! - Each shard is an index of the proved library behind a lock, by which the library's own code interns. It alone says whether a text
//!   is new.
//! - A slot of that index is one word of 64 bits. Threads look texts up in the words without the lock. A number that they find there is
//!   compared by its text, byte for byte.
//! - One table has the address and the length of each text by its number.
//! - When an index grows, its old words stay, since threads may still read them. They are freed with the interner, or by a call that
//!   takes `&mut self`. Bytes of texts are never moved.
//! - On a target without atomics of 64 bits no thread can hand an interner to another: it is not `Send`.
//!
//! # What is proved
//!
//! | Proved | Checked by a model | Tested |
//! |---|---|---|
//! | An index finds each of its texts, and takes no text twice, as long as one thread at a time calls it. After a new text each filled slot is as before. | Threads see a word that was written, and the text of a number, as the proof of `look` assumes, in each order that the memory allows. | How texts are stored, small indexes grow, and memory is counted and given back. |
//! | Whatever the words show, a number that `look` finds has the text. If it finds none, no number has it of which the reader was sure. | Each text has one number, and none is left out. What a thread was told stays so. Nobody waits without end. | All of it together: threads compared with a list, under two sanitizers, with memory refused. |
//!
//! The model has few texts and threads (`tests/orders.rs`). Each order and each step that it knows is needed: it sees what goes wrong
//! without.

mod freeze;
mod index;
mod iter;
mod many;
mod memory;
mod orders;
#[cfg(feature = "serde")]
mod serde;
mod shard;
mod shared;
#[cfg(test)]
mod tests;
mod traits;

use crate::erased::interner::given::Given;
use crate::erased::interner::look_ahead::FEWEST_FOR_BLOCKS;
use crate::error::{expect, InternError};
use crate::hasher::DefaultHashBuilder;
use crate::interner::block::{Block, LEN};
use crate::interner::{may_wait, reserve};
use crate::keywords::{check_keyword, Keywords};
use crate::symbol::{DefaultSymbol, Symbol};
use core::hash::BuildHasher;
use index::{glance, look};
pub use iter::Iter;
use memory::Memory;
use shared::{shard_of, Shared, SHARDS};
use std::vec::Vec;

/// For fewer texts a block costs more than it saves.
const FEWEST: usize = 32;

/// Up to so many bytes are hashed and compared in place.
const SHORT: usize = 16;

/// A list of distinct texts, each with a symbol, that many threads may read and extend at the same time.
///
/// Symbols number 0, 1, 2, .. in the order in which texts come, so that a `Vec` may have something for each of them. There are at
/// most 2³² − 1, and no more than the symbol type has. Texts stay until the interner is dropped. Hold it in an
/// [`Arc`](std::sync::Arc), in a `static` or on the stack of a [scope](std::thread::scope):
///
/// ```
/// use string_interner::sync::Interner;
///
/// static NAMES: Interner = Interner::new();
///
/// let tiger = NAMES.get_or_intern("Tiger");
/// assert_eq!(&NAMES[tiger], "Tiger");
/// ```
///
/// If a hasher or a symbol type of a program's own panics, that call does, and the interner has the texts that it had before. A hasher
/// must not call the same interner while it hashes a text, nor a symbol type while it converts a number: such a call may wait for
/// itself.
pub struct Interner<S = DefaultSymbol, H = DefaultHashBuilder> {
    shared: Shared<S, H>,
    memory: Memory,
}

impl Interner {
    /// Returns an interner without texts, whose symbols are of the default type and whose hasher is the default one.
    #[must_use]
    pub const fn new() -> Self {
        Self::with_hasher(DefaultHashBuilder)
    }

    /// The same, with spare capacity for about `cap` texts.
    ///
    /// ```
    /// let names = string_interner::sync::Interner::with_capacity(10_000);
    /// assert!(names.is_empty());
    /// ```
    ///
    /// # Panics
    ///
    /// As [`with_capacity_and_hasher`](Self::with_capacity_and_hasher).
    #[must_use]
    #[track_caller]
    pub fn with_capacity(cap: usize) -> Self {
        Self::with_capacity_and_hasher(cap, DefaultHashBuilder)
    }
}

impl<S: Symbol, H: BuildHasher> Interner<S, H> {
    /// Returns an interner without texts that hashes by `hash_builder`.
    ///
    /// ```
    /// use string_interner::{hasher::FixedHashBuilder, symbol::SymbolU16, sync::Interner};
    ///
    /// let names = Interner::<SymbolU16, _>::with_hasher(FixedHashBuilder);
    /// assert_eq!(names.resolve(names.get_or_intern("Tiger")), Some("Tiger"));
    /// ```
    #[must_use]
    pub const fn with_hasher(hash_builder: H) -> Self {
        Interner {
            shared: Shared::new(hash_builder),
            memory: Memory::new(),
        }
    }

    /// The same, with spare capacity for about `cap` texts: until there are so many, an index seldom grows, if the hasher spreads its
    /// codes. The bytes of texts need more memory.
    ///
    /// ```
    /// use string_interner::{hasher::FixedHashBuilder, symbol::SymbolU16, sync::Interner};
    ///
    /// let names = Interner::<SymbolU16, _>::with_capacity_and_hasher(1_000, FixedHashBuilder);
    /// assert!(names.is_empty());
    /// ```
    ///
    /// # Panics
    ///
    /// If `cap` is more than 2³² − 1, or an allocation fails.
    #[must_use]
    #[track_caller]
    pub fn with_capacity_and_hasher(cap: usize, hash_builder: H) -> Self {
        let mut interner = Self::with_hasher(hash_builder);
        expect(interner.make_first_room(cap));
        interner
    }

    /// Makes room for about so many texts, before the first one comes.
    fn make_first_room(&mut self, texts: usize) -> Result<(), InternError> {
        let count = u32::try_from(texts).map_err(|_| InternError::NoSymbol)?;
        let Some(last) = count.checked_sub(1) else {
            return Ok(());
        };
        // Chance spreads texts over shards. Few have this much more than their part.
        let part = texts.div_ceil(SHARDS);
        let most = part + 4 * part.isqrt();
        for shard in 0..SHARDS {
            let (shard, store) = self.memory.hold(shard);
            shard.make_first_room(most, store)?;
        }
        self.memory.texts().make_room_up_to(last)
    }

    /// Returns the symbol of a text, if it is known. Takes no lock.
    #[inline]
    pub fn get<T: AsRef<str>>(&self, string: T) -> Option<S> {
        let text = string.as_ref();
        match text.len() {
            0..=SHORT => self.get_here(text),
            _ => self.get_long(text),
        }
    }

    /// The same for a text of any length. It is a call, so that for a short text nothing is inlined that compares a long one.
    #[inline(never)]
    fn get_long(&self, text: &str) -> Option<S> {
        self.get_here(text)
    }

    #[inline(always)]
    fn get_here(&self, text: &str) -> Option<S> {
        let code = self.shared.code_of(text);
        let number = match glance(&self.memory, code, text) {
            Some(number) => number,
            None => self.find(code, text)?,
        };
        S::try_from_usize(number as usize)
    }

    /// Returns the number of a text with this code, if it is known. It is a call, so that its callers save fewer registers.
    #[inline(never)]
    fn find(&self, code: u64, text: &str) -> Option<u32> {
        look(&self.memory, code, text)
    }

    /// Reports whether a text is known. Takes no lock.
    #[inline]
    pub fn contains<T: AsRef<str>>(&self, string: T) -> bool {
        self.get(string).is_some()
    }

    /// Returns the symbol of a text. Appends a text that is not known, and takes a lock for that.
    ///
    /// # Panics
    ///
    /// If no symbol is left for a new text, or an allocation fails. The texts stay as they were.
    #[inline]
    #[track_caller]
    pub fn get_or_intern<T: AsRef<str>>(&self, string: T) -> S {
        expect(self.try_get_or_intern(string))
    }

    /// The same for a static text, which is not copied.
    ///
    /// # Panics
    ///
    /// As [`get_or_intern`](Self::get_or_intern).
    #[inline]
    #[track_caller]
    pub fn get_or_intern_static(&self, string: &'static str) -> S {
        expect(self.try_get_or_intern_static(string))
    }

    /// The same as [`get_or_intern`](Self::get_or_intern), but returns an error instead of a panic.
    ///
    /// # Errors
    ///
    /// Returns an error if no symbol is left for a new text, or an allocation fails. The texts stay as they were.
    #[inline]
    pub fn try_get_or_intern<T: AsRef<str>>(&self, string: T) -> Result<S, InternError> {
        let text = string.as_ref();
        match text.len() {
            0..=SHORT => self.get_or_intern_here(text),
            _ => self.get_or_intern_long(text),
        }
    }

    /// The same for a text of any length. It is a call, so that for a short text nothing is inlined that compares a long one.
    #[inline(never)]
    fn get_or_intern_long(&self, text: &str) -> Result<S, InternError> {
        self.get_or_intern_here(text)
    }

    #[inline(always)]
    fn get_or_intern_here(&self, text: &str) -> Result<S, InternError> {
        let code = self.shared.code_of(text);
        match glance(&self.memory, code, text) {
            Some(number) => self.shared.symbol_of(number),
            None => self.intern(code, text),
        }
    }

    /// The same as [`get_or_intern_static`](Self::get_or_intern_static), but returns an error instead of a panic.
    ///
    /// # Errors
    ///
    /// As [`try_get_or_intern`](Self::try_get_or_intern).
    #[inline]
    pub fn try_get_or_intern_static(&self, string: &'static str) -> Result<S, InternError> {
        let code = self.shared.code_of(string);
        match glance(&self.memory, code, string) {
            Some(number) => self.shared.symbol_of(number),
            None => self.intern_static(code, string),
        }
    }

    /// Interns many texts, and returns the symbol of each. Looks for 512 at a time without a lock, and then takes the lock of each shard
    /// that new ones among them need, once. Threads that need the same locks wait until these are in. Fewer than 32 texts, and those in
    /// items that need a drop, as `String`, or take more than 32 bytes, are interned one by one; of others it reads up to 512 ahead.
    ///
    /// ```
    /// let names = string_interner::sync::Interner::new();
    /// let words = names.intern_all("to be or not to be".split(' '));
    /// assert_eq!((words.len(), names.len()), (6, 4));
    /// assert_eq!(words[0], words[4]);
    /// ```
    ///
    /// # Panics
    ///
    /// If no symbol is left for a new text, or an allocation fails. The texts before it stay, and the iterator may be up to 511 texts
    /// past it.
    #[track_caller]
    pub fn intern_all<I>(&self, strings: I) -> Vec<S>
    where
        I: IntoIterator,
        I::Item: AsRef<str>,
    {
        let strings = strings.into_iter();
        let mut symbols = Vec::new();
        let (least, most) = strings.size_hint();
        expect(reserve(&mut symbols, least));
        if most.is_none_or(|most| most >= FEWEST) && may_wait::<I::Item>() {
            self.intern_blocks(strings, &mut symbols);
            return symbols;
        }
        // A closure would hide from the panic who called.
        for string in strings {
            expect(reserve(&mut symbols, 1));
            symbols.push(self.get_or_intern(string));
        }
        symbols
    }

    /// Interns all texts, in blocks that begin with one which is not found at once, and appends their symbols to a list. It is a call,
    /// because a block takes much of the stack.
    #[inline(never)]
    #[track_caller]
    fn intern_blocks<T: AsRef<str>>(
        &self,
        mut strings: impl Iterator<Item = T>,
        symbols: &mut Vec<S>,
    ) {
        let mut shared = self;
        let mut numbers = [0; LEN];
        while let Some(string) = strings.next() {
            expect(reserve(symbols, 1));
            let text = string.as_ref();
            if let Some(symbol) = self.get_soon(text) {
                symbols.push(symbol);
                continue;
            }
            let mut places = [const { None }; LEN - 1];
            let mut block = Block::new(&mut shared);
            block.push(text);
            let is_more = block.fill(&mut places, &mut strings);
            expect(reserve(symbols, block.len()));
            for number in expect(block.intern(&mut numbers)) {
                symbols.push(expect(self.shared.symbol_of(*number as u32)));
            }
            if !is_more {
                break;
            }
        }
    }

    /// Returns the symbol of a text that is found at once in a small interner. In a large one texts are looked for together.
    #[inline(always)]
    fn get_soon(&self, text: &str) -> Option<S> {
        if self.len() >= FEWEST_FOR_BLOCKS {
            return None;
        }
        let number = glance(&self.memory, self.shared.code_of(text), text)?;
        S::try_from_usize(number as usize)
    }

    /// Interns [keywords](crate::keywords), so that each has the symbol of its constant. Nothing changes if all have it.
    ///
    /// ```
    /// use string_interner::sync::Interner;
    ///
    /// mod kw {
    ///     string_interner::keywords! { LET = "let", IF = "if" }
    /// }
    ///
    /// let names = Interner::new();
    /// names.intern_keywords(kw::KEYWORDS);
    /// let is_if = |word| matches!(names.get_or_intern(word), kw::IF);
    /// assert!(is_if("if") && !is_if("iffy"));
    /// ```
    ///
    /// # Panics
    ///
    /// If a keyword gets another symbol, because the interner had other texts; or as [`get_or_intern`](Self::get_or_intern). What
    /// was interned stays.
    #[track_caller]
    pub fn intern_keywords(&self, keywords: Keywords<S>) {
        for (number, text) in keywords.texts().iter().enumerate() {
            let symbol = self.get_or_intern_static(text);
            check_keyword(number, text, symbol);
        }
    }

    /// Interns a text with this code that the index does not show at once.
    #[inline(never)]
    fn intern(&self, code: u64, text: &str) -> Result<S, InternError> {
        self.intern_given(code, Given::Copied(text))
    }

    /// The same for a static text.
    #[inline(never)]
    fn intern_static(&self, code: u64, text: &'static str) -> Result<S, InternError> {
        self.intern_given(code, Given::Static(text))
    }

    #[inline(always)]
    fn intern_given(&self, code: u64, given: Given<'_>) -> Result<S, InternError> {
        if let Some(number) = self.find(code, given.text()) {
            return self.shared.symbol_of(number);
        }
        let interned = self.memory.with_locked(shard_of(code), |shard, store| {
            shard.intern(&self.shared, store, code, given)
        })?;
        interned.symbol(&self.shared)
    }

    /// Interns a text for who has the interner alone: no lock is taken.
    #[inline]
    fn intern_alone(&mut self, text: &str) -> Result<S, InternError> {
        let code = self.shared.code_of(text);
        self.intern_coded_alone(code, text)
    }

    /// The same for a text with this code.
    #[inline]
    fn intern_coded_alone(&mut self, code: u64, text: &str) -> Result<S, InternError> {
        if let Some(number) = glance(&self.memory, code, text) {
            return self.shared.symbol_of(number);
        }
        let (shard, store) = self.memory.hold(shard_of(code));
        let interned = shard.intern(&self.shared, store, code, Given::Copied(text))?;
        interned.symbol(&self.shared)
    }
}

impl<S, H> Interner<S, H> {
    /// Returns what builds the hashers of this interner.
    ///
    /// ```
    /// use string_interner::{hasher::KeyedHashBuilder, DefaultSymbol, sync::Interner};
    /// use std::hash::BuildHasher;
    ///
    /// let names = Interner::<DefaultSymbol, _>::with_hasher(KeyedHashBuilder::new(1, 2));
    /// // Another interner with the same keys.
    /// let more = Interner::<DefaultSymbol, _>::with_hasher(*names.hasher());
    /// assert_eq!(more.hasher().hash_one("Tiger"), names.hasher().hash_one("Tiger"));
    /// ```
    #[inline]
    #[must_use]
    pub fn hasher(&self) -> &H {
        &self.shared.hasher.0
    }

    /// Returns the number of texts. Each number below has one, which [`resolve`](Self::resolve) returns. Other threads may add some in the
    /// meantime.
    #[inline]
    pub fn len(&self) -> usize {
        self.shared.count() as usize
    }

    /// Reports whether there are no texts.
    #[inline]
    pub fn is_empty(&self) -> bool {
        self.len() == 0
    }

    /// Frees the indexes that were replaced by larger ones, which other threads might still have read. They take as much memory as
    /// those that count, or less.
    pub fn shrink_to_fit(&mut self) {
        self.memory.forget_old_words();
    }

    /// Returns how many bytes of memory the texts take: their own bytes, the indexes and the table, with what is spare.
    ///
    /// ```
    /// let names = string_interner::sync::Interner::new();
    /// assert_eq!(names.memory_used(), 0);
    /// names.get_or_intern("Tiger");
    /// assert!(names.memory_used() < 2_000);
    /// ```
    #[inline]
    pub fn memory_used(&self) -> usize {
        self.memory.used()
    }

    /// Lets [`memory_used`](Self::memory_used) become no greater than `bytes` from now on. A new text for which more is needed fails
    /// with [`InternError::Memory`]; known texts are found as before, and nothing is freed.
    ///
    /// ```
    /// use string_interner::{sync::Interner, InternError};
    ///
    /// let names = Interner::new();
    /// let tiger = names.get_or_intern("Tiger");
    /// names.set_memory_limit(names.memory_used());
    /// let many = "t".repeat(1_000);
    /// assert_eq!(names.try_get_or_intern(many), Err(InternError::Memory));
    /// assert_eq!(names.try_get_or_intern("Tiger"), Ok(tiger));
    /// ```
    #[inline]
    pub fn set_memory_limit(&self, bytes: usize) {
        self.memory.set_limit(bytes);
    }
}

impl<S: Symbol, H> Interner<S, H> {
    /// Returns the text of a symbol, or `None` if no text has its number. The text may be kept as long as the interner is borrowed, while
    /// other threads intern. Waits while another thread is just adding the text, and takes locks only if that takes long.
    ///
    /// A symbol from another thread has its text here if it came by what synchronizes threads: a channel, a lock, a join, or a store that
    /// releases and a load that acquires. One that came by a relaxed atomic alone may not.
    #[inline]
    pub fn resolve(&self, symbol: S) -> Option<&str> {
        let number = u32::try_from(symbol.to_usize()).ok()?;
        match self.memory.texts().get(number) {
            Some(text) => Some(text),
            None => self.resolve_taken(number),
        }
    }

    /// Returns the text of a number that a thread has taken, and whose text it may be about to publish.
    #[cold]
    fn resolve_taken(&self, number: u32) -> Option<&str> {
        (number < self.shared.count()).then(|| self.memory.wait_for(number))
    }

    /// Iterates over the texts that there are now with their symbols, in the order of the symbols' numbers. What threads intern in
    /// the meantime is left out.
    #[inline]
    pub fn iter(&self) -> Iter<'_, S> {
        self.iter_from(0)
    }

    /// The same from the text with a number on, none if there are not so many. It takes the same time for each number.
    ///
    /// ```
    /// let names = string_interner::sync::Interner::from_iter(["Tiger", "Horse"]);
    /// let seen = names.len();
    /// names.get_or_intern("Zebra");
    /// assert!(names.iter_from(seen).map(|(_, text)| text).eq(["Zebra"]));
    /// ```
    #[inline]
    pub fn iter_from(&self, number: usize) -> Iter<'_, S> {
        Iter::new(&self.memory, number, self.shared.count())
    }
}
