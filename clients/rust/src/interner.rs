pub(crate) mod block;
pub(crate) mod many;
mod traits;

use crate::backend::{Backend, BackendAdapter};
use crate::erased::dedup::{TaggedIndex, TextIndex};
use crate::erased::interner as proved;
use crate::error::{expect, InternError};
use crate::hasher::{DefaultHashBuilder, HasherAdapter};
use crate::keywords::{check_keyword, Keywords};
use crate::rt::alloc::Global;
use crate::sealed::Sealed;
use crate::symbol::SymbolAdapter;
use core::hash::BuildHasher;
use core::mem;
use core::ops::{Bound, RangeBounds};

#[cfg(feature = "std")]
pub(crate) use many::may_wait;
#[cfg(feature = "std")]
pub(crate) use many::reserve;

/// Beside a tag for each slot, and a symbol with 32 bits of its code, an index that has slots has so many tags more.
const TAGS_BEHIND: usize = 16;

/// The index of an interner's texts.
pub(crate) type Index<B> = TaggedIndex<SymbolAdapter<<B as Backend>::Symbol>>;

/// A list of distinct texts, each with a symbol.
///
/// Over a backend of this crate, a call that fails to allocate panics, and leaves the interner as it was; one that interns many texts
/// keeps those before. Only what makes a `String` or shows itself by `Debug` ends the process then, as such calls do in Rust.
pub struct StringInterner<B, H = DefaultHashBuilder>
where
    B: Backend,
{
    pub(crate) proved: proved::StringInterner<BackendAdapter<B>, HasherAdapter<H>, Index<B>>,
}

impl<B: Backend, H: BuildHasher + Default> StringInterner<B, H> {
    /// Returns an interner without texts.
    #[inline]
    #[must_use]
    #[track_caller]
    pub fn new() -> Self {
        Self::with_hasher(H::default())
    }

    /// Returns an interner without texts, with spare capacity for about `cap` of them.
    #[must_use]
    #[track_caller]
    pub fn with_capacity(cap: usize) -> Self {
        Self::with_capacity_and_hasher(cap, H::default())
    }
}

impl<B: Backend, H: BuildHasher> StringInterner<B, H> {
    /// Returns an interner without texts that hashes by `hash_builder`.
    #[inline]
    #[must_use]
    #[track_caller]
    pub fn with_hasher(hash_builder: H) -> Self {
        Self::over(B::default(), hash_builder, TextIndex::new(Global))
    }

    /// The same, with spare capacity for about `cap` texts.
    #[must_use]
    #[track_caller]
    pub fn with_capacity_and_hasher(cap: usize, hash_builder: H) -> Self {
        let backend = B::with_capacity(cap);
        let index = expect(TextIndex::with_capacity(Global, cap));
        Self::over(backend, hash_builder, index)
    }

    /// Returns an interner over a backend and an index of its texts.
    #[inline(always)]
    pub(crate) fn over(backend: B, hash_builder: H, index: Index<B>) -> Self {
        StringInterner {
            proved: proved::StringInterner::from_parts(
                BackendAdapter(backend),
                HasherAdapter(hash_builder),
                index,
            ),
        }
    }

    /// Returns the symbol of a text, if it is known.
    #[inline]
    pub fn get<T: AsRef<str>>(&self, string: T) -> Option<B::Symbol> {
        self.proved
            .get(string.as_ref())
            .map(|SymbolAdapter(symbol)| symbol)
    }

    /// Reports whether a text is known.
    #[inline]
    pub fn contains<T: AsRef<str>>(&self, string: T) -> bool {
        self.proved.contains(string.as_ref())
    }

    /// Returns the symbol of a text. Appends a text that is not known.
    ///
    /// # Panics
    ///
    /// If no symbol is left for a new text.
    #[inline]
    #[track_caller]
    pub fn get_or_intern<T: AsRef<str>>(&mut self, string: T) -> B::Symbol {
        expect(self.proved.get_or_intern(string.as_ref())).0
    }

    /// The same for a static text, which [`BucketBackend`](crate::backend::BucketBackend) does not copy.
    ///
    /// # Panics
    ///
    /// If no symbol is left for a new text.
    #[inline]
    #[track_caller]
    pub fn get_or_intern_static(&mut self, string: &'static str) -> B::Symbol {
        expect(self.proved.get_or_intern_static(string)).0
    }

    /// The same as [`get_or_intern`](Self::get_or_intern), but returns an error instead of a panic. A backend of a program's own
    /// panics all the same, unless it has a [`try_intern`](Backend::try_intern) of its own.
    ///
    /// # Errors
    ///
    /// Returns an error if no symbol is left for a new text, or an allocation fails.
    #[inline]
    pub fn try_get_or_intern<T: AsRef<str>>(
        &mut self,
        string: T,
    ) -> Result<B::Symbol, InternError> {
        Ok(self.proved.get_or_intern(string.as_ref())?.0)
    }

    /// The same as [`get_or_intern_static`](Self::get_or_intern_static), but returns an error instead of a panic.
    ///
    /// # Errors
    ///
    /// Returns an error if no symbol is left for a new text, or an allocation fails.
    #[inline]
    pub fn try_get_or_intern_static(
        &mut self,
        string: &'static str,
    ) -> Result<B::Symbol, InternError> {
        Ok(self.proved.get_or_intern_static(string)?.0)
    }

    /// Interns a part of a text, which you then need not copy first. Returns `None` if no text has this symbol, or `range` is not a
    /// part of it, as with `str::get`.
    ///
    /// ```
    /// let mut paths = string_interner::StringInterner::default();
    /// let path = paths.get_or_intern("bin/cargo");
    /// let folder = paths.get_or_intern_part(path, ..3).unwrap();
    /// assert_eq!(paths.resolve(folder), Some("bin"));
    /// ```
    ///
    /// # Panics
    ///
    /// If no symbol is left for a new text.
    #[track_caller]
    pub fn get_or_intern_part(
        &mut self,
        symbol: B::Symbol,
        range: impl RangeBounds<usize>,
    ) -> Option<B::Symbol> {
        let start = match range.start_bound() {
            Bound::Included(&start) => start,
            Bound::Excluded(&before) => before.checked_add(1)?,
            Bound::Unbounded => 0,
        };
        let end = match range.end_bound() {
            Bound::Included(&last) => Some(last.checked_add(1)?),
            Bound::Excluded(&end) => Some(end),
            Bound::Unbounded => None,
        };
        let interned = self
            .proved
            .get_or_intern_part(Global, SymbolAdapter(symbol), start, end);
        expect(interned).map(|SymbolAdapter(part)| part)
    }

    /// Interns [keywords](crate::keywords), so that each has the symbol of its constant. Nothing changes if all have it.
    ///
    /// # Panics
    ///
    /// If a keyword gets another symbol, because the interner had other texts, or because the symbols of its backend do not number
    /// 0, 1, 2, .., as those of a [`BufferBackend`](crate::backend::BufferBackend); or as [`get_or_intern`](Self::get_or_intern).
    /// What was interned stays.
    #[track_caller]
    pub fn intern_keywords(&mut self, keywords: Keywords<B::Symbol>) {
        for (number, text) in keywords.texts().iter().enumerate() {
            let symbol = self.get_or_intern_static(text);
            check_keyword(number, text, symbol);
        }
    }

    /// Keeps the first `len` texts with their symbols, and drops the others. Over a backend of this crate it allocates nothing, and
    /// hashes the texts that go, if at least eight times as many stay, and otherwise those that stay.
    ///
    /// A backend of a program's own is made anew of the texts that stay, which then have the symbols that it gives them. A
    /// [`BucketBackend`](crate::backend::BucketBackend) keeps the bytes of dropped texts until it is cloned.
    ///
    /// A symbol of a dropped text is one of another interner from now on: see [`resolve_unchecked`](Self::resolve_unchecked).
    ///
    /// # Panics
    ///
    /// If a hasher, symbol type or backend of a program's own does. Over a backend of this crate either no text is dropped then or
    /// those above are, but some texts are not found and may not be counted by [`len`](Self::len), and are appended once more if they
    /// are interned. Over another backend the interner may have fewer of its texts, from the first on.
    #[track_caller]
    pub fn truncate(&mut self, len: usize) {
        if len < self.len() {
            B::__truncate(self, len, Sealed(()));
        }
    }
}

impl<B: Backend, H> StringInterner<B, H> {
    /// Returns what builds the hashers of this interner.
    ///
    /// ```
    /// use string_interner::{DefaultBackend, StringInterner};
    /// use std::hash::{BuildHasher, RandomState};
    ///
    /// let mut names = StringInterner::<DefaultBackend, RandomState>::new();
    /// names.get_or_intern("Tiger");
    /// // Another interner with the same keys.
    /// let more = StringInterner::<DefaultBackend, _>::with_hasher(names.hasher().clone());
    /// assert_eq!(more.hasher().hash_one("Tiger"), names.hasher().hash_one("Tiger"));
    /// ```
    #[inline]
    #[must_use]
    pub fn hasher(&self) -> &H {
        &self.proved.hasher().0
    }

    /// Returns the number of texts.
    #[inline]
    pub fn len(&self) -> usize {
        self.proved.len()
    }

    /// Reports whether there are no texts.
    #[inline]
    pub fn is_empty(&self) -> bool {
        self.proved.is_empty()
    }

    /// Returns how many bytes of memory the texts and their index take, with what is spare. Of a backend of a program's own it counts
    /// what that says by [`Backend::memory_used`].
    ///
    /// Nobody else adds texts to an interner, so a limit is a test before a text comes. Where lists grow for the text, they take up to
    /// twice what they had and the text need.
    ///
    /// ```
    /// let mut names = string_interner::StringInterner::default();
    /// assert_eq!(names.memory_used(), 0);
    /// for word in ["Tiger", "Horse", "Tiger"] {
    ///     if names.memory_used() + word.len() < 1_000_000 || names.contains(word) {
    ///         names.get_or_intern(word);
    ///     }
    /// }
    /// assert_eq!(names.len(), 2);
    /// ```
    #[must_use]
    pub fn memory_used(&self) -> usize {
        let slots = self.proved.index().slots();
        let of_index = match slots {
            0 => 0,
            _ => slots * (1 + mem::size_of::<(SymbolAdapter<B::Symbol>, u32)>()) + TAGS_BEHIND,
        };
        of_index + self.backend().memory_used()
    }

    /// Releases memory of the backend that no text needs. The index keeps its room, and a bucket its spare bytes. For a moment this
    /// takes the memory of the texts twice.
    pub fn shrink_to_fit(&mut self) {
        self.proved.shrink_to_fit();
    }

    /// Returns the text of a symbol, or `None` if no text has its number.
    ///
    /// On [`BufferBackend`](crate::backend::BufferBackend) a symbol of another interner may read some part of the buffer.
    ///
    /// The text borrows the interner, which can't change while the text is in use:
    ///
    /// ```compile_fail,E0502
    /// let mut names = <string_interner::DefaultStringInterner>::new();
    /// let earth = names.get_or_intern("Earth");
    /// let text = names.resolve(earth);
    /// names.get_or_intern("Water");
    /// assert_eq!(text, Some("Earth"));
    /// ```
    #[inline]
    pub fn resolve(&self, symbol: B::Symbol) -> Option<&str> {
        self.proved.resolve(SymbolAdapter(symbol))
    }

    /// Iterates over all texts with their symbols, in insertion order.
    #[inline]
    pub fn iter(&self) -> B::Iter<'_> {
        self.backend().iter()
    }

    #[inline(always)]
    pub(crate) fn backend(&self) -> &B {
        &self.proved.backend().0
    }
}
