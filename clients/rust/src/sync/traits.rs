//! What a shared interner is beside its calls.

use super::{Interner, Iter};
use crate::error::expect;
use crate::symbol::{expect_text, Symbol};
use core::fmt;
use core::hash::BuildHasher;
use core::ops::Index;

/// Calls of two traits for the default types alone, so that they need no annotation.
impl Interner {
    /// The same as [`new`](Self::new). [`Default::default`] makes an interner of any symbol type, and of any hasher that has a
    /// default.
    #[must_use]
    #[allow(clippy::should_implement_trait)]
    pub fn default() -> Self {
        Default::default()
    }

    /// Returns an interner of these texts. `collect` makes one of any symbol type, and of any hasher that has a default.
    ///
    /// ```
    /// use string_interner::sync::Interner;
    ///
    /// let names = Interner::from_iter(["Tiger", "Horse", "Tiger"]);
    /// assert_eq!(names.len(), 2);
    /// ```
    ///
    /// # Panics
    ///
    /// If no symbol is left for a new text, or an allocation fails.
    #[must_use]
    #[track_caller]
    #[allow(clippy::should_implement_trait)]
    pub fn from_iter<I>(texts: I) -> Self
    where
        I: IntoIterator,
        I::Item: AsRef<str>,
    {
        FromIterator::from_iter(texts)
    }
}

impl<S: Symbol, H: BuildHasher + Default> Default for Interner<S, H> {
    /// Returns an interner without texts, whose hasher is the default one of its type.
    ///
    /// ```
    /// use string_interner::{hasher::FixedHashBuilder, symbol::SymbolU16, sync::Interner};
    ///
    /// #[derive(Default)]
    /// struct Parser {
    ///     names: Interner<SymbolU16, FixedHashBuilder>,
    /// }
    ///
    /// assert!(Parser::default().names.is_empty());
    /// ```
    fn default() -> Self {
        Self::with_hasher(H::default())
    }
}

impl<S: Symbol, H> Index<S> for Interner<S, H> {
    type Output = str;

    /// Returns the text of a symbol, as [`resolve`](Interner::resolve) does.
    ///
    /// ```
    /// let names = string_interner::sync::Interner::new();
    /// let tiger = names.get_or_intern("Tiger");
    /// assert_eq!(&names[tiger], "Tiger");
    /// ```
    ///
    /// # Panics
    ///
    /// If no text has the symbol's number.
    #[inline]
    #[track_caller]
    fn index(&self, symbol: S) -> &str {
        expect_text(self.resolve(symbol), symbol)
    }
}

impl<S: Symbol, H> fmt::Debug for Interner<S, H> {
    /// Shows a map from the numbers of all symbols to their texts.
    fn fmt(&self, f: &mut fmt::Formatter<'_>) -> fmt::Result {
        let texts = self.iter().map(|(symbol, text)| (symbol.to_usize(), text));
        f.debug_map().entries(texts).finish()
    }
}

impl<S: Symbol, H: BuildHasher + Default, T: AsRef<str>> FromIterator<T> for Interner<S, H> {
    /// Returns an interner of these texts, whose hasher is the default one of its type.
    ///
    /// ```
    /// use string_interner::{hasher::FixedHashBuilder, symbol::SymbolU16, sync::Interner};
    ///
    /// let names: Interner<SymbolU16, FixedHashBuilder> = "a b a".split(' ').collect();
    /// assert_eq!(names.len(), 2);
    /// ```
    ///
    /// # Panics
    ///
    /// If no symbol is left for a new text, or an allocation fails.
    #[track_caller]
    fn from_iter<I: IntoIterator<Item = T>>(iter: I) -> Self {
        let mut interner = Self::with_hasher(H::default());
        interner.extend(iter);
        interner
    }
}

impl<S: Symbol, H: BuildHasher, T: AsRef<str>> Extend<T> for Interner<S, H> {
    /// Interns all texts, takes no lock, and then frees the indexes that were replaced, as
    /// [`shrink_to_fit`](Interner::shrink_to_fit) does.
    ///
    /// # Panics
    ///
    /// If no symbol is left for a new text, or an allocation fails. The texts before it stay.
    #[track_caller]
    fn extend<I: IntoIterator<Item = T>>(&mut self, iter: I) {
        // A closure would hide from the panic who called.
        for string in iter {
            expect(self.intern_alone(string.as_ref()));
        }
        self.shrink_to_fit();
    }
}

impl<S: Symbol, H: BuildHasher, T: AsRef<str>> Extend<T> for &Interner<S, H> {
    /// Interns all texts, as [`Interner::get_or_intern`] does.
    ///
    /// # Panics
    ///
    /// If no symbol is left for a new text, or an allocation fails. The texts before it stay.
    #[track_caller]
    fn extend<I: IntoIterator<Item = T>>(&mut self, iter: I) {
        for string in iter {
            self.get_or_intern(string);
        }
    }
}

impl<'a, S: Symbol, H> IntoIterator for &'a Interner<S, H> {
    type Item = (S, &'a str);
    type IntoIter = Iter<'a, S>;

    fn into_iter(self) -> Iter<'a, S> {
        self.iter()
    }
}
