//! The traits of Rust's std that an interner has, but for those that intern.

use super::StringInterner;
use crate::backend::{Backend, DefaultBackend};
use crate::error::expect;
use crate::symbol::{expect_text, Symbol as _};
use core::fmt;
use core::ops;

impl<B: Backend, H> ops::Index<B::Symbol> for StringInterner<B, H> {
    type Output = str;

    /// Returns the text of a symbol, as [`resolve`](StringInterner::resolve) does.
    ///
    /// ```
    /// let mut names = string_interner::StringInterner::default();
    /// let tiger = names.get_or_intern("Tiger");
    /// assert_eq!(&names[tiger], "Tiger");
    /// ```
    ///
    /// # Panics
    ///
    /// If no text has the symbol's number.
    #[inline]
    #[track_caller]
    fn index(&self, symbol: B::Symbol) -> &str {
        expect_text(self.resolve(symbol), symbol)
    }
}

impl Default for StringInterner<DefaultBackend> {
    #[inline]
    fn default() -> Self {
        Self::new()
    }
}

impl<B: Backend + Clone, H: Clone> Clone for StringInterner<B, H> {
    /// Returns an interner with the same texts under the same symbols.
    fn clone(&self) -> Self {
        StringInterner {
            proved: expect(self.proved.try_copy()),
        }
    }
}

impl<B: Backend + PartialEq, H> PartialEq for StringInterner<B, H> {
    /// Reports whether both have the same texts in the same order.
    fn eq(&self, other: &Self) -> bool {
        self.len() == other.len() && self.backend() == other.backend()
    }
}

impl<B: Backend + Eq, H> Eq for StringInterner<B, H> {}

impl<B: Backend + fmt::Debug, H> fmt::Debug for StringInterner<B, H> {
    fn fmt(&self, f: &mut fmt::Formatter<'_>) -> fmt::Result {
        f.debug_struct("StringInterner")
            .field("dedup", &Numbers(self.backend()))
            .field("backend", self.backend())
            .finish()
    }
}

/// Shows the numbers of all symbols as the keys of a map.
struct Numbers<'a, B>(&'a B);

impl<B: Backend> fmt::Debug for Numbers<'_, B> {
    fn fmt(&self, f: &mut fmt::Formatter<'_>) -> fmt::Result {
        let numbers = self.0.iter().map(|(symbol, _)| (symbol.to_usize(), ()));
        f.debug_map().entries(numbers).finish()
    }
}

impl<'a, B: Backend, H> IntoIterator for &'a StringInterner<B, H> {
    type Item = (B::Symbol, &'a str);
    type IntoIter = B::Iter<'a>;

    #[inline]
    fn into_iter(self) -> Self::IntoIter {
        self.iter()
    }
}
