//! Backends: how an interner stores its texts.
//!
//! | Backend | How it stores texts | Use it if |
//! |---|---|---|
//! | [`StringBackend`] | joined in one string, with a list of ends | in most cases: fast to fill, to resolve and to iterate |
//! | [`BucketBackend`] | in blocks that never move; static texts are not copied | texts are long or many, or many are `'static` |
//! | [`BufferBackend`] | in one buffer, each behind its length | memory counts most; symbol numbers have gaps, because they are byte offsets |
//! | a type of your own that implements [`Backend`] | as you like | none of these serves |

#![allow(unsafe_code)]

#[deny(unsafe_code)]
mod iter;

use crate::erased::backend as proved;
use crate::erased::backend::{Backend as _, Store as _};
use crate::erased::dedup::TextIndex;
use crate::error::{expect, InternError};
use crate::interner::StringInterner;
use crate::rt::alloc::{AllocError, Global};
use crate::sealed::Sealed;
use crate::symbol::{DefaultSymbol, Symbol, SymbolAdapter};
use crate::unchecked::{find_bucketed, find_joined, joined_at};
use alloc::vec::Vec;
use core::fmt;
use core::hash::BuildHasher;
use core::marker::PhantomData;

pub(crate) use iter::symbol_of;

/// The backend of an interner whose type names none.
pub type DefaultBackend = StringBackend<DefaultSymbol>;

/// Stores the texts of an interner. You can also use it alone, to give symbols to texts and to resolve them.
///
/// An interner stores each distinct text once. A backend alone stores whatever it is given, also a text that it has.
///
/// Whatever an implementation returns, an interner over it stays sound, except for what `resolve_unchecked` is trusted with.
///
/// The backends of this crate panic if they fail to allocate, and stay as they were.
///
/// # A backend of your own
///
/// This one stores each text in a block of its own. An iterator whose type has a name is faster than one in a box.
///
/// ```
/// use string_interner::{backend::Backend, symbol::SymbolU16, InternError, StringInterner, Symbol};
///
/// #[derive(Default)]
/// struct Boxes(Vec<Box<str>>);
///
/// impl Backend for Boxes {
///     type Symbol = SymbolU16;
///     type Iter<'a> = Box<dyn Iterator<Item = (SymbolU16, &'a str)> + 'a>;
///
///     fn with_capacity(cap: usize) -> Self {
///         Boxes(Vec::with_capacity(cap))
///     }
///
///     fn intern(&mut self, string: &str) -> SymbolU16 {
///         self.try_intern(string).unwrap()
///     }
///
///     // With these two calls an interner returns an error when no symbol is left. Without them it panics, as `intern` does.
///     fn try_intern(&mut self, string: &str) -> Result<SymbolU16, InternError> {
///         let symbol = SymbolU16::try_from_usize(self.0.len()).ok_or(InternError::NoSymbol)?;
///         self.0.push(string.into());
///         Ok(symbol)
///     }
///
///     fn try_intern_static(&mut self, string: &'static str) -> Result<SymbolU16, InternError> {
///         self.try_intern(string)
///     }
///
///     fn shrink_to_fit(&mut self) {
///         self.0.shrink_to_fit();
///     }
///
///     fn resolve(&self, symbol: SymbolU16) -> Option<&str> {
///         Some(self.0.get(symbol.to_usize())?)
///     }
///
///     unsafe fn resolve_unchecked(&self, symbol: SymbolU16) -> &str {
///         &self.0[symbol.to_usize()]
///     }
///
///     fn iter(&self) -> Self::Iter<'_> {
///         let symbols = (0..).map_while(SymbolU16::try_from_usize);
///         Box::new(symbols.zip(self.0.iter().map(|text| &**text)))
///     }
/// }
///
/// let mut names = StringInterner::<Boxes>::new();
/// let tiger = names.get_or_intern("Tiger");
/// assert!(names.iter().eq([(tiger, "Tiger")]));
///
/// names.extend((1..65_535).map(|number| number.to_string()));
/// assert_eq!(names.try_get_or_intern("Horse"), Err(InternError::NoSymbol));
/// ```
pub trait Backend: Default {
    /// The symbol that stands for a text.
    type Symbol: Symbol;

    /// Yields each text with its symbol, in the order in which the texts came.
    type Iter<'a>: Iterator<Item = (Self::Symbol, &'a str)>
    where
        Self: 'a;

    /// Returns a backend without texts, with spare capacity for about `cap` of them.
    #[track_caller]
    fn with_capacity(cap: usize) -> Self;

    /// Stores a text, and returns its symbol.
    ///
    /// # Panics
    ///
    /// If no symbol is left for it.
    #[track_caller]
    fn intern(&mut self, string: &str) -> Self::Symbol;

    /// The same for a static text, which [`BucketBackend`] does not copy.
    ///
    /// # Panics
    ///
    /// If no symbol is left for it.
    #[inline]
    #[track_caller]
    fn intern_static(&mut self, string: &'static str) -> Self::Symbol {
        self.intern(string)
    }

    /// The same as [`intern`](Self::intern), but returns an error instead of a panic. Interners call this one.
    ///
    /// What is provided calls `intern`, and panics if that does. A backend that may be full, or that stores its texts in another
    /// backend, has a `try_intern` and a `try_intern_static` of its own.
    ///
    /// # Errors
    ///
    /// Returns an error if no symbol is left for the text, or an allocation fails. The texts are then as they were.
    #[inline(always)]
    #[track_caller]
    fn try_intern(&mut self, string: &str) -> Result<Self::Symbol, InternError> {
        Ok(self.intern(string))
    }

    /// The same for a static text: what is provided calls [`intern_static`](Self::intern_static).
    ///
    /// # Errors
    ///
    /// As [`try_intern`](Self::try_intern).
    #[inline(always)]
    #[track_caller]
    fn try_intern_static(&mut self, string: &'static str) -> Result<Self::Symbol, InternError> {
        Ok(self.intern_static(string))
    }

    /// Releases memory that no text needs, if it can.
    fn shrink_to_fit(&mut self);

    /// Returns the text of a symbol, or `None` if no text has its number.
    fn resolve(&self, symbol: Self::Symbol) -> Option<&str>;

    /// Returns the text of a symbol.
    ///
    /// # Safety
    ///
    /// This backend returned the symbol, or another one did before this one was cloned of it. Of any other symbol a
    /// [`BufferBackend`] may return what is no UTF-8.
    unsafe fn resolve_unchecked(&self, symbol: Self::Symbol) -> &str;

    /// Iterates over all texts with their symbols, in the order in which they came.
    fn iter(&self) -> Self::Iter<'_>;

    /// Returns how many bytes of memory the texts take, with what is spare. By default it returns 0, so that they are not counted.
    fn memory_used(&self) -> usize {
        0
    }

    /// Reports whether no symbol is left, if that is known before the next text is stored.
    #[doc(hidden)]
    #[inline(always)]
    fn __is_full(&self, _: Sealed) -> bool {
        false
    }

    /// Makes room for about so many texts in an interner that never had room, if memory for them is granted. Does nothing over a
    /// backend of a program's own.
    #[doc(hidden)]
    #[inline(always)]
    fn __make_room<H: BuildHasher>(_: &mut StringInterner<Self, H>, _texts: usize, _: Sealed) {}

    /// Keeps the first `len` texts of an interner, which has more. A backend of a program's own is made anew of them.
    #[doc(hidden)]
    #[track_caller]
    fn __truncate<H: BuildHasher>(interner: &mut StringInterner<Self, H>, len: usize, _: Sealed) {
        let backend = BackendAdapter(Self::with_capacity(len));
        let index = expect(TextIndex::with_capacity(Global, len));
        let BackendAdapter(old) = interner.proved.restart(backend, index);
        for (_, text) in old.iter().take(len) {
            interner.get_or_intern(text);
        }
    }
}

/// A backend as the proved code takes it. It derives nothing, so that no impl of a program's own runs there but these calls.
pub(crate) struct BackendAdapter<B>(pub B);

impl<B: Backend> proved::Store for BackendAdapter<B> {
    type Symbol = SymbolAdapter<B::Symbol>;

    #[inline(always)]
    fn is_full(&self) -> bool {
        self.0.__is_full(Sealed(()))
    }

    #[inline(always)]
    fn intern(&mut self, text: &str) -> Result<Self::Symbol, proved::InternError> {
        Ok(SymbolAdapter(self.0.try_intern(text)?))
    }

    #[inline(always)]
    fn intern_static(&mut self, text: &'static str) -> Result<Self::Symbol, proved::InternError> {
        Ok(SymbolAdapter(self.0.try_intern_static(text)?))
    }

    #[inline(always)]
    fn resolve(&self, symbol: Self::Symbol) -> Option<&str> {
        self.0.resolve(symbol.0)
    }

    #[inline(always)]
    fn resolve_unchecked(&self, symbol: Self::Symbol) -> &str {
        // SAFETY: the index alone calls this, with a symbol that it was given, and the proved interner gives it only what `intern`
        // of this backend returned, or `entry_at` of one of this crate, in which a text begins at each place that it is asked for.
        // `sync::Interner::into_interner` fills one for a `StringBackend`, which trusts no symbol.
        // It copies symbols by their bits. A clone of an interner has a clone of the backend. Before `truncate` drops a text, its
        // symbol is out of the index, or else all are before the next is looked at. What looks ahead makes symbols of numbers, and
        // resolves them by `resolve`. The crate does not call what would hand on any other symbol: the proved `resolve_unchecked`.
        unsafe { self.0.resolve_unchecked(symbol.0) }
    }

    #[inline(always)]
    fn shrink_to_fit(&mut self) {
        self.0.shrink_to_fit();
    }
}

impl<B: Backend + Clone> proved::CopyBackend for BackendAdapter<B> {
    fn try_copy(&self) -> Result<Self, AllocError> {
        Ok(BackendAdapter(self.0.clone()))
    }
}

// Here, so that all of this crate that asks its caller for such a promise is in one file.
impl<B: Backend, H> StringInterner<B, H> {
    /// Returns the text of a symbol.
    ///
    /// # Safety
    ///
    /// This interner returned the symbol, or another one did before this one was cloned of it, and no
    /// [`truncate`](Self::truncate) has dropped its text since. Of any other symbol an interner over a
    /// [`BufferBackend`] may return what is no UTF-8.
    #[inline]
    pub unsafe fn resolve_unchecked(&self, symbol: B::Symbol) -> &str {
        // SAFETY: the caller promises the same.
        unsafe { self.backend().resolve_unchecked(symbol) }
    }
}

macro_rules! backend {
    ($(#[$doc:meta])* $name:ident, $iter:ident, $find:path, $at:path, $checks_numbers:expr) => {
        $(#[$doc])*
        pub struct $name<S = DefaultSymbol> {
            texts: proved::$name<usize>,
            symbol: PhantomData<fn() -> S>,
        }

        impl<S> $name<S> {
            #[inline(always)]
            fn of(texts: proved::$name<usize>) -> Self {
                $name {
                    texts,
                    symbol: PhantomData,
                }
            }
        }

        impl<S: Symbol> $name<S> {
            /// Returns the symbol of the next text.
            #[inline(always)]
            fn next_symbol(&self) -> Option<S> {
                S::try_from_usize(self.texts.next_symbol()?)
            }
        }

        impl<S: Symbol> Backend for $name<S> {
            type Symbol = S;
            type Iter<'a>
                = iter::$iter<'a, S>
            where
                Self: 'a;

            fn with_capacity(cap: usize) -> Self {
                Self::of(expect(proved::$name::with_capacity(Global, cap)))
            }

            #[inline]
            fn intern(&mut self, string: &str) -> S {
                expect(self.try_intern(string))
            }

            #[inline]
            fn intern_static(&mut self, string: &'static str) -> S {
                expect(self.try_intern_static(string))
            }

            #[inline(always)]
            fn try_intern(&mut self, string: &str) -> Result<S, InternError> {
                let symbol = self.next_symbol().ok_or(InternError::NoSymbol)?;
                self.texts.intern(string)?;
                Ok(symbol)
            }

            #[inline(always)]
            fn try_intern_static(&mut self, string: &'static str) -> Result<S, InternError> {
                let symbol = self.next_symbol().ok_or(InternError::NoSymbol)?;
                self.texts.intern_static(string)?;
                Ok(symbol)
            }

            fn shrink_to_fit(&mut self) {
                self.texts.shrink_to_fit();
            }

            #[inline]
            fn resolve(&self, symbol: S) -> Option<&str> {
                $find(&self.texts, symbol.to_usize())
            }

            #[inline(always)]
            unsafe fn resolve_unchecked(&self, symbol: S) -> &str {
                if $checks_numbers || S::__keeps_its_number(Sealed(())) {
                    // The proved call reads within the texts whatever the number is. What else it asks, this caller has promised.
                    $at(&self.texts, symbol.to_usize())
                } else {
                    // The number that a program's own type makes up may lie within a text.
                    self.resolve(symbol).expect("the symbol is not of this backend")
                }
            }

            #[inline]
            fn iter(&self) -> Self::Iter<'_> {
                iter::$iter::over(&self.texts)
            }

            fn memory_used(&self) -> usize {
                self.texts.memory_used()
            }

            #[inline(always)]
            fn __is_full(&self, _: Sealed) -> bool {
                self.next_symbol().is_none()
            }

            fn __make_room<H: BuildHasher>(
                interner: &mut StringInterner<Self, H>,
                texts: usize,
                _: Sealed,
            ) {
                // If there is no memory for all at once, there may be some for one text after another.
                let Ok(index) = TextIndex::with_capacity(Global, texts) else {
                    return;
                };
                if let Ok(empty) = proved::$name::with_capacity(Global, texts) {
                    interner.proved.restart(BackendAdapter(Self::of(empty)), index);
                }
            }

            fn __truncate<H: BuildHasher>(
                interner: &mut StringInterner<Self, H>,
                len: usize,
                _: Sealed,
            ) {
                interner.proved.truncate(len);
            }
        }

        impl<S: Symbol> proved::Backend for BackendAdapter<$name<S>> {
            fn new(_alloc: Global) -> Self {
                BackendAdapter($name::default())
            }

            fn with_capacity(alloc: Global, capacity: usize) -> Result<Self, AllocError> {
                Ok(BackendAdapter($name::of(proved::$name::with_capacity(alloc, capacity)?)))
            }

            #[inline(always)]
            fn count(&self) -> usize {
                self.0.texts.count()
            }

            fn next_symbol(&self) -> Option<SymbolAdapter<S>> {
                self.0.next_symbol().map(SymbolAdapter)
            }

            #[inline(always)]
            fn entry_at(&self, at: usize) -> (SymbolAdapter<S>, &str, usize) {
                let (number, text, next) = self.0.texts.entry_at(at);
                (SymbolAdapter(iter::symbol_of(number)), text, next)
            }

            fn place_of(&self, index: usize) -> usize {
                self.0.texts.place_of(index)
            }

            fn truncate(&mut self, len: usize) {
                self.0.texts.truncate(len);
            }
        }

        impl<S> Default for $name<S> {
            #[inline]
            fn default() -> Self {
                Self::of(proved::$name::new(Global))
            }
        }

        impl<S> Clone for $name<S> {
            /// Returns a backend with the same texts under the same symbols.
            fn clone(&self) -> Self {
                Self::of(expect(proved::$name::clone(&self.texts)))
            }
        }

        impl<S: Symbol> PartialEq for $name<S> {
            /// Reports whether both have the same texts in the same order.
            fn eq(&self, other: &Self) -> bool {
                self.texts == other.texts
            }
        }

        impl<S: Symbol> Eq for $name<S> {}

        impl<S> fmt::Debug for $name<S> {
            fn fmt(&self, f: &mut fmt::Formatter<'_>) -> fmt::Result {
                let texts: Vec<&str> = self.texts.iter().map(|(_, text)| text).collect();
                f.debug_struct(stringify!($name)).field("texts", &texts).finish()
            }
        }

        impl<'a, S: Symbol> IntoIterator for &'a $name<S> {
            type Item = (S, &'a str);
            type IntoIter = iter::$iter<'a, S>;

            #[inline]
            fn into_iter(self) -> Self::IntoIter {
                self.iter()
            }
        }
    };
}

backend! {
    /// All texts joined in one string. Symbols number 0, 1, 2, ..
    StringBackend, StringIter, find_joined, joined_at, true
}
backend! {
    /// Texts in blocks that never move. Symbols number 0, 1, 2, ..
    BucketBackend, BucketIter, find_bucketed, proved::Store::resolve_unchecked, true
}
backend! {
    /// Texts in one buffer of bytes. The number of a symbol is where its entry begins.
    ///
    /// A symbol of another backend or interner may read some part of the buffer.
    BufferBackend, BufferIter, proved::Store::resolve, proved::Store::resolve_unchecked, false
}
