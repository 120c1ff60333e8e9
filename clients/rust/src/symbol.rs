//! Symbols: the small values that stand for texts.

use crate::erased::symbol as proved;
use crate::sealed::Sealed;
use core::num::{NonZeroU16, NonZeroU32, NonZeroUsize};

pub use crate::keywords::Keywords;

/// A type whose values stand for texts, each by a number.
///
/// Whatever an implementation returns, an interner stays sound. What it answers is right if `try_from_usize` and `to_usize` are
/// each other's inverse.
///
/// A symbol of one byte, for up to 256 texts:
///
/// ```
/// use string_interner::{backend::StringBackend, InternError, StringInterner, Symbol};
///
/// #[derive(Clone, Copy, Debug, PartialEq, Eq)]
/// struct Byte(u8);
///
/// impl Symbol for Byte {
///     fn try_from_usize(index: usize) -> Option<Self> {
///         u8::try_from(index).ok().map(Byte)
///     }
///
///     fn to_usize(self) -> usize {
///         self.0.into()
///     }
/// }
///
/// let mut names = StringInterner::<StringBackend<Byte>>::new();
/// names.extend((0..256).map(|number| number.to_string()));
/// assert_eq!(names.get("255"), Some(Byte(255)));
/// assert_eq!(names.try_get_or_intern("Tiger"), Err(InternError::NoSymbol));
/// ```
pub trait Symbol: Copy + Eq {
    /// Returns the symbol with this number, or `None` if the type has no such symbol.
    fn try_from_usize(index: usize) -> Option<Self>;

    /// Returns the number of the symbol.
    fn to_usize(self) -> usize;

    /// Whether a symbol's number is the one that it was made of, which is known of the types of this crate alone.
    #[doc(hidden)]
    #[inline(always)]
    fn __keeps_its_number(_: Sealed) -> bool {
        false
    }

    /// How many symbols there are, as far as that is known. Their numbers are those below this.
    #[doc(hidden)]
    #[inline(always)]
    fn __count(_: Sealed) -> usize {
        usize::MAX
    }
}

/// The symbol type of an interner whose type names none.
pub type DefaultSymbol = SymbolU32;

impl Symbol for usize {
    #[inline]
    fn try_from_usize(index: usize) -> Option<Self> {
        Some(index)
    }

    #[inline]
    fn to_usize(self) -> usize {
        self
    }

    #[inline(always)]
    fn __keeps_its_number(_: Sealed) -> bool {
        true
    }
}

/// Defines a symbol that stores its number plus one, so that an `Option` of it takes no more memory.
macro_rules! symbol {
    ($(#[$doc:meta])* $name:ident, $non_zero:ty, $number:ty) => {
        $(#[$doc])*
        #[derive(Clone, Copy, Debug, PartialEq, Eq, PartialOrd, Ord, Hash)]
        pub struct $name {
            pub(crate) value: $non_zero,
        }

        impl $name {
            /// The same as [`Symbol::try_from_usize`], for constants, too.
            #[inline]
            #[must_use]
            pub const fn from_number(number: usize) -> Option<Self> {
                // The compiler sees that a second question after this one has the same answer.
                if number >= <$number>::MAX as usize {
                    return None;
                }
                match <$non_zero>::new(number as $number + 1) {
                    Some(value) => Some(Self { value }),
                    None => None,
                }
            }
        }

        impl Symbol for $name {
            #[inline]
            fn try_from_usize(index: usize) -> Option<Self> {
                Self::from_number(index)
            }

            #[inline]
            fn to_usize(self) -> usize {
                self.value.get() as usize - 1
            }

            #[inline(always)]
            fn __keeps_its_number(_: Sealed) -> bool {
                true
            }

            #[inline(always)]
            fn __count(_: Sealed) -> usize {
                <$number>::MAX as usize
            }
        }
    };
}

symbol! {
    /// A symbol of two bytes, with the numbers below 2¹⁶ − 1.
    SymbolU16, NonZeroU16, u16
}
symbol! {
    /// A symbol of four bytes, with the numbers below 2³² − 1.
    SymbolU32, NonZeroU32, u32
}
symbol! {
    /// A symbol as large as a `usize`, with all numbers but the last.
    SymbolUsize, NonZeroUsize, usize
}

#[cold]
#[inline(never)]
#[track_caller]
fn panic_for(number: usize) -> ! {
    panic!("no text has the symbol with the number {number}")
}

/// Returns the text of a symbol. Panics if there is none.
#[inline(always)]
#[track_caller]
pub(crate) fn expect_text<S: Symbol>(text: Option<&str>, symbol: S) -> &str {
    // A closure would hide from the panic who called.
    match text {
        Some(text) => text,
        None => panic_for(symbol.to_usize()),
    }
}

/// A symbol as the proved code takes it.
///
/// It is copied by its bits: no `Clone` or `Eq` of a program's own runs within proved code.
#[derive(Copy)]
pub(crate) struct SymbolAdapter<S>(pub S);

impl<S: Copy> Clone for SymbolAdapter<S> {
    #[inline(always)]
    fn clone(&self) -> Self {
        *self
    }
}

impl<S: Symbol> PartialEq for SymbolAdapter<S> {
    #[inline(always)]
    fn eq(&self, other: &Self) -> bool {
        self.0.to_usize() == other.0.to_usize()
    }
}

impl<S: Symbol> Eq for SymbolAdapter<S> {}

impl<S: Symbol> proved::Symbol for SymbolAdapter<S> {
    #[inline(always)]
    fn try_from_usize(index: usize) -> Option<Self> {
        S::try_from_usize(index).map(SymbolAdapter)
    }

    #[inline(always)]
    fn to_usize(self) -> usize {
        self.0.to_usize()
    }
}
