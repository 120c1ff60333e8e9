//! Texts whose symbols a program knows when it is compiled.

use crate::symbol::{DefaultSymbol, Symbol};
use core::fmt;
use core::marker::PhantomData;

/// The texts that have the first symbols of an interner: `KEYWORDS` of [`keywords!`](crate::keywords).
#[derive(Clone, Copy)]
pub struct Keywords<S = DefaultSymbol> {
    texts: &'static [&'static str],
    /// The number of the first text that came before, if one did. Its constant does not compile then.
    repeated: Option<usize>,
    symbol: PhantomData<fn() -> S>,
}

/// Gives fixed texts the first symbols, as constants that `match` takes.
///
/// For each `NAME = "text"` there is a constant, and for all of them `KEYWORDS`, which
/// [`StringInterner::intern_keywords`](crate::StringInterner::intern_keywords) takes, and the same call of a shared interner. Have
/// a module for them:
///
/// ```
/// use string_interner::{DefaultStringInterner, DefaultSymbol};
///
/// mod kw {
///     string_interner::keywords! {
///         LET = "let",
///         IF = "if",
///     }
/// }
///
/// #[derive(Debug, PartialEq)]
/// enum Token {
///     Let,
///     If,
///     Name(DefaultSymbol),
/// }
///
/// fn token(names: &mut DefaultStringInterner, word: &str) -> Token {
///     match names.get_or_intern(word) {
///         kw::LET => Token::Let,
///         kw::IF => Token::If,
///         name => Token::Name(name),
///     }
/// }
///
/// let mut names = DefaultStringInterner::default();
/// names.intern_keywords(kw::KEYWORDS);
/// assert_eq!(token(&mut names, "if"), Token::If);
/// assert!(matches!(token(&mut names, "iffy"), Token::Name(_)));
/// ```
///
/// Symbols are of the default type, unless another one comes first: one of this crate, or of a program's own that has a `const fn
/// from_number`, as [`SymbolU16`](crate::symbol::SymbolU16::from_number) has, which returns what its `try_from_usize` does.
///
/// ```
/// mod kw {
///     use string_interner::symbol::SymbolU16;
///     string_interner::keywords! { SymbolU16; LET = "let", IF = "if" }
/// }
///
/// let names = string_interner::sync::Interner::<_, std::hash::RandomState>::default();
/// names.intern_keywords(kw::KEYWORDS);
/// assert_eq!(names.get("if"), Some(kw::IF));
/// ```
///
/// # Errors
///
/// It does not compile if two texts are equal, or if the type has no symbol for one.
///
/// ```compile_fail,E0080
/// mod kw {
///     string_interner::keywords! { IF = "if", WHEN = "if" }
/// }
/// ```
#[macro_export]
macro_rules! keywords {
    ($($(#[$attribute:meta])* $name:ident = $text:literal),+ $(,)?) => {
        $crate::keywords! { $crate::DefaultSymbol; $($(#[$attribute])* $name = $text),+ }
    };
    ($symbol:ty; $($(#[$attribute:meta])* $name:ident = $text:literal),+ $(,)?) => {
        /// All keywords, in the order of their symbols.
        #[allow(dead_code)]
        pub const KEYWORDS: $crate::symbol::Keywords<$symbol> =
            $crate::symbol::Keywords::__new(&[$($text),+]);
        #[allow(dead_code, non_camel_case_types, clippy::upper_case_acronyms)]
        enum KeywordNumber {
            $($name),+
        }
        $(
            #[doc = ::core::concat!("The symbol of `", $text, "`.")]
            $(#[$attribute])*
            #[allow(dead_code)]
            pub const $name: $symbol =
                <$symbol>::from_number(KEYWORDS.__distinct(KeywordNumber::$name as usize))
                    .expect("no symbol is left for this keyword");
        )+
    };
}

/// Returns a number that few other texts have.
const fn code_of(text: &str) -> u64 {
    let bytes = text.as_bytes();
    let (mut code, mut at) = (0_u64, 0);
    while at < bytes.len() {
        code = (code ^ bytes[at] as u64).wrapping_mul(0x100_0000_01b3);
        at += 1;
    }
    code ^ code >> 32
}

const fn are_equal(one: &str, other: &str) -> bool {
    let (one, other) = (one.as_bytes(), other.as_bytes());
    let mut at = 0;
    while at < one.len() && at < other.len() && one[at] == other[at] {
        at += 1;
    }
    at == one.len() && at == other.len()
}

/// Returns the number of the first text that came before, if one did. The compiler would take minutes to compare each of a thousand
/// texts with each, so they are in lists by their codes.
const fn find_repeated<const N: usize>(texts: &[&str; N]) -> Option<usize> {
    const LISTS: usize = 1 << 10;
    // The last text of each list, and the one before each text: the number behind its own, or 0 for none.
    let (mut last, mut before) = ([0; LISTS], [0; N]);
    let mut number = 0;
    while number < N {
        let list = code_of(texts[number]) as usize % LISTS;
        before[number] = last[list];
        let mut other = last[list];
        while other > 0 {
            if are_equal(texts[other - 1], texts[number]) {
                return Some(number);
            }
            other = before[other - 1];
        }
        number += 1;
        last[list] = number;
    }
    None
}

impl<S> Keywords<S> {
    /// Returns the texts, in the order of their symbols.
    #[inline]
    #[must_use]
    pub const fn texts(&self) -> &'static [&'static str] {
        self.texts
    }

    #[doc(hidden)]
    pub const fn __new<const N: usize>(texts: &'static [&'static str; N]) -> Self {
        Keywords {
            texts,
            repeated: find_repeated(texts),
            symbol: PhantomData,
        }
    }

    /// Returns the number again, unless its text came before. Each constant asks for its own, so that the compiler names the one
    /// that is wrong.
    #[doc(hidden)]
    pub const fn __distinct(&self, number: usize) -> usize {
        if let Some(repeated) = self.repeated {
            assert!(repeated != number, "another keyword has this text");
        }
        number
    }
}

impl<S> fmt::Debug for Keywords<S> {
    /// Shows the texts.
    fn fmt(&self, f: &mut fmt::Formatter<'_>) -> fmt::Result {
        f.debug_list().entries(self.texts).finish()
    }
}

/// Panics if a keyword has another symbol than its constant.
#[inline]
#[track_caller]
pub(crate) fn check_keyword<S: Symbol>(number: usize, text: &str, symbol: S) {
    if S::try_from_usize(number) != Some(symbol) {
        panic!(
            "the keyword {text:?} has the symbol with the number {}, and not {number}",
            symbol.to_usize()
        );
    }
}
