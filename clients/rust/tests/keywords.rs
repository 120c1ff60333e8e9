//! Keywords: texts whose symbols are constants.

use std::collections::HashSet;
use std::hash::RandomState;
use std::panic::{catch_unwind, AssertUnwindSafe};
use std::thread;

use string_interner::backend::{BucketBackend, BufferBackend, StringBackend};
use string_interner::symbol::{SymbolU16, SymbolU32, SymbolUsize};
use string_interner::sync::Interner;
use string_interner::{DefaultBackend, DefaultStringInterner, StringInterner, Symbol};

mod kw {
    string_interner::keywords! {
        IF = "if",
        /// What comes if not.
        ELSE = "else",
        EMPTY = "",
        SCHÖN = "schön",
        IF_LET = "if let",
    }
}

mod small {
    use string_interner::symbol::SymbolU16;
    string_interner::keywords! { SymbolU16; ONE = "one", TWO = "two" }
}

mod wide {
    string_interner::keywords!(string_interner::symbol::SymbolUsize; ONE = "one",);
}

/// A symbol of one byte, of the program's own.
#[derive(Clone, Copy, Debug, PartialEq, Eq)]
struct Byte(u8);

impl Byte {
    const fn from_number(number: usize) -> Option<Byte> {
        if number < 256 {
            Some(Byte(number as u8))
        } else {
            None
        }
    }
}

impl Symbol for Byte {
    fn try_from_usize(index: usize) -> Option<Self> {
        Byte::from_number(index)
    }

    fn to_usize(self) -> usize {
        self.0.into()
    }
}

mod own {
    string_interner::keywords! { super::Byte; ZERO = "zero", ONE = "one" }
}

const TEXTS: [&str; 5] = ["if", "else", "", "schön", "if let"];

fn panics<T>(call: impl FnOnce() -> T) -> bool {
    catch_unwind(AssertUnwindSafe(call)).is_err()
}

/// What a `match` over constants says of a symbol.
fn word_of(symbol: SymbolU32) -> Option<&'static str> {
    Some(match symbol {
        kw::IF => "if",
        kw::ELSE => "else",
        kw::EMPTY => "",
        kw::SCHÖN => "schön",
        kw::IF_LET => "if let",
        _ => return None,
    })
}

#[test]
fn a_plain_interner() {
    let mut names = StringInterner::default();
    names.intern_keywords(kw::KEYWORDS);
    let horse = names.get_or_intern("Horse");
    names.intern_keywords(kw::KEYWORDS);
    assert_eq!((names.len(), horse.to_usize()), (6, 5));
    for (number, (symbol, text)) in names.iter().enumerate() {
        assert_eq!(symbol.to_usize(), number);
        assert_eq!(word_of(symbol), TEXTS.get(number).copied());
        assert_eq!(names.get(text), Some(symbol));
    }
    assert_eq!(&names[kw::SCHÖN], "schön");
}

/// Threads that have a keyword and a name each at the same time.
#[test]
fn a_shared_interner() {
    let names = Interner::new();
    thread::scope(|scope| {
        for _ in 0..3 {
            scope.spawn(|| {
                names.intern_keywords(kw::KEYWORDS);
                assert_eq!(word_of(names.get_or_intern("Horse")), None);
                assert!(TEXTS
                    .iter()
                    .all(|text| word_of(names.get_or_intern(text)) == Some(text)));
            });
        }
    });
    assert!(names.iter().map(|(_, text)| text).take(5).eq(TEXTS));
    assert_eq!((names.len(), &names[kw::ELSE]), (6, "else"));
}

#[test]
fn each_type_of_symbols_and_hashers() {
    let mut of_two = StringInterner::<BucketBackend<SymbolU16>, RandomState>::new();
    of_two.intern_keywords(small::KEYWORDS);
    assert!(of_two.iter().eq([(small::ONE, "one"), (small::TWO, "two")]));
    let shared = Interner::<SymbolUsize, RandomState>::default();
    shared.intern_keywords(wide::KEYWORDS);
    assert!(shared.iter().eq([(wide::ONE, "one")]));
    let mut own = StringInterner::<StringBackend<Byte>>::new();
    own.intern_keywords(own::KEYWORDS);
    assert!(matches!(own.get("one"), Some(own::ONE)) && own.get("zero") == Some(own::ZERO));
}

/// The static texts of keywords are not copied where static texts are not.
#[test]
fn static_texts() {
    let mut names = StringInterner::<BucketBackend>::new();
    names.intern_keywords(kw::KEYWORDS);
    let kept: HashSet<*const u8> = names.iter().map(|(_, text)| text.as_ptr()).collect();
    assert!(kw::KEYWORDS
        .texts()
        .iter()
        .all(|text| kept.contains(&text.as_ptr())));
}

#[test]
fn constants() {
    const { assert!(matches!(kw::IF_LET, kw::IF_LET) && !matches!(kw::IF, kw::ELSE)) };
    assert_eq!(kw::KEYWORDS.texts(), TEXTS);
    assert_eq!(format!("{:?}", small::KEYWORDS), "[\"one\", \"two\"]");
    let copy = own::KEYWORDS;
    assert_eq!(copy.texts(), ["zero", "one"]);
}

/// A text that came before has the symbol of a keyword.
#[test]
fn other_texts_before() {
    for texts in [&["Horse"][..], &["if", "Horse"], &["else", "if"]] {
        let mut plain: DefaultStringInterner = texts.iter().collect();
        let shared = Interner::from_iter(texts);
        let panicked = catch_unwind(AssertUnwindSafe(|| plain.intern_keywords(kw::KEYWORDS)));
        let message = *panicked.unwrap_err().downcast::<String>().unwrap();
        assert!(message.starts_with("the keyword \""), "{message}");
        assert!(panics(|| shared.intern_keywords(kw::KEYWORDS)));
        assert!(plain
            .iter()
            .map(|(_, text)| text)
            .take(texts.len())
            .eq(texts.iter().copied()));
    }
    let mut read = StringInterner::<DefaultBackend>::from_json("[\"if\", \"else\", \"\"]").unwrap();
    read.intern_keywords(kw::KEYWORDS);
    assert!(read.iter().map(|(_, text)| text).eq(TEXTS));
}

/// The symbol of a text in a buffer is where it begins.
#[test]
fn numbers_with_gaps() {
    let mut names = StringInterner::<BufferBackend>::new();
    let panicked = catch_unwind(AssertUnwindSafe(|| names.intern_keywords(kw::KEYWORDS)));
    let message = *panicked.unwrap_err().downcast::<String>().unwrap();
    let wanted = "the keyword \"else\" has the symbol with the number 3, and not 1";
    assert_eq!(message, wanted);
}

#[test]
fn symbols_by_number() {
    for number in [
        0,
        1,
        254,
        65_533,
        65_534,
        65_535,
        65_536,
        u32::MAX as usize - 1,
        u32::MAX as usize,
        usize::MAX - 1,
        usize::MAX,
    ] {
        assert_eq!(
            SymbolU16::from_number(number).map(Symbol::to_usize),
            (number < 65_535).then_some(number)
        );
        assert_eq!(
            SymbolU32::from_number(number).map(Symbol::to_usize),
            (number < 4_294_967_295).then_some(number)
        );
        assert_eq!(
            SymbolUsize::from_number(number).map(Symbol::to_usize),
            (number < usize::MAX).then_some(number)
        );
    }
}

/// A module has names of the program's own that the macro must not meet.
#[allow(dead_code, unused_imports, unused_macros)]
mod names_of_the_program {
    pub struct Some;
    pub struct Option;
    pub struct Symbol;
    pub struct Keywords;
    pub struct DefaultSymbol;
    macro_rules! concat {
        () => {};
    }
    pub(crate) use concat;
    pub mod core {}
    string_interner::keywords! { IF = "if", ELSE = "else" }
}

#[test]
fn no_name_of_the_program_is_met() {
    let names = Interner::new();
    names.intern_keywords(names_of_the_program::KEYWORDS);
    assert_eq!(names.get("else"), Some(names_of_the_program::ELSE));
}
