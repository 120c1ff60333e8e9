//! Each public call over each backend, beside what a list of texts says.

mod common;

use common::Backend;
use string_interner::backend::{BucketBackend, BufferBackend, StringBackend};
use string_interner::symbol::{SymbolU16, SymbolU32, SymbolUsize};
use string_interner::{
    DefaultHashBuilder, DefaultStringInterner, InternError, JsonError, StringInterner, Symbol,
};

use std::cell::Cell;
use std::collections::HashMap;
use std::hash::{BuildHasher, DefaultHasher};
use std::ops::Bound;
use std::panic::{catch_unwind, AssertUnwindSafe};
use std::thread;

/// A symbol of a caller's own, with the numbers 0 and 1 alone.
#[derive(Clone, Copy, Debug, PartialEq, Eq)]
enum Bit {
    Zero,
    One,
}

impl Symbol for Bit {
    fn try_from_usize(index: usize) -> Option<Self> {
        [Bit::Zero, Bit::One].get(index).copied()
    }

    fn to_usize(self) -> usize {
        self as usize
    }
}

/// Texts of all lengths of UTF-8, the empty one, and one with a zero.
const TEXTS: [&str; 6] = ["Tiger", "", "Käfer", "語", "𝄞", "a\0b"];

fn panics<T>(call: impl FnOnce() -> T) -> bool {
    catch_unwind(AssertUnwindSafe(call)).is_err()
}

fn numbers<B: Backend>(interner: &StringInterner<B>) -> Vec<usize> {
    interner
        .iter()
        .map(|(symbol, _)| symbol.to_usize())
        .collect()
}

fn texts<B: Backend>(interner: &StringInterner<B>) -> Vec<&str> {
    interner.iter().map(|(_, text)| text).collect()
}

/// What holds of every interner that was filled with `TEXTS`.
fn check_texts<B: Backend>(interner: &StringInterner<B>) {
    assert_eq!(interner.len(), TEXTS.len());
    assert!(!interner.is_empty());
    assert_eq!(texts(interner), TEXTS);
    for (symbol, text) in interner {
        assert!(interner.get(text) == Some(symbol));
        assert_eq!(interner.resolve(symbol), Some(text));
        // SAFETY: the symbol is of this interner.
        assert_eq!(unsafe { interner.resolve_unchecked(symbol) }, text);
    }
    assert!(interner.get("Horse").is_none());
}

fn fill_in_all_ways<B: Backend>() {
    let collected: StringInterner<B> = TEXTS.iter().collect();
    check_texts(&collected);

    let mut extended = StringInterner::<B>::with_capacity(3);
    assert!(extended.is_empty());
    extended.extend(TEXTS.map(String::from));
    extended.extend(TEXTS);
    check_texts(&extended);
    assert!(extended == collected);

    let mut interned = StringInterner::<B>::with_hasher(DefaultHashBuilder);
    for text in TEXTS {
        let symbol = interned.get_or_intern_static(text);
        assert!(interned.get_or_intern(String::from(text)) == symbol);
        assert!(interned.get_or_intern_static(text) == symbol);
    }
    interned.shrink_to_fit();
    check_texts(&interned);
    assert!(interned == collected);
}

fn compare_and_copy<B: Backend>() {
    let interner: StringInterner<B> = TEXTS.into_iter().collect();
    let mut copy = interner.clone();
    #[allow(clippy::eq_op)]
    let is_reflexive = copy == copy;
    assert!(is_reflexive && copy == interner);
    copy.get_or_intern("Horse");
    assert!(copy != interner);
    check_texts(&interner);
    copy.truncate(TEXTS.len());
    check_texts(&copy);
    assert!(copy == interner);
    let reversed: StringInterner<B> = TEXTS.into_iter().rev().collect();
    assert!(reversed != interner);
    let [one, other] = [["a", "b"], ["a", "c"]].map(StringInterner::<B>::from_iter);
    assert!(one != other);
    drop(interner);
    check_texts(&copy);
}

fn truncate<B: Backend>() {
    let mut interner: StringInterner<B> = TEXTS.into_iter().collect();
    interner.truncate(100);
    check_texts(&interner);
    let dropped = interner.get("語").unwrap();
    interner.truncate(2);
    assert_eq!(texts(&interner), ["Tiger", ""]);
    assert!(interner.get("語").is_none());
    assert!(interner.resolve(dropped).is_none());
    interner.extend(&TEXTS[2..]);
    check_texts(&interner);
}

fn walk<B: Backend>() {
    let interner: StringInterner<B> = TEXTS.into_iter().collect();
    let mut walk = interner.iter();
    assert_eq!(walk.len(), 6);
    assert_eq!(walk.next().unwrap().1, "Tiger");
    assert_eq!(walk.clone().count(), 5);
    assert_eq!(walk.by_ref().last().unwrap().1, "a\0b");
    assert!(walk.next().is_none());
}

/// Texts whose lengths take one byte, two and three on a buffer, before and after some are dropped.
fn walk_over_all_lengths<B: Backend>() {
    let lengths = [0, 1, 126, 127, 128, 129, 16_383, 16_384, 20_000, 2, 3];
    let texts = lengths.map(|len| "x".repeat(len));
    let mut interner: StringInterner<B> = texts.iter().collect();
    for kept in [texts.len(), 9, 5] {
        interner.truncate(kept);
        let walked: Vec<(B::Symbol, &str)> = interner.iter().collect();
        assert_eq!(walked.len(), kept);
        for ((symbol, text), put) in walked.into_iter().zip(&texts) {
            assert_eq!(text, put);
            assert!(interner.get(put) == Some(symbol));
        }
    }
    interner.get_or_intern("behind them");
    assert_eq!(interner.iter().last().unwrap().1, "behind them");
}

/// A text that an interner lent is looked for in the same interner, and its bytes stay.
fn find_what_was_lent<B: Backend>() {
    let long = "long ".repeat(100);
    let interner: StringInterner<B> = TEXTS.into_iter().chain([&*long]).collect();
    for (symbol, text) in &interner {
        let lent = interner.resolve(symbol).unwrap();
        assert!(interner.get(lent) == Some(symbol));
        assert_eq!((lent, text), (text, lent));
    }
    let first = &interner.resolve(interner.get("Tiger").unwrap()).unwrap()[..3];
    assert!(interner.get(first).is_none());
}

fn json<B: Backend>() {
    let interner: StringInterner<B> = TEXTS.into_iter().collect();
    let json = interner.to_json();
    assert_eq!(
        json,
        "[\"Tiger\",\"\",\"Käfer\",\"語\",\"𝄞\",\"a\\u0000b\"]"
    );
    check_texts(&StringInterner::<B>::from_json(&json).unwrap());
    let repeated = StringInterner::<B>::from_json(r#" ["a", "\u0061", "b"] "#).unwrap();
    assert_eq!(texts(&repeated), ["a", "b"]);
    let not_json = |line, column| JsonError::NotJson { line, column };
    let rows = [
        ("[\"a\"", not_json(1, 4)),
        ("", not_json(1, 0)),
        ("[\"a\",\n\n \"ß\" b]", not_json(3, 7)),
        ("[\"a\"]\n ]", not_json(2, 2)),
        ("[}\n 1]", not_json(2, 2)),
        ("{}", JsonError::NotAList),
        ("[\"a\",1]", JsonError::NotAText { index: 1 }),
        ("[1e308]", JsonError::NotAText { index: 0 }),
        ("[-1e309]", not_json(1, 8)),
    ];
    for (json, error) in rows {
        assert_eq!(StringInterner::<B>::from_json(json).err(), Some(error));
    }
    // The token behind the last bracket that opens.
    let too_deep = not_json(1, 129);
    for (nested, error) in [(127, JsonError::NotAText { index: 0 }), (128, too_deep)] {
        let json = "[".repeat(nested) + &"]".repeat(nested);
        assert_eq!(StringInterner::<B>::from_json(&json).err(), Some(error));
    }
    assert_eq!(StringInterner::<B>::new().to_json(), "[]");
}

/// An interner is filled, sent to another thread and read there.
fn send<B: Backend + 'static>() {
    let interner: StringInterner<B> = TEXTS.into_iter().collect();
    let came_back = thread::spawn(move || {
        check_texts(&interner);
        interner
    });
    check_texts(&came_back.join().unwrap());
}

/// Random texts, some known and some new, beside a map.
fn agree_with_a_map<B: Backend>() {
    let mut state = 1_u64;
    let mut below = |bound: u64| {
        state = state
            .wrapping_mul(6364136223846793005)
            .wrapping_add(1442695040888963407);
        (state >> 33) % bound
    };
    let mut interner = StringInterner::<B>::new();
    let mut map = HashMap::new();
    let mut list = Vec::new();
    for _ in 0..50_000 {
        let text: String = (0..below(9))
            .map(|_| ['a', 'ß', '語'][below(3) as usize])
            .collect();
        assert!(interner.get(&text) == map.get(&text).copied());
        let symbol = interner.get_or_intern(&text);
        if !map.contains_key(&text) {
            map.insert(text.clone(), symbol);
            list.push(text.clone());
        }
        assert!(map[&text] == symbol);
        assert_eq!(interner.resolve(symbol), Some(&*text));
        assert_eq!(interner.len(), list.len());
    }
    assert_eq!(texts(&interner), list);
}

fn calls_that_the_original_lacks<B: Backend>() {
    let mut interner = StringInterner::<B>::new();
    assert!(!interner.contains(TEXTS[0]));
    let symbols = interner.intern_all(TEXTS);
    assert!(interner.intern_all(TEXTS.map(String::from)) == symbols);
    assert!(symbols
        .iter()
        .map(|symbol| symbol.to_usize())
        .eq(numbers(&interner)));
    check_texts(&interner);
    assert!(TEXTS.iter().all(|text| interner.contains(text)) && !interner.contains("Horse"));
    assert!(interner.try_get_or_intern(TEXTS[2]) == Ok(symbols[2]));
    assert!(interner.try_get_or_intern_static(TEXTS[2]) == Ok(symbols[2]));
    let horse = interner.try_get_or_intern("Horse").unwrap();
    assert_eq!(interner.resolve(horse), Some("Horse"));
}

/// Interns each part of a text, as `str::get` has it, and asks for parts that there are not.
fn intern_parts<B: Backend>() {
    let mut interner = StringInterner::<B>::new();
    for text in [TEXTS[2], "", &"long ß".repeat(40)] {
        let whole = interner.get_or_intern(text);
        for (from, to) in
            (0..text.len() + 2).flat_map(|from| (0..9).map(move |len| (from, from + len)))
        {
            let len = interner.len();
            let known = text
                .get(from..to)
                .is_none_or(|part| interner.contains(part));
            let part = interner.get_or_intern_part(whole, from..to);
            assert_eq!(
                part.and_then(|part| interner.resolve(part)),
                text.get(from..to)
            );
            assert_eq!(interner.len(), len + usize::from(!known));
        }
        assert!(interner.get_or_intern_part(whole, ..) == Some(whole));
        assert!(interner.get_or_intern_part(whole, 0..=usize::MAX).is_none());
        assert!(interner
            .get_or_intern_part(whole, (Bound::Excluded(usize::MAX), Bound::Unbounded))
            .is_none());
        #[allow(clippy::reversed_empty_ranges)]
        let reversed = interner.get_or_intern_part(whole, 1..0);
        assert!(reversed.is_none());
    }
    let tiger = interner.get_or_intern("Tiger");
    let parts = [
        interner.get_or_intern_part(tiger, ..=1),
        interner.get_or_intern_part(tiger, 2..),
        interner.get_or_intern_part(tiger, (Bound::Excluded(1), Bound::Included(4))),
    ];
    assert_eq!(
        parts.map(|part| interner.resolve(part.unwrap()).unwrap()),
        ["Ti", "ger", "ger"]
    );
    assert!(StringInterner::<B>::new()
        .get_or_intern_part(tiger, ..)
        .is_none());
}

macro_rules! over_each_backend {
    ($($name:ident)*) => {
        $(mod $name {
            use super::*;

            #[test]
            fn string() {
                super::$name::<StringBackend<SymbolU32>>();
            }

            #[test]
            fn bucket() {
                super::$name::<BucketBackend<SymbolU32>>();
            }

            #[test]
            fn buffer() {
                super::$name::<BufferBackend<SymbolU32>>();
            }

            #[test]
            fn other_symbols() {
                super::$name::<StringBackend<usize>>();
                super::$name::<BucketBackend<SymbolU16>>();
                super::$name::<BufferBackend<SymbolUsize>>();
            }
        })*
    };
}

over_each_backend! {
    fill_in_all_ways compare_and_copy truncate walk walk_over_all_lengths find_what_was_lent json send agree_with_a_map
    calls_that_the_original_lacks intern_parts
}

#[test]
fn numbers_count_texts_or_bytes() {
    let long = "x".repeat(128);
    let all = ["aa", "", &long, "b"];
    assert_eq!(
        numbers(&all.into_iter().collect::<StringInterner<StringBackend>>()),
        [0, 1, 2, 3]
    );
    assert_eq!(
        numbers(&all.into_iter().collect::<StringInterner<BucketBackend>>()),
        [0, 1, 2, 3]
    );
    // One byte with the length and two with the text, one byte, and two with the length and 128 with the text.
    assert_eq!(
        numbers(&all.into_iter().collect::<StringInterner<BufferBackend>>()),
        [0, 3, 4, 134]
    );
}

/// Texts past the last symbol of two bytes: each new one panics and is not kept, and known ones are found.
fn run_out_of_symbols<B: Backend<Symbol = SymbolU16>>() {
    let mut interner: StringInterner<B> = (0..65_535).map(|i| i.to_string()).collect();
    assert_eq!(interner.len(), 65_535);
    for _ in 0..2 {
        assert!(panics(|| interner.get_or_intern("one too many")));
        assert!(panics(|| interner.get_or_intern_static("one too many")));
        assert_eq!(interner.len(), 65_535);
        assert_eq!(interner.get("one too many"), None);
    }
    assert_eq!(interner.get_or_intern("65534").to_usize(), 65_534);
    interner.truncate(65_534);
    assert_eq!(interner.get_or_intern("another").to_usize(), 65_534);
}

#[test]
fn run_out_of_symbols_of_two_bytes() {
    run_out_of_symbols::<StringBackend<SymbolU16>>();
    run_out_of_symbols::<BucketBackend<SymbolU16>>();
}

#[test]
fn run_out_of_bytes_of_a_buffer() {
    let mut interner = StringInterner::<BufferBackend<SymbolU16>>::new();
    // An entry of 65,534 bytes, three of them for the length. The next one begins at the last number.
    interner.get_or_intern("x".repeat(65_531));
    assert_eq!(interner.get_or_intern("last").to_usize(), 65_534);
    assert!(panics(|| interner.get_or_intern("one too many")));
    assert_eq!(interner.len(), 2);
    interner.truncate(1);
    assert_eq!(interner.get_or_intern("another").to_usize(), 65_534);
}

#[test]
fn symbols_of_a_caller() {
    let mut interner = StringInterner::<StringBackend<Bit>>::new();
    assert_eq!(interner.get_or_intern("off"), Bit::Zero);
    assert_eq!(interner.get_or_intern("on"), Bit::One);
    assert!(panics(|| interner.get_or_intern("between")));
    assert_eq!(texts(&interner), ["off", "on"]);
    assert_eq!(interner.resolve(Bit::One), Some("on"));
    let read = StringInterner::<StringBackend<Bit>>::from_json(r#"["a","b","c"]"#);
    assert_eq!(read.err(), Some(JsonError::NoSymbol));
}

#[test]
fn a_text_without_a_symbol_is_an_error() {
    let mut bits = StringInterner::<StringBackend<Bit>>::new();
    assert_eq!(
        bits.intern_all(["Tiger", "Horse", "Tiger"]),
        [Bit::Zero, Bit::One, Bit::Zero]
    );
    assert_eq!(bits.try_get_or_intern("Ti"), Err(InternError::NoSymbol));
    assert_eq!(
        bits.try_get_or_intern_static("Ti"),
        Err(InternError::NoSymbol)
    );
    assert!(panics(|| bits.get_or_intern_part(Bit::Zero, ..2)));
    assert!(panics(|| bits.intern_all(["Horse", "Ti"])));
    assert_eq!(bits.try_get_or_intern("Horse"), Ok(Bit::One));
    assert_eq!(texts(&bits), ["Tiger", "Horse"]);
    let said = [InternError::NoSymbol, InternError::Memory].map(|error| error.to_string());
    assert_eq!(said, ["no symbol is left", "out of memory"]);
}

#[test]
fn collect_stops_where_symbols_run_out() {
    let mut interner = StringInterner::<StringBackend<Bit>>::new();
    assert!(panics(|| interner.extend(["a", "b", "a", "c", "d"])));
    assert_eq!(texts(&interner), ["a", "b"]);
}

#[test]
fn defaults() {
    let mut interner = StringInterner::default();
    assert_eq!(interner.get_or_intern("a").to_usize(), 0);
    let other: DefaultStringInterner = ["a"].into_iter().collect();
    assert_eq!(interner, other);
    assert_eq!(
        DefaultStringInterner::<BufferBackend>::with_capacity_and_hasher(9, DefaultHashBuilder)
            .len(),
        0
    );
}

fn show<B: Backend>() -> String {
    format!("{:?}", StringInterner::<B>::from_iter(["a", "é"]))
}

/// An interner has the fields of the original, with numbers for symbols, and a backend its texts.
#[test]
fn debug() {
    assert_eq!(
        show::<StringBackend<SymbolU32>>(),
        "StringInterner { dedup: {0: (), 1: ()}, backend: StringBackend { texts: [\"a\", \"é\"] } }"
    );
    assert_eq!(
        show::<BucketBackend<usize>>(),
        "StringInterner { dedup: {0: (), 1: ()}, backend: BucketBackend { texts: [\"a\", \"é\"] } }"
    );
    assert_eq!(
        show::<BufferBackend<usize>>(),
        "StringInterner { dedup: {0: (), 2: ()}, backend: BufferBackend { texts: [\"a\", \"é\"] } }"
    );
}

thread_local! {
    static LIMIT: Cell<usize> = const { Cell::new(9) };
}

/// A symbol whose type has the numbers below a limit, which changes.
#[derive(Clone, Copy, Debug, PartialEq, Eq)]
struct Limited(usize);

impl Symbol for Limited {
    fn try_from_usize(index: usize) -> Option<Self> {
        (index < LIMIT.get()).then_some(Limited(index))
    }

    fn to_usize(self) -> usize {
        self.0
    }
}

#[test]
fn a_known_text_keeps_its_symbol() {
    let mut interner: StringInterner<StringBackend<Limited>> =
        ["a", "b", "c"].into_iter().collect();
    LIMIT.set(1);
    for known in ["b", "c"] {
        assert_eq!(interner.get_or_intern(known), interner.get(known).unwrap());
        assert_eq!(
            interner.get_or_intern_static(known),
            interner.get(known).unwrap()
        );
    }
    assert!(panics(|| interner.get_or_intern("d")));
    LIMIT.set(9);
    assert_eq!(texts(&interner), ["a", "b", "c"]);
}

/// `names[symbol]` is the text, and panics for the symbol of a text that is not there.
fn indexed<B: Backend>() {
    let mut names: StringInterner<B> = TEXTS.into_iter().collect();
    for (symbol, text) in &names {
        assert_eq!(&names[symbol], text);
        assert_eq!(names[symbol].len(), text.len());
    }
    let dropped = names.get_or_intern("dropped");
    assert_eq!(&names[dropped], "dropped");
    names.truncate(TEXTS.len());
    assert!(panics(|| names[dropped].len()));
    assert!(panics(|| StringInterner::<B>::new()[dropped].len()));
}

#[test]
fn indexed_over_each_backend() {
    indexed::<StringBackend<SymbolU16>>();
    indexed::<BucketBackend>();
    indexed::<BufferBackend<usize>>();
}

#[test]
fn an_index_that_is_wrong_names_the_number() {
    let names: DefaultStringInterner = ["a"].into_iter().collect();
    let panicked = catch_unwind(|| names[SymbolU32::try_from_usize(7).unwrap()].len());
    let message = panicked.unwrap_err();
    let message = message.downcast_ref::<String>().unwrap();
    assert_eq!(message, "no text has the symbol with the number 7");
}

/// A hasher of the program's own that an interner lends again.
#[derive(Clone, Debug, PartialEq)]
struct Named(&'static str);

impl BuildHasher for Named {
    type Hasher = DefaultHasher;

    fn build_hasher(&self) -> DefaultHasher {
        DefaultHasher::new()
    }
}

#[test]
fn the_hasher_is_lent() {
    let mut names = StringInterner::<BucketBackend, _>::with_hasher(Named("one"));
    names.get_or_intern("a");
    assert_eq!(names.hasher(), &Named("one"));
    let copy = StringInterner::<StringBackend, _>::with_hasher(names.hasher().clone());
    assert_eq!(copy.hasher(), names.clone().hasher());
}

#[test]
fn too_much_room_panics() {
    assert!(panics(|| StringInterner::<StringBackend>::with_capacity(
        usize::MAX
    )));
}
