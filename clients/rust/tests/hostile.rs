//! Safe programs that do what no caller should: none reads memory that is not its own. `clients/check` runs them under memcheck, too.

mod common;

use common::Backend;
use string_interner::backend::{BucketBackend, BufferBackend, StringBackend};
use string_interner::sync::Interner;
use string_interner::{DefaultStringInterner, StringInterner, Symbol};

use std::cell::{Cell, RefCell};
use std::hash::{BuildHasher, DefaultHasher, Hasher};
use std::mem;
use std::panic::{catch_unwind, AssertUnwindSafe};
use std::thread;

fn panics<T>(call: impl FnOnce() -> T) -> bool {
    catch_unwind(AssertUnwindSafe(call)).is_err()
}

fn spell(number: usize) -> String {
    format!("text {number}")
}

/// A symbol whose number is another one than it was made of, and that equals no other, not even itself.
#[derive(Clone, Copy)]
struct Liar(usize);

impl Liar {
    const fn from_number(number: usize) -> Option<Self> {
        Some(Liar(number + 1))
    }
}

impl PartialEq for Liar {
    fn eq(&self, _: &Self) -> bool {
        false
    }
}

impl Eq for Liar {}

impl Symbol for Liar {
    fn try_from_usize(index: usize) -> Option<Self> {
        assert!(index % 7 != 5, "no symbol for this one");
        (index % 7 != 3).then_some(Liar(index))
    }

    fn to_usize(self) -> usize {
        self.0.wrapping_mul(0x9E37_79B9) ^ usize::MAX >> (self.0 % usize::BITS as usize)
    }
}

mod of_liar {
    string_interner::keywords! { super::Liar; ZERO = "text 0", ONE = "text 1" }
}

fn symbols_that_lie<B: Backend<Symbol = Liar>>() {
    let mut interner = StringInterner::<B>::new();
    assert!(panics(|| interner.intern_keywords(of_liar::KEYWORDS)));
    assert!(panics(|| interner[of_liar::ONE].len()));
    for number in 0..300 {
        let _ = catch_unwind(AssertUnwindSafe(|| interner.get_or_intern(spell(number))));
        let _ = catch_unwind(AssertUnwindSafe(|| {
            interner.extend([spell(number), spell(0)])
        }));
        for liar in [
            Liar(number),
            Liar(usize::MAX - number),
            Liar(1 << (number % usize::BITS as usize)),
        ] {
            assert!(interner
                .resolve(liar)
                .is_none_or(|text| text.chars().count() <= 8));
            let _ = interner.get_or_intern_part(liar, 1..3);
            assert!(panics(|| interner[liar].len()) || interner[liar].chars().count() <= 8);
        }
    }
}

/// The same over a shared interner.
fn shared_symbols_that_lie() {
    let names = Interner::<Liar, Careless>::default();
    assert!(panics(|| names.intern_keywords(of_liar::KEYWORDS)));
    let is_whole = |text: &str| text.chars().count() <= 8;
    for number in 0..300 {
        let _ = catch_unwind(AssertUnwindSafe(|| names.get_or_intern(spell(number))));
        for liar in [Liar(number), Liar(usize::MAX - number)] {
            assert!(panics(|| names[liar].len()) || is_whole(&names[liar]));
        }
        let walk = || names.iter_from(number).all(|(_, text)| is_whole(text));
        assert!(catch_unwind(AssertUnwindSafe(walk)).unwrap_or(true));
        assert!(panics(|| names.iter().nth(3 + number).unwrap().1.len()));
    }
    assert!(panics(|| Interner::<Liar, Careless>::from_iter(
        (0..9).map(spell)
    )));
    assert_eq!(names.len(), 3);
    let mut plain = StringInterner::<BucketBackend<Liar>, Careless>::new();
    for number in 0..9 {
        let _ = catch_unwind(AssertUnwindSafe(|| plain.get_or_intern(spell(number))));
    }
    let count = plain.len();
    assert_eq!(Interner::from(plain).len(), count);
}

/// Keys that are all alike, or a panic.
#[derive(Clone, Default)]
struct Careless(bool);

struct Constant;

impl Hasher for Constant {
    fn write(&mut self, _: &[u8]) {}

    fn finish(&self) -> u64 {
        42
    }
}

impl BuildHasher for Careless {
    type Hasher = Constant;

    fn build_hasher(&self) -> Constant {
        assert!(!self.0, "no hasher");
        Constant
    }
}

mod kw {
    string_interner::keywords! { ZERO = "text 0", ONE = "text 1" }
}

fn hashers_that_panic_or_are_constant() {
    type Careful = StringInterner<StringBackend, Careless>;
    assert!(panics(
        || Careful::with_hasher(Careless(true)).get_or_intern("a")
    ));
    assert!(panics(
        || Careful::with_hasher(Careless(true)).intern_keywords(kw::KEYWORDS)
    ));
    let mut interner = Careful::with_hasher(Careless(false));
    interner.intern_keywords(kw::KEYWORDS);
    interner.extend((0..500).map(spell));
    assert!((0..500).all(|number| interner.get(spell(number)).is_some()));
    assert!(interner.clone() == interner && interner.len() == 500);
}

fn threads_that_read_and_leave() {
    let interner: DefaultStringInterner = (0..500).map(spell).collect();
    let shared = Interner::from_iter((0..500).map(spell));
    let texts = thread::scope(|scope| {
        let read = || {
            let symbol = interner.get("text 7").unwrap();
            let lent = shared.resolve(shared.get_or_intern("text 499")).unwrap();
            shared.extend_by(lent);
            (interner.resolve(symbol), lent)
        };
        [scope.spawn(read), scope.spawn(read), scope.spawn(read)]
            .map(|thread| thread.join().unwrap())
    });
    assert_eq!(texts, [(Some("text 7"), "text 499"); 3]);
    let moved = thread::spawn(move || interner.len()).join().unwrap();
    assert_eq!(moved, 500);
}

trait ExtendBy {
    fn extend_by(&self, text: &str);
}

impl ExtendBy for Interner {
    /// Interns each part of a text, which this interner may have lent.
    fn extend_by(&self, text: &str) {
        for from in 0..text.len() {
            self.get_or_intern(&text[from..]);
        }
    }
}

fn swapped_forgotten_and_taken<B: Backend + Clone>() {
    let mut one: StringInterner<B> = ["a", "b"].into_iter().collect();
    let mut other = StringInterner::<B>::new();
    mem::swap(&mut one, &mut other);
    let symbol = other.get("b").unwrap();
    assert_eq!((one.len(), other.resolve(symbol)), (0, Some("b")));
    let taken = mem::replace(&mut other, one.clone());
    assert!(other.resolve(symbol).is_none() && taken.resolve(symbol) == Some("b"));
    other.clone_from(&taken);
    drop(taken);
    assert_eq!(other.resolve(symbol), Some("b"));
    mem::forget(one);
    let walk = other.iter();
    mem::forget(walk.clone());
    assert_eq!(walk.count(), 2);
}

fn panics_in_the_middle<B: Backend>() {
    let mut interner = StringInterner::<B>::new();
    for stop in [0, 1, 9, 127, 128, 200] {
        let texts = (0..300).map(|number| {
            assert!(number < stop, "stop");
            spell(number)
        });
        assert!(panics(|| interner.extend(texts)));
        assert!((0..stop).all(|number| interner.get(spell(number)).is_some()));
        interner.truncate(stop / 2);
        assert_eq!(interner.len(), stop / 2);
    }
}

/// An iterator that says that it has more texts than there is memory.
struct Boasts<I>(I);

impl<I: Iterator> Iterator for Boasts<I> {
    type Item = I::Item;

    fn next(&mut self) -> Option<I::Item> {
        self.0.next()
    }

    fn size_hint(&self) -> (usize, Option<usize>) {
        (usize::MAX, None)
    }
}

fn more_than_there_is() {
    let mut interner = DefaultStringInterner::default();
    interner.extend(Boasts((0..300).map(spell)));
    assert_eq!(interner.len(), 300);
    assert!(panics(
        || DefaultStringInterner::<StringBackend>::from_iter(Boasts(["a"].into_iter()))
    ));
    assert!(panics(|| {
        DefaultStringInterner::<BufferBackend>::with_capacity(usize::MAX / 2)
    }));
    assert!(panics(|| interner.intern_all(Boasts(["b"].into_iter()))));
    let shared = Interner::new();
    assert!(panics(|| shared.intern_all(Boasts(["b"].into_iter()))));
    assert!(panics(|| Interner::with_capacity(usize::MAX / 2)));
    assert!(shared.is_empty());
    assert_eq!(interner.len(), 300);
}

thread_local! {
    static LAST: RefCell<Option<DefaultStringInterner>> = const { RefCell::new(None) };
}

fn dropped_in_any_order() {
    let (shorter, longer): (DefaultStringInterner, DefaultStringInterner);
    longer = ["a"].into_iter().collect();
    shorter = longer.clone();
    drop(longer);
    assert_eq!(shorter.len(), 1);
    // It is dropped when its thread ends.
    thread::spawn(|| LAST.set(Some(["a"].into_iter().collect())))
        .join()
        .unwrap();
    let interner: &mut DefaultStringInterner =
        Box::leak(Box::new(["leaked"].into_iter().collect()));
    let symbol = interner.get("leaked").unwrap();
    let text: &'static str = interner.resolve(symbol).unwrap();
    assert_eq!(text, "leaked");
}

/// A text that asks the interner for itself while it is looked for.
struct AsksBack<'a>(&'a DefaultStringInterner, &'a Cell<usize>);

impl AsRef<str> for AsksBack<'_> {
    fn as_ref(&self) -> &str {
        self.1.set(self.1.get() + 1);
        self.0.iter().next().map_or("", |(_, text)| text)
    }
}

fn calls_from_within() {
    let interner: DefaultStringInterner = ["first", "second"].into_iter().collect();
    let asked = Cell::new(0);
    let mut other = DefaultStringInterner::default();
    assert!(interner.get(AsksBack(&interner, &asked)) == interner.get("first"));
    other.extend((0..9).map(|_| AsksBack(&interner, &asked)));
    assert_eq!((other.len(), asked.get()), (1, 10));
}

fn odd_and_huge_texts<B: Backend>() {
    let huge = "ß".repeat(3 << 20);
    let odd = [
        "",
        "\0",
        "a\0",
        "\u{10FFFF}",
        "\u{FEFF}",
        huge.as_str(),
        &huge[2..],
    ];
    let mut interner = StringInterner::<B>::new();
    let symbols = odd.map(|text| interner.get_or_intern(text));
    interner.shrink_to_fit();
    let copy = interner.clone();
    for (symbol, text) in symbols.into_iter().zip(odd) {
        assert!(interner.resolve(symbol) == Some(text) && copy.resolve(symbol) == Some(text));
    }
    let whole = symbols[5];
    assert!(interner.get_or_intern_part(whole, 1..).is_none());
    assert!(interner.get_or_intern_part(whole, 2..) == Some(symbols[6]));
}

/// A symbol type of four symbols, each of which has every fourth number.
#[derive(Clone, Copy, PartialEq, Eq, Debug)]
struct OfFour(u8);

impl Symbol for OfFour {
    fn try_from_usize(index: usize) -> Option<Self> {
        Some(OfFour((index % 4) as u8))
    }

    fn to_usize(self) -> usize {
        self.0.into()
    }
}

fn a_symbol_type_that_wraps() {
    let mut interner = StringInterner::<StringBackend<OfFour>>::new();
    let symbols: Vec<OfFour> = (0..9)
        .map(|number| interner.get_or_intern(spell(number)))
        .collect();
    assert_eq!((interner.len(), symbols[8]), (9, OfFour(0)));
    assert_eq!(interner.resolve(symbols[8]), Some("text 0"));
    // The symbol leads to another text, so the text is not found.
    assert_eq!(interner.get("text 8"), None);
    assert_eq!(interner.get_or_intern("text 0"), OfFour(0));
}

/// What the symbols of a [`Moody`] type do.
#[derive(Clone, Copy, PartialEq)]
enum Mood {
    Honest,
    OtherNumber,
    OtherSymbol,
    NoSymbol,
    PanicsOfNumber,
    PanicsOfSymbol,
}

thread_local! {
    static MOOD: Cell<(Mood, usize)> = const { Cell::new((Mood::Honest, 0)) };
}

/// A symbol that is honest until its mood changes.
#[derive(Clone, Copy, PartialEq, Eq)]
struct Moody(usize);

impl Moody {
    /// The mood, which is honest in most calls.
    fn mood() -> Mood {
        let (mood, calls) = MOOD.get();
        MOOD.set((mood, calls + 1));
        if calls % 1000 == 999 || mood == Mood::OtherNumber {
            mood
        } else {
            Mood::Honest
        }
    }
}

impl Symbol for Moody {
    fn try_from_usize(index: usize) -> Option<Self> {
        match Moody::mood() {
            Mood::OtherSymbol => Some(Moody(usize::MAX - index)),
            Mood::NoSymbol => None,
            Mood::PanicsOfSymbol => panic!("no symbol"),
            _ => Some(Moody(index)),
        }
    }

    fn to_usize(self) -> usize {
        match Moody::mood() {
            Mood::OtherNumber => self.0 ^ 5,
            Mood::PanicsOfNumber => panic!("no number"),
            _ => self.0,
        }
    }
}

/// In an interner so large that texts wait to be interned together.
fn moods_in_a_large_interner<B: Backend<Symbol = Moody>>() {
    MOOD.set((Mood::Honest, 0));
    let large: StringInterner<B> = (0..33_000).map(spell).collect();
    for mood in [
        Mood::OtherNumber,
        Mood::OtherSymbol,
        Mood::NoSymbol,
        Mood::PanicsOfNumber,
        Mood::PanicsOfSymbol,
    ] {
        let mut interner = large.clone();
        let spelled: Vec<String> = (32_000..34_000).map(spell).collect();
        let texts = || spelled.iter();
        MOOD.set((mood, 0));
        let _ = catch_unwind(AssertUnwindSafe(|| interner.extend(texts())));
        let listed = catch_unwind(AssertUnwindSafe(|| interner.intern_all(texts())));
        MOOD.set((Mood::Honest, 0));
        assert!(interner.iter().all(|(_, text)| text.starts_with("text ")));
        for symbol in listed.unwrap_or_default() {
            assert!(interner
                .resolve(symbol)
                .is_none_or(|text| text.chars().count() <= 10));
        }
        let again = catch_unwind(AssertUnwindSafe(|| {
            interner.extend(texts());
            assert!(texts().all(|text| interner.get(text).is_some()));
        }));
        // A symbol that lies stays in the index, and a look at its text may panic.
        assert!(again.is_ok() || mood == Mood::OtherSymbol);
        assert!(interner.iter().all(|(_, text)| text.starts_with("text ")));
    }
}

/// Makes a number of hashers, and then none.
#[derive(Clone)]
struct Tired(Cell<usize>);

impl Default for Tired {
    fn default() -> Self {
        Tired(Cell::new(usize::MAX))
    }
}

impl BuildHasher for Tired {
    type Hasher = DefaultHasher;

    fn build_hasher(&self) -> DefaultHasher {
        self.0.set(self.0.get().checked_sub(1).expect("no hasher"));
        DefaultHasher::new()
    }
}

/// A hasher that panics, after an iterator that panicked.
fn two_panics_in_a_block<B: Backend>() {
    let mut interner: StringInterner<B, Tired> = (0..33_000).map(spell).collect();
    let texts: Vec<String> = (40_000..40_500).map(spell).collect();
    let items = texts.iter().enumerate().map(|(place, text)| {
        assert!(place < 450, "no more");
        text
    });
    interner.hasher().0.set(300);
    assert!(panics(|| interner.extend(items)));
    interner.hasher().0.set(usize::MAX);
    assert!(interner.len() < 33_450);
    assert!(texts[..128].iter().all(|text| interner.get(text).is_some()));
    assert!(interner.iter().all(|(_, text)| text.starts_with("text ")));
}

#[test]
fn programs() {
    let programs: [fn(); 13] = [
        || {
            symbols_that_lie::<StringBackend<Liar>>();
            symbols_that_lie::<BucketBackend<Liar>>();
            symbols_that_lie::<BufferBackend<Liar>>();
        },
        shared_symbols_that_lie,
        hashers_that_panic_or_are_constant,
        threads_that_read_and_leave,
        || {
            swapped_forgotten_and_taken::<StringBackend>();
            swapped_forgotten_and_taken::<BucketBackend>();
            swapped_forgotten_and_taken::<BufferBackend>();
        },
        || {
            panics_in_the_middle::<StringBackend>();
            panics_in_the_middle::<BucketBackend>();
            panics_in_the_middle::<BufferBackend>();
        },
        more_than_there_is,
        dropped_in_any_order,
        calls_from_within,
        || {
            odd_and_huge_texts::<StringBackend>();
            odd_and_huge_texts::<BucketBackend>();
            odd_and_huge_texts::<BufferBackend>();
        },
        a_symbol_type_that_wraps,
        || {
            moods_in_a_large_interner::<StringBackend<Moody>>();
            moods_in_a_large_interner::<BucketBackend<Moody>>();
            moods_in_a_large_interner::<BufferBackend<Moody>>();
        },
        || {
            two_panics_in_a_block::<StringBackend>();
            two_panics_in_a_block::<BucketBackend>();
            two_panics_in_a_block::<BufferBackend>();
        },
    ];
    for program in programs {
        program();
    }
}
