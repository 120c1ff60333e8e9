//! Symbols, hashers, backends, texts and iterators of a program's own that lie, change and panic. Answers may be wrong then, and calls
//! may panic; but no memory is read that is not an interner's. `clients/check` runs them under checkers of memory, too.

use std::cell::Cell;
use std::hash::{BuildHasher, Hasher};
use std::marker::PhantomData;
use std::mem;
use std::panic::{catch_unwind, AssertUnwindSafe};
use std::str;
use std::thread;

use string_interner::backend::{Backend, BucketBackend, BufferBackend, StringBackend};
use string_interner::hasher::FixedHashBuilder;
use string_interner::{DefaultBackend, DefaultStringInterner, StringInterner, Symbol};

thread_local! {
    /// So many calls go well before one panics, and none does if this is 0.
    static LEFT: Cell<usize> = const { Cell::new(0) };
    static SEED: Cell<u64> = const { Cell::new(1) };
}

/// Panics when its time has come.
fn tick() {
    let left = LEFT.get();
    if left > 0 {
        LEFT.set(left - 1);
        assert!(left > 1, "by intent");
    }
}

fn random() -> usize {
    let mut state = SEED.get();
    state ^= state << 13;
    state ^= state >> 7;
    state ^= state << 17;
    SEED.set(state);
    (state >> 8) as usize
}

fn attempt<T>(call: impl FnOnce() -> T) -> Option<T> {
    catch_unwind(AssertUnwindSafe(call)).ok()
}

fn spell(number: usize) -> String {
    format!("{number}{}", "ß".repeat(number % 5))
}

fn is_text(text: &str) -> bool {
    str::from_utf8(text.as_bytes()).is_ok()
}

/// Makes all calls on an interner, each of which may panic, while its parts misbehave from time to time.
fn make_all_calls<B: Backend + Clone + PartialEq, H: BuildHasher + Clone>(
    mut interner: StringInterner<B, H>,
) {
    let mut symbols = Vec::new();
    for round in 0..400 {
        LEFT.set(random() % 20);
        let text = spell(random() % 200);
        symbols.extend(attempt(|| interner.get_or_intern(&text)));
        symbols.extend(attempt(|| interner.get_or_intern_static("static")));
        symbols.extend(attempt(|| interner.get(&text)).flatten());
        let _ = attempt(|| interner.extend([&text, "a", "b"]));
        if let Some(symbol) = symbols.get(random() % (symbols.len() + 1)).copied() {
            let found = attempt(|| interner.resolve(symbol).is_none_or(is_text));
            assert!(found != Some(false));
            let _ = attempt(|| interner.get_or_intern_part(symbol, 1..));
        }
        let _ = attempt(|| interner.iter().take(300).all(|(_, text)| is_text(text)));
        if round % 16 == 0 {
            let copy = attempt(|| interner.clone());
            let _ = attempt(|| copy.as_ref().map(|copy| *copy == interner));
            if let Some(copy) = copy {
                interner = copy;
            }
            let _ = attempt(|| interner.truncate(random() % 100));
            interner.shrink_to_fit();
        } else if round % 4 == 0 {
            // So few that their symbols are removed from the index.
            let len = interner.len();
            let _ = attempt(|| interner.truncate(len - len / 10));
        }
        LEFT.set(0);
        let _ = attempt(|| interner.get("static").map(|symbol| symbol.to_usize()));
    }
}

/// A symbol whose own `Clone`, `PartialEq` and conversions lie or panic, and not all of whose bits are a value.
#[derive(Debug)]
struct Lies(&'static usize, bool);

static NUMBERS: [usize; 1 << 12] = {
    let mut numbers = [0; 1 << 12];
    let mut number = 0;
    while number < numbers.len() {
        numbers[number] = number;
        number += 1;
    }
    numbers
};

impl Copy for Lies {}

#[allow(clippy::non_canonical_clone_impl)]
impl Clone for Lies {
    fn clone(&self) -> Self {
        tick();
        Lies(&NUMBERS[random() % NUMBERS.len()], !self.1)
    }
}

impl PartialEq for Lies {
    fn eq(&self, _: &Self) -> bool {
        tick();
        random() % 2 == 0
    }
}

impl Eq for Lies {}

impl Symbol for Lies {
    fn try_from_usize(index: usize) -> Option<Self> {
        tick();
        let lied = if random() % 9 == 0 { random() } else { index };
        (random() % 50 > 0).then(|| Lies(&NUMBERS[lied % NUMBERS.len()], lied % 2 == 0))
    }

    fn to_usize(self) -> usize {
        tick();
        assert!(*self.0 < NUMBERS.len());
        if random() % 20 == 0 {
            [usize::MAX, 1 << (usize::BITS / 2), random()][random() % 3]
        } else {
            *self.0
        }
    }
}

#[test]
fn symbols_that_lie_or_panic() {
    make_all_calls(StringInterner::<StringBackend<Lies>>::new());
    make_all_calls(StringInterner::<BucketBackend<Lies>>::with_capacity(9));
    make_all_calls(StringInterner::<BufferBackend<Lies>>::new());
}

/// A symbol whose `Clone` panics, and which is otherwise as it should be.
#[derive(Copy, PartialEq, Eq, Debug)]
struct NoClone(&'static usize);

#[allow(clippy::non_canonical_clone_impl)]
impl Clone for NoClone {
    fn clone(&self) -> Self {
        panic!("cloned")
    }
}

impl Symbol for NoClone {
    fn try_from_usize(index: usize) -> Option<Self> {
        NUMBERS.get(index).map(NoClone)
    }

    fn to_usize(self) -> usize {
        *self.0
    }
}

/// An interner never clones a symbol.
#[test]
fn symbols_whose_clone_panics() {
    let mut interner = StringInterner::<StringBackend<NoClone>>::new();
    for number in 0..500 {
        assert_eq!(*interner.get_or_intern(spell(number)).0, number);
    }
    let copy = interner.clone();
    for number in 0..500 {
        assert_eq!(
            copy.get(spell(number)).map(|symbol| *symbol.0),
            Some(number)
        );
    }
    interner.truncate(100);
    assert_eq!(interner.get(spell(99)).map(|symbol| *symbol.0), Some(99));
}

/// A hasher whose codes change from call to call, are few, or are missing because it panics.
#[derive(Clone, Default)]
struct Changes;

struct Code(u64);

impl BuildHasher for Changes {
    type Hasher = Code;

    fn build_hasher(&self) -> Code {
        tick();
        Code(random() as u64)
    }
}

impl Hasher for Code {
    fn write(&mut self, _: &[u8]) {
        tick();
    }

    fn finish(&self) -> u64 {
        tick();
        [0, u64::MAX, self.0, self.0 << 32][random() % 4]
    }
}

#[test]
fn hashers_that_change_or_panic() {
    make_all_calls(StringInterner::<StringBackend, Changes>::new());
    make_all_calls(StringInterner::<BucketBackend<usize>, Changes>::new());
    make_all_calls(StringInterner::<BufferBackend, Changes>::with_capacity(100));
    make_all_calls(StringInterner::<BufferBackend<Lies>, Changes>::new());
}

/// A backend that answers anything, but no text that is not one.
#[derive(Debug)]
struct Anything(Vec<String>);

impl Default for Anything {
    fn default() -> Self {
        Anything(vec!["first".into()])
    }
}

impl Clone for Anything {
    fn clone(&self) -> Self {
        tick();
        Anything(self.0.iter().skip(random() % 3).cloned().collect())
    }
}

impl PartialEq for Anything {
    fn eq(&self, _: &Self) -> bool {
        tick();
        random() % 2 == 0
    }
}

impl Anything {
    fn some_text(&self) -> &str {
        tick();
        &self.0[random() % self.0.len().max(1)]
    }
}

impl Backend for Anything {
    type Symbol = Lies;
    type Iter<'a> = Box<dyn Iterator<Item = (Lies, &'a str)> + 'a>;

    fn with_capacity(cap: usize) -> Self {
        tick();
        Anything(Vec::with_capacity(cap.min(10)))
    }

    fn intern(&mut self, text: &str) -> Lies {
        tick();
        if random() % 4 > 0 {
            self.0.push(text.into());
        }
        tick();
        Lies(&NUMBERS[random() % NUMBERS.len()], false)
    }

    fn shrink_to_fit(&mut self) {
        self.0.truncate(40);
    }

    fn resolve(&self, _: Lies) -> Option<&str> {
        (random() % 3 > 0).then(|| self.some_text())
    }

    unsafe fn resolve_unchecked(&self, symbol: Lies) -> &str {
        assert!(*symbol.0 < NUMBERS.len());
        self.some_text()
    }

    fn iter(&self) -> Self::Iter<'_> {
        Box::new((0..random() % 400).map(|number| (Lies(&NUMBERS[number], true), self.some_text())))
    }
}

#[test]
fn backends_that_answer_anything() {
    make_all_calls(StringInterner::<Anything>::new());
    make_all_calls(StringInterner::<Anything, Changes>::new());
    for _ in 0..20 {
        let read = StringInterner::<Anything>::from_json(r#"["a","b","a"]"#);
        assert!(read.is_ok());
    }
}

/// A backend that keeps the contract, reads without a check by it, and panics when it is dropped.
#[derive(Default)]
struct Trusting(Vec<String>);

impl Drop for Trusting {
    fn drop(&mut self) {
        if !thread::panicking() {
            tick();
        }
    }
}

impl Backend for Trusting {
    type Symbol = usize;
    type Iter<'a> = Box<dyn Iterator<Item = (usize, &'a str)> + 'a>;

    fn with_capacity(_: usize) -> Self {
        Self::default()
    }

    fn intern(&mut self, text: &str) -> usize {
        self.0.push(text.to_owned());
        self.0.len() - 1
    }

    fn shrink_to_fit(&mut self) {}

    fn resolve(&self, symbol: usize) -> Option<&str> {
        self.0.get(symbol).map(String::as_str)
    }

    unsafe fn resolve_unchecked(&self, symbol: usize) -> &str {
        // SAFETY: this backend returned the symbol.
        unsafe { self.0.get_unchecked(symbol) }
    }

    fn iter(&self) -> Self::Iter<'_> {
        Box::new(self.0.iter().map(String::as_str).enumerate())
    }
}

#[test]
fn a_backend_that_panics_as_it_is_dropped() {
    let mut interner = StringInterner::<Trusting>::new();
    interner.extend((0..100).map(spell));
    LEFT.set(1);
    assert!(attempt(|| interner.truncate(1)).is_none());
    LEFT.set(0);
    assert_eq!((interner.len(), interner.iter().count()), (1, 1));
    assert_eq!(interner.get(spell(0)), Some(0));
    assert!((1..100).all(|number| interner.get(spell(number)).is_none()));
}

/// A hasher that hashes well until it panics.
#[derive(Default)]
struct Stops;

impl BuildHasher for Stops {
    type Hasher = <FixedHashBuilder as BuildHasher>::Hasher;

    fn build_hasher(&self) -> Self::Hasher {
        tick();
        FixedHashBuilder.build_hasher()
    }
}

/// The texts that stay keep their symbols, and those that the hasher came to are found.
fn stop_while_texts_are_dropped<B: Backend>() {
    for stop in 1..=50 {
        let mut interner = StringInterner::<B, Stops>::new();
        let symbols = interner.intern_all((0..100).map(spell));
        LEFT.set(stop);
        assert!(attempt(|| interner.truncate(50)).is_none());
        LEFT.set(0);
        assert_eq!((interner.len(), interner.iter().count()), (50, 50));
        for (number, &symbol) in symbols.iter().enumerate() {
            let kept = (number < 50).then(|| spell(number));
            assert_eq!(interner.resolve(symbol), kept.as_deref());
            let is_found = interner.get(spell(number)) == Some(symbol);
            assert_eq!(is_found, number + 1 < stop);
        }
        interner.extend((0..100).map(spell));
        assert_eq!(interner.len(), 101 + 50 - stop);
        truncate_well(interner);
    }
}

/// The same where so few texts go that each of them is hashed.
fn stop_while_few_are_dropped<B: Backend>() {
    for stop in 1..=10 {
        let mut interner = StringInterner::<B, Stops>::new();
        let symbols = interner.intern_all((0..100).map(spell));
        LEFT.set(stop);
        assert!(attempt(|| interner.truncate(90)).is_none());
        LEFT.set(0);
        assert_eq!((interner.len(), interner.iter().count()), (101 - stop, 100));
        for (number, &symbol) in symbols.iter().enumerate() {
            assert_eq!(interner.resolve(symbol), Some(&*spell(number)));
            let is_found = interner.get(spell(number)) == Some(symbol);
            assert_eq!(is_found, !(90..89 + stop).contains(&number));
        }
        truncate_well(interner);
    }
}

/// What was not found is dropped, or is found again.
fn truncate_well<B: Backend>(mut interner: StringInterner<B, Stops>) {
    interner.truncate(50);
    assert_eq!((interner.len(), interner.iter().count()), (50, 50));
    assert!(interner
        .iter()
        .all(|(symbol, text)| interner.get(text) == Some(symbol)));
}

#[test]
fn hashers_that_panic_while_texts_are_dropped() {
    stop_while_texts_are_dropped::<StringBackend>();
    stop_while_texts_are_dropped::<BucketBackend>();
    stop_while_texts_are_dropped::<BufferBackend>();
    stop_while_few_are_dropped::<StringBackend>();
    stop_while_few_are_dropped::<BucketBackend>();
    stop_while_few_are_dropped::<BufferBackend>();
}

/// A backend of a program's own has the first texts then.
#[test]
fn hashers_that_panic_while_a_backend_is_made_anew() {
    for stop in 1..=50 {
        let mut interner = StringInterner::<Trusting, Stops>::new();
        interner.extend((0..100).map(spell));
        LEFT.set(stop);
        assert!(attempt(|| interner.truncate(50)).is_none());
        LEFT.set(0);
        assert_eq!(interner.len(), stop - 1);
        assert!(interner
            .iter()
            .map(|(_, text)| text)
            .eq((0..stop - 1).map(spell)));
        assert!(interner
            .iter()
            .all(|(symbol, text)| interner.get(text) == Some(symbol)));
    }
}

/// A value that is another text each time, or panics.
struct Turns(Cell<usize>);

impl AsRef<str> for Turns {
    fn as_ref(&self) -> &str {
        tick();
        self.0.set(self.0.get() + 1);
        ["a", "ß", "long ".repeat(self.0.get() % 90).leak()][self.0.get() % 3]
    }
}

#[test]
fn texts_that_turn_into_others() {
    let mut interner = DefaultStringInterner::default();
    for round in 0..300 {
        LEFT.set(round % 7);
        let _ = attempt(|| interner.get_or_intern(Turns(Cell::new(round))));
        let _ = attempt(|| interner.extend((0..9).map(|number| Turns(Cell::new(number)))));
        LEFT.set(0);
        assert!(interner
            .iter()
            .all(|(symbol, text)| interner.get(text) == Some(symbol)));
    }
}

/// An iterator that panics, goes on after its end, and lies about its length.
struct Iterates(usize);

impl Iterator for Iterates {
    type Item = String;

    fn next(&mut self) -> Option<String> {
        tick();
        self.0 += 1;
        (self.0 % 40 > 0).then(|| spell(self.0))
    }

    fn size_hint(&self) -> (usize, Option<usize>) {
        (self.0 % 1_000, Some(0))
    }
}

#[test]
fn iterators_that_lie_or_panic() {
    let mut interner = DefaultStringInterner::<BufferBackend>::new();
    for round in 0..100 {
        LEFT.set(round);
        let _ = attempt(|| interner.extend(Iterates(round * 7)));
        let _ = attempt(|| interner.intern_all(Iterates(round)));
        let _ = attempt(|| DefaultStringInterner::<BucketBackend>::from_iter(Iterates(round)));
        LEFT.set(0);
        assert!(interner
            .iter()
            .all(|(symbol, text)| interner.get(text) == Some(symbol)));
    }
}

/// A symbol type without values.
#[derive(Clone, Copy, PartialEq, Eq, Debug)]
enum Never {}

impl Symbol for Never {
    fn try_from_usize(_: usize) -> Option<Self> {
        None
    }

    fn to_usize(self) -> usize {
        match self {}
    }
}

/// A symbol type of no bytes.
#[derive(Clone, Copy, PartialEq, Eq, Debug)]
struct Nothing;

impl Symbol for Nothing {
    fn try_from_usize(_: usize) -> Option<Self> {
        Some(Nothing)
    }

    fn to_usize(self) -> usize {
        0
    }
}

#[test]
fn symbols_of_no_bytes() {
    let mut never = StringInterner::<StringBackend<Never>>::new();
    assert!(never.try_get_or_intern("a").is_err() && never.get("a").is_none() && never.is_empty());
    let mut nothing = StringInterner::<BufferBackend<Nothing>>::new();
    for number in 0..100 {
        nothing.get_or_intern(spell(number));
    }
    assert_eq!((nothing.len(), nothing.resolve(Nothing)), (100, Some("0")));
}

/// A symbol that may not leave its thread. The interner may not either.
#[derive(Clone, Copy, PartialEq, Eq, Debug)]
struct Stays(usize, PhantomData<*const ()>);

impl Symbol for Stays {
    fn try_from_usize(index: usize) -> Option<Self> {
        Some(Stays(index, PhantomData))
    }

    fn to_usize(self) -> usize {
        self.0
    }
}

#[test]
fn what_is_forgotten_swapped_or_leaked() {
    let mut interner = StringInterner::<BucketBackend<Stays>>::new();
    let first = interner.get_or_intern("first");
    #[allow(clippy::forget_non_drop)]
    mem::forget(interner.iter());
    let mut other = interner.clone();
    mem::swap(&mut interner, &mut other);
    mem::forget(mem::take(&mut other.clone().into_list()));
    let leaked: &'static StringInterner<_> = Box::leak(Box::new(interner));
    assert_eq!(
        (leaked.resolve(first), other.resolve(first)),
        (Some("first"), Some("first"))
    );
}

trait IntoList {
    fn into_list(self) -> Vec<String>;
}

impl<B: Backend> IntoList for StringInterner<B> {
    fn into_list(self) -> Vec<String> {
        self.iter().map(|(_, text)| text.into()).collect()
    }
}

/// Symbols of other interners lead to a text or to none.
#[test]
fn symbols_of_others() {
    fn over<B: Backend>() {
        let long: StringInterner<B> = (0..900).map(spell).collect();
        let short: StringInterner<B> = (0..9).map(|number| "語".repeat(number)).collect();
        for (symbol, _) in &long {
            assert!(short.resolve(symbol).is_none_or(is_text));
        }
    }
    over::<StringBackend>();
    over::<BucketBackend>();
    over::<BufferBackend>();
}

/// A panic while a text is interned leaves an interner that other threads may use.
#[test]
fn threads_after_a_panic() {
    let mut interner = StringInterner::<DefaultBackend, Changes>::new();
    for round in 1..200 {
        LEFT.set(1 + round % 9);
        let _ = attempt(|| interner.get_or_intern(spell(round)));
        LEFT.set(0);
    }
    let interner = &interner;
    thread::scope(|scope| {
        for _ in 0..3 {
            scope.spawn(|| assert!(interner.iter().all(|(_, text)| is_text(text))));
        }
    });
}
