//! Random calls by safe code alone, beside a list of texts: symbols of other interners, symbols that lie or panic, texts that
//! call back, walks that are left, interners that are swapped, leaked or left in the middle of a call.
//!
//! RANDOM_CALLS says how many calls each run makes, and RANDOM_SEED which; more than the default are for a run under a checker
//! of memory. In the build for libFuzzer (tests/fuzz) the bytes of its inputs choose the calls.

use std::cell::Cell;
use std::env;
use std::mem;
use std::panic::{catch_unwind, AssertUnwindSafe};
use std::str;
use std::vec;

mod common;

use common::Backend;
use string_interner::backend::{BucketBackend, BufferBackend, StringBackend};
use string_interner::symbol::{SymbolU16, SymbolUsize};
use string_interner::{StringInterner, Symbol};

/// The numbers that bytes choose, and random ones by xorshift behind them.
struct Random {
    chosen: vec::IntoIter<u8>,
    state: u64,
}

impl Random {
    fn new(seed: u64) -> Self {
        Random {
            chosen: Vec::new().into_iter(),
            state: seed,
        }
    }

    fn below(&mut self, bound: usize) -> usize {
        if let Some(low) = self.chosen.next() {
            let high = if bound > 256 {
                self.chosen.next()
            } else {
                None
            };
            return usize::from(u16::from_le_bytes([low, high.unwrap_or(0)])) % bound;
        }
        self.state ^= self.state << 13;
        self.state ^= self.state >> 7;
        self.state ^= self.state << 17;
        (self.state % bound as u64) as usize
    }

    fn text(&mut self) -> String {
        let most = if self.below(40) == 0 { 3_000 } else { 9 };
        let letters = ['a', 'b', '\0', 'ß', '語', '𝄞', '"'];
        (0..self.below(most))
            .map(|_| letters[self.below(7)])
            .collect()
    }

    /// A number of a text, or one that no text has.
    fn number(&mut self) -> usize {
        let near = self.below(1 << 12);
        [near, near << 10, usize::MAX - near, 1 << (usize::BITS / 2)][self.below(4)]
    }
}

/// Calls back into an interner while it is read as a text.
struct CallsBack<'a, B: Backend>(&'a StringInterner<B>, String);

impl<B: Backend> AsRef<str> for CallsBack<'_, B> {
    fn as_ref(&self) -> &str {
        if let Some((symbol, text)) = self.0.iter().last() {
            assert_eq!(self.0.resolve(symbol), Some(text));
            assert!(self.0.get(text) == Some(symbol));
        }
        &self.1
    }
}

fn is_text(text: &str) -> bool {
    str::from_utf8(text.as_bytes()).is_ok()
}

/// An interner, with what it must hold.
struct Beside<B: Backend> {
    random: Random,
    interner: StringInterner<B>,
    texts: Vec<String>,
    symbols: Vec<B::Symbol>,
}

impl<B: Backend> Beside<B> {
    fn new(random: Random) -> Self {
        Beside {
            random,
            interner: StringInterner::new(),
            texts: Vec::new(),
            symbols: Vec::new(),
        }
    }

    fn find(&self, text: &str) -> Option<B::Symbol> {
        let place = self.texts.iter().position(|known| known == text)?;
        Some(self.symbols[place])
    }

    fn intern(&mut self) {
        let text = self.random.text();
        let known = self.find(&text);
        let symbol = if self.random.below(4) == 0 {
            self.interner
                .get_or_intern_static(Box::leak(text.clone().into_boxed_str()))
        } else {
            self.interner.get_or_intern(&text)
        };
        assert!(known.is_none_or(|known| known == symbol));
        if known.is_none() {
            self.texts.push(text);
            self.symbols.push(symbol);
        }
    }

    /// Reads all in some ways while it is lent, and a part of each text, which lies in the interner's own memory.
    fn read_what_is_lent(&mut self) {
        let lent: Vec<(B::Symbol, &str)> = self.interner.iter().collect();
        assert_eq!(lent.len(), self.texts.len());
        let mut walk = self.interner.iter();
        walk.next();
        assert_eq!(walk.clone().count(), self.texts.len().saturating_sub(1));
        for ((symbol, text), put) in lent.iter().zip(&self.texts) {
            assert!(*text == put && self.interner.get(text) == Some(*symbol));
            let end = text
                .char_indices()
                .nth(2)
                .map_or(text.len(), |(end, _)| end);
            assert!(self.interner.get(&text[..end]) == self.find(&text[..end]));
        }
        let copy = self.interner.clone();
        let read = StringInterner::<B>::from_json(&copy.to_json()).unwrap();
        assert!(copy == self.interner && read == copy);
        drop((copy, read));
        assert!(lent.iter().all(|(_, text)| is_text(text)));
    }

    fn resolve_any_number(&mut self) {
        if let Some(symbol) = B::Symbol::try_from_usize(self.random.number()) {
            assert!(self.interner.resolve(symbol).is_none_or(is_text));
        }
    }

    fn truncate(&mut self) {
        let most = self.texts.len() + 3;
        let len = if most > 200 {
            20
        } else {
            most - self.random.below(most.min(9))
        };
        self.interner.truncate(len);
        self.texts.truncate(len);
        self.symbols.truncate(len);
    }

    /// Puts a copy in its place. The old one is seldom leaked.
    fn replace(&mut self) {
        let old = mem::replace(&mut self.interner, StringInterner::new());
        self.interner = old.clone();
        if self.random.below(50) == 0 {
            mem::forget(old);
        }
    }

    /// Some texts go into a copy before an iterator panics.
    fn panic_in_the_middle(&mut self) {
        let mut copy = self.interner.clone();
        let texts = ["p", "q", "r"]
            .into_iter()
            .inspect(|text| assert_ne!(*text, "q"));
        assert!(catch_unwind(AssertUnwindSafe(|| copy.extend(texts))).is_err());
        assert!(copy.get("p").is_some() && copy.iter().all(|(_, text)| is_text(text)));
    }

    fn call(&mut self) {
        match self.random.below(16) {
            0..=7 => self.intern(),
            8 => self.truncate(),
            9 => self.interner.shrink_to_fit(),
            10 => self.replace(),
            11 => self.panic_in_the_middle(),
            12 => {
                let text = self.random.text();
                let found = self.interner.get(CallsBack(&self.interner, text.clone()));
                assert!(found == self.find(&text));
            }
            13 => self.read_what_is_lent(),
            _ => self.resolve_any_number(),
        }
        assert_eq!(self.interner.len(), self.texts.len());
        if !self.texts.is_empty() {
            let place = self.random.below(self.texts.len());
            let text = self.interner.resolve(self.symbols[place]);
            assert_eq!(text, Some(&*self.texts[place]));
        }
    }
}

/// Returns the number that this variable has, or another if it is not set.
fn number_of(variable: &str, otherwise: usize) -> usize {
    env::var(variable).map_or(otherwise, |number| {
        number.parse().expect("the variable is a number")
    })
}

fn calls() -> usize {
    number_of("RANDOM_CALLS", 3_000)
}

fn run<B: Backend>() {
    let first = number_of("RANDOM_SEED", 1) as u64;
    for seed in first..first + 3 {
        let mut beside = Beside::<B>::new(Random::new(seed.max(1)));
        (0..calls()).for_each(|_| beside.call());
    }
}

#[test]
fn string() {
    run::<StringBackend>();
    run::<StringBackend<usize>>();
}

#[test]
fn bucket() {
    run::<BucketBackend>();
    run::<BucketBackend<SymbolUsize>>();
}

#[test]
fn buffer() {
    run::<BufferBackend>();
    run::<BufferBackend<usize>>();
}

thread_local! {
    static LIE: Cell<usize> = const { Cell::new(0) };
}

/// A symbol whose conversions refuse, panic or return another number, as safe code may.
#[derive(Clone, Copy, Debug, PartialEq, Eq)]
struct Liar(usize);

impl Symbol for Liar {
    fn try_from_usize(index: usize) -> Option<Self> {
        match LIE.get() {
            1 => None,
            2 => panic!("no symbol, by intent"),
            3 => Some(Liar(!index)),
            _ => Some(Liar(index)),
        }
    }

    fn to_usize(self) -> usize {
        assert_ne!(LIE.get(), 4, "no number, by intent");
        self.0
    }
}

/// Makes calls while symbols lie. What is read is text all the same. A symbol that lied is in the index, so later calls may panic.
fn lie<B: Backend<Symbol = Liar>>(mut random: Random, calls: usize) {
    let mut interner = StringInterner::<B>::new();
    let mut symbols = Vec::new();
    for _ in 0..calls {
        LIE.set(random.below(5));
        let text = random.text();
        let _ = catch_unwind(AssertUnwindSafe(|| {
            symbols.push(interner.get_or_intern(&text))
        }));
        let _ = catch_unwind(|| interner.get("a"));
        let _ = catch_unwind(|| interner.iter().all(|(_, text)| is_text(text)));
        let _ = catch_unwind(|| StringInterner::<B>::from_json("[\"a\",\"b\"]").is_ok());
        let any = symbols.get(random.below(symbols.len() + 1));
        let _ = catch_unwind(|| any.map(|symbol| interner.resolve(*symbol).is_none_or(is_text)));
        LIE.set(0);
        for (_, text) in &interner {
            assert!(is_text(text));
            let _ = catch_unwind(|| interner.get(text));
        }
        if interner.len() > 100 {
            let _ = catch_unwind(AssertUnwindSafe(|| interner.truncate(10)));
        }
    }
}

#[test]
fn symbols_that_lie() {
    lie::<StringBackend<Liar>>(Random::new(7), calls() / 5);
    lie::<BucketBackend<Liar>>(Random::new(7), calls() / 5);
    lie::<BufferBackend<Liar>>(Random::new(7), calls() / 5);
}

/// Makes the calls that bytes choose, over a backend that the first one chooses.
#[cfg(fuzzing)]
pub fn make_chosen_calls(bytes: &[u8]) {
    fn make<B: Backend>(random: Random) {
        let mut beside = Beside::<B>::new(random);
        while beside.random.chosen.len() > 0 {
            beside.call();
        }
    }
    let mut random = Random {
        chosen: Vec::from(bytes).into_iter(),
        ..Random::new(1)
    };
    match random.below(9) {
        0 => make::<StringBackend>(random),
        1 => make::<StringBackend<usize>>(random),
        2 => make::<BucketBackend>(random),
        3 => make::<BucketBackend<SymbolUsize>>(random),
        4 => make::<BufferBackend>(random),
        5 => make::<BufferBackend<usize>>(random),
        6 => lie::<StringBackend<Liar>>(random, bytes.len() / 5),
        7 => lie::<BucketBackend<Liar>>(random, bytes.len() / 5),
        _ => lie::<BufferBackend<Liar>>(random, bytes.len() / 5),
    }
}

/// Texts go in until the symbols of two bytes run out. All that went in stays.
fn run_out_of_symbols<B: Backend<Symbol = SymbolU16>>() {
    let mut random = Random::new(5);
    let mut interner = StringInterner::<B>::new();
    while catch_unwind(AssertUnwindSafe(|| interner.get_or_intern(random.text()))).is_ok() {}
    for (symbol, text) in &interner {
        assert!(is_text(text) && interner.get(text) == Some(symbol));
    }
    interner.truncate(interner.len() / 2);
    interner.get_or_intern("fits again");
}

#[test]
fn symbols_that_run_out() {
    run_out_of_symbols::<StringBackend<SymbolU16>>();
    run_out_of_symbols::<BucketBackend<SymbolU16>>();
    run_out_of_symbols::<BufferBackend<SymbolU16>>();
}
