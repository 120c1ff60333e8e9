//! The phases, each a loop over all texts, and their times. Those of the library are in its own half, in the same order, and
//! `PHASES` in bench/results.py has their names.

use crate::interner::Interner;
use std::hint::black_box;

/// More rounds than these say nothing new.
pub const MOST_ROUNDS: u32 = 200;

/// What the phases are made on: distinct texts, the same in another order, and as many that are not among them.
pub struct Inputs<'a> {
    pub new: &'a str,
    pub known: &'a str,
    pub unknown: &'a str,
}

/// How long an implementation is measured: so many rounds, and then more until so many nanoseconds are over.
#[derive(Clone, Copy, Default)]
pub struct Budget {
    pub rounds: u32,
    pub nanoseconds: u64,
}

/// A number for each phase. No peer has the last two.
pub type Row = [u64; 9];

/// The times of a round before it is made, and of a phase that is not.
pub const NO_TIMES: Row = [u64::MAX; 9];

/// The times of each round, in nanoseconds, and what each phase gave in the last one.
#[derive(Default)]
pub struct Results {
    pub rounds: Vec<Row>,
    pub sums: Row,
}

/// The time of the clock that the library's half reads, too.
fn now() -> u64 {
    let mut time = libc::timespec {
        tv_sec: 0,
        tv_nsec: 0,
    };
    // SAFETY: the place is there for the time of the call.
    unsafe { libc::clock_gettime(libc::CLOCK_MONOTONIC, &mut time) };
    time.tv_sec as u64 * 1_000_000_000 + time.tv_nsec as u64
}

impl Results {
    fn time<T>(&mut self, phase: usize, work: impl FnOnce() -> T, sum: impl FnOnce(&T) -> usize) {
        let then = now();
        let result = black_box(work());
        self.rounds.last_mut().unwrap()[phase] = now() - then;
        self.sums[phase] = sum(&result) as u64;
    }
}

fn texts(lines: &str) -> impl Iterator<Item = &str> {
    lines.split('\n').filter(|text| !text.is_empty())
}

fn list_of(lines: &str) -> Vec<&str> {
    let mut list = Vec::with_capacity(texts(lines).count());
    list.extend(texts(lines));
    list
}

#[inline(never)]
fn intern<I: Interner>(interner: &mut I, texts: &[&str], symbols: &mut Vec<I::Symbol>) -> usize {
    let mut sum = 0_usize;
    for text in texts {
        let symbol = interner.intern(text);
        sum = sum.wrapping_add(I::number(symbol));
        symbols.push(symbol);
    }
    sum
}

#[inline(never)]
fn find<I: Interner>(interner: &I, texts: &[&str]) -> usize {
    let found = |text: &&&str| interner.find(text).is_some();
    texts.iter().filter(found).count()
}

#[inline(never)]
fn resolve<I: Interner>(interner: &I, symbols: &[I::Symbol]) -> usize {
    let length = |&symbol| interner.resolve(symbol).map_or(0, str::len);
    symbols.iter().map(length).sum()
}

#[inline(never)]
fn walk<I: Interner>(interner: &I) -> usize {
    let sums = interner.entries().map(|(number, text)| number + text.len());
    sums.sum()
}

fn round<I: Interner>(results: &mut Results, new: &[&str], known: &[&str], unknown: &[&str]) {
    let mut symbols = Vec::with_capacity(new.len());
    let mut mixed = Vec::with_capacity(known.len());
    let mut interner = I::empty();
    results.time(0, || intern(&mut interner, new, &mut symbols), |&sum| sum);
    if known.is_empty() {
        return;
    }
    results.time(1, || intern(&mut interner, known, &mut mixed), |&sum| sum);
    results.time(2, || find(&interner, unknown), |&count| count);
    results.time(3, || resolve(&interner, &symbols), |&sum| sum);
    results.time(4, || resolve(&interner, &mixed), |&sum| sum);
    results.time(5, || walk(&interner), |&sum| sum);
    results.time(6, || interner.clone(), I::len);
}

/// Measures all phases on one kind of interner. Without rounds it fills one and leaves it on the heap, where its memory is
/// counted; nothing else is made there.
pub fn measure<I: Interner>(inputs: &Inputs, budget: Budget) -> Results {
    let mut results = Results::default();
    if budget.rounds == 0 {
        let mut interner = I::empty();
        for text in texts(inputs.new) {
            interner.intern(text);
        }
        std::mem::forget(interner);
        return results;
    }
    let (new, known) = (list_of(inputs.new), list_of(inputs.known));
    let unknown = list_of(inputs.unknown);
    results.rounds.reserve(MOST_ROUNDS as usize);
    let begun = now();
    for done in 0..MOST_ROUNDS {
        if done >= budget.rounds && now() - begun >= budget.nanoseconds {
            break;
        }
        results.rounds.push(NO_TIMES);
        round::<I>(&mut results, &new, &known, &unknown);
    }
    results
}
