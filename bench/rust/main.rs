//! Measures the crate clients/rust beside the original crate string-interner, each with its own default:
//!
//!     rust KIND COUNT     makes each phase once, on one kind of KINDS and so many identifiers
//!     rust INDEX COUNT    truncates so many identifiers over an index (truncate.rs)
//!
//! It prints a line for each phase: its name, the nanoseconds of one call, and a check sum. Each phase lies between two readings
//! of the clock, where bench/cycles.py cuts what callgrind counts.

mod truncate;

use std::collections::BTreeSet;
use std::hint::black_box;
use std::time::Instant;

use ours::hasher::FixedHashBuilder;

/// The calls that are measured.
trait Interner: Clone {
    type Symbol: Copy;

    fn empty() -> Self;
    fn intern(&mut self, text: &str) -> Self::Symbol;
    fn find(&self, text: &str) -> Option<Self::Symbol>;
    fn resolve(&self, symbol: Self::Symbol) -> Option<&str>;
    fn number(symbol: Self::Symbol) -> usize;
    fn count(&self) -> usize;
    fn walk(&self) -> usize;
    fn loop_over(&self) -> usize;
    fn add_all(&mut self, texts: &[String]);
}

macro_rules! interner {
    ($library:ident, $kind:ty) => {
        impl Interner for $kind {
            type Symbol = $library::DefaultSymbol;

            fn empty() -> Self {
                <$kind>::new()
            }

            #[inline]
            fn intern(&mut self, text: &str) -> Self::Symbol {
                self.get_or_intern(text)
            }

            #[inline]
            fn find(&self, text: &str) -> Option<Self::Symbol> {
                self.get(text)
            }

            #[inline]
            fn resolve(&self, symbol: Self::Symbol) -> Option<&str> {
                <$kind>::resolve(self, symbol)
            }

            #[inline]
            fn number(symbol: Self::Symbol) -> usize {
                $library::Symbol::to_usize(symbol)
            }

            fn count(&self) -> usize {
                self.len()
            }

            #[inline]
            fn walk(&self) -> usize {
                self.iter()
                    .map(|(symbol, text)| Self::number(symbol) + text.len())
                    .sum()
            }

            #[inline]
            fn loop_over(&self) -> usize {
                let mut sum = 0;
                for (symbol, text) in self {
                    sum += Self::number(symbol) + text.len();
                }
                sum
            }

            #[inline]
            fn add_all(&mut self, texts: &[String]) {
                self.extend(texts);
            }
        }
    };
}

interner!(original, original::DefaultStringInterner);
interner!(ours, ours::DefaultStringInterner);
interner!(ours, ours::StringInterner<ours::DefaultBackend, FixedHashBuilder>);

/// Numbers that look random and are the same in each run: the generator splitmix64.
struct Random(u64);

impl Random {
    fn below(&mut self, bound: usize) -> usize {
        self.0 = self.0.wrapping_add(0x9E37_79B9_7F4A_7C15);
        let mut mixed = self.0;
        mixed = (mixed ^ (mixed >> 30)).wrapping_mul(0xBF58_476D_1CE4_E5B9);
        mixed = (mixed ^ (mixed >> 27)).wrapping_mul(0x94D0_49BB_1331_11EB);
        ((u128::from(mixed ^ (mixed >> 31)) * bound as u128) >> 64) as usize
    }

    /// An identifier of 5 to 15 bytes, 10 in the mean.
    fn identifier(&mut self) -> String {
        const LETTERS: &[u8] = b"abcdefghijklmnopqrstuvwxyz_0123456789";
        let length = 5 + self.below(11);
        let letter = |place| LETTERS[self.below(if place == 0 { 26 } else { LETTERS.len() })];
        (0..length).map(letter).map(char::from).collect()
    }
}

struct Inputs {
    new: Vec<String>,
    /// The same in another order.
    known: Vec<String>,
    unknown: Vec<String>,
    /// As many of these, few of them often, with a sign behind each.
    source: String,
}

fn inputs(count: usize) -> Inputs {
    let mut random = Random(count as u64);
    let mut seen = BTreeSet::new();
    let mut new = Vec::with_capacity(2 * count);
    while new.len() < 2 * count {
        let text = random.identifier();
        if seen.insert(text.clone()) {
            new.push(text);
        }
    }
    let unknown = new.split_off(count);
    let mut known = new.clone();
    for last in (1..count).rev() {
        known.swap(last, random.below(last + 1));
    }
    let mut source = String::new();
    for _ in 0..count {
        let place = (0..3).fold(count, |bound, _| random.below(bound.max(1)));
        source.push_str(&new[place]);
        source.push(char::from(b" (;=+\n"[random.below(6)]));
    }
    Inputs {
        new,
        known,
        unknown,
        source,
    }
}

#[inline(never)]
fn intern<I: Interner>(interner: &mut I, texts: &[String], symbols: &mut Vec<I::Symbol>) -> usize {
    symbols.extend(texts.iter().map(|text| interner.intern(text)));
    symbols.len()
}

#[inline(never)]
fn find<I: Interner>(interner: &I, texts: &[String]) -> usize {
    texts
        .iter()
        .filter(|text| interner.find(text).is_some())
        .count()
}

#[inline(never)]
fn resolve<I: Interner>(interner: &I, symbols: &[I::Symbol]) -> usize {
    symbols
        .iter()
        .map(|symbol| interner.resolve(*symbol).map_or(0, str::len))
        .sum()
}

/// Interns each word of a source text, as a tokenizer does.
#[inline(never)]
fn tokens<I: Interner>(interner: &mut I, source: &str) -> usize {
    let is_word = |byte: u8| byte.is_ascii_alphanumeric() || byte == b'_';
    let bytes = source.as_bytes();
    let (mut at, mut sum) = (0, 0_usize);
    while at < bytes.len() {
        let from = at;
        while at < bytes.len() && is_word(bytes[at]) {
            at += 1;
        }
        if from < at {
            sum = sum
                .wrapping_mul(31)
                .wrapping_add(I::number(interner.intern(&source[from..at])));
        }
        at += 1;
    }
    sum
}

fn measure<I: Interner>(inputs: &Inputs) {
    let count = inputs.new.len() as f64;
    let mut symbols = Vec::with_capacity(inputs.new.len());
    let mut mixed = Vec::with_capacity(inputs.new.len());
    let mut lines = Vec::new();
    let mut time = |phase: &'static str, work: &mut dyn FnMut() -> usize| {
        let then = Instant::now();
        let sum = black_box(work());
        lines.push((phase, then.elapsed().as_nanos() as f64 / count, sum));
    };
    let mut it = I::empty();
    time("fill", &mut || intern(&mut it, &inputs.new, &mut symbols));
    time("known", &mut || intern(&mut it, &inputs.known, &mut mixed));
    time("unknown", &mut || find(&it, &inputs.unknown));
    time("resolve", &mut || resolve(&it, &symbols));
    time("shuffled", &mut || resolve(&it, &mixed));
    time("iterate", &mut || it.walk());
    time("loop", &mut || it.loop_over());
    let mut filled = I::empty();
    time("extend", &mut || {
        filled.add_all(&inputs.new);
        filled.count()
    });
    let mut copies = Vec::with_capacity(1);
    // The first copy is of fresh memory, and the second of what the first had.
    for phase in ["clone", "again"] {
        copies.clear();
        time(phase, &mut || {
            copies.push(it.clone());
            copies[0].count()
        });
    }
    time("tokenizer", &mut || tokens(&mut it, &inputs.source));
    for (phase, nanoseconds, sum) in lines {
        println!("{phase}\t{nanoseconds:.1}\t{sum}");
    }
}

type Measure = fn(&Inputs);

const KINDS: [(&str, Measure); 3] = [
    ("original", measure::<original::DefaultStringInterner>),
    ("default", measure::<ours::DefaultStringInterner>),
    (
        "fixed",
        measure::<ours::StringInterner<ours::DefaultBackend, FixedHashBuilder>>,
    ),
];

fn main() {
    let [_, kind, count] = &*std::env::args().collect::<Vec<_>>() else {
        panic!("usage: rust KIND COUNT");
    };
    let inputs = inputs(count.parse().expect("COUNT is a number"));
    if let Some((_, measure)) = KINDS.iter().find(|(name, _)| name == kind) {
        return measure(&inputs);
    }
    let mut indexes = truncate::INDEXES.iter();
    let index = indexes.find(|(name, _)| name == kind);
    index.expect("no such kind").1(&inputs.new);
}
