//! Truncating, over each index: as `truncate` of an interner does it, and by filling the index anew.

use std::hint::black_box;
use std::time::Instant;

use ours::__parts::erased::backend::{Backend, Store, StringBackend};
use ours::__parts::erased::dedup::{Index, SeededHasher, SeededState, TaggedIndex, TextIndex};
use ours::__parts::rt::alloc::Global;

type Symbol = ours::__parts::erased::DefaultSymbol;

/// Keys that look random, as those of a process do. The hash is a poor one under keys with few bits.
const KEYS: [u64; 2] = [0x6A09_E667_F3BC_C909, 0xBB67_AE85_84CA_A73B];

/// What an interner has, taken apart, because an interner chooses by itself how it truncates.
struct Parts<I> {
    texts: StringBackend<Symbol>,
    index: I,
    hasher: SeededHasher,
}

impl<I: TextIndex<Symbol>> Parts<I> {
    /// These distinct texts.
    fn of(texts: &[String]) -> Self {
        let mut it = Parts {
            texts: StringBackend::new(Global),
            index: I::with_capacity(Global, texts.len()).expect("memory for the index"),
            hasher: SeededHasher::new(SeededState::new(KEYS[0], KEYS[1])),
        };
        for text in texts {
            it.texts.intern(text).expect("memory for a text");
        }
        it.index.refill(&it.hasher, &it.texts);
        it
    }

    /// Keeps the first texts as an interner does.
    #[inline(never)]
    fn truncate(&mut self, len: usize) -> usize {
        let removed = self.index.remove_from(&self.hasher, &self.texts, len);
        self.texts.truncate(len);
        if !removed {
            self.index.refill(&self.hasher, &self.texts);
        }
        self.index.len()
    }

    /// Keeps the first texts, and fills the index anew.
    #[inline(never)]
    fn refill(&mut self, len: usize) -> usize {
        self.texts.truncate(len);
        self.index.refill(&self.hasher, &self.texts);
        self.index.len()
    }
}

/// One way to truncate.
type Way<I> = fn(&mut Parts<I>, usize) -> usize;

/// Drops one text, the most that are removed one by one, and half of them. Prints nanoseconds of the whole call.
fn measure<I: TextIndex<Symbol>>(texts: &[String]) {
    let count = texts.len();
    // At least eight times as many texts stay as go.
    let border = count - count / 9;
    let ways: [(&str, Way<I>); 2] = [("", Parts::truncate), (" refilled", Parts::refill)];
    let mut lines = Vec::new();
    for (what, len) in [("one", count - 1), ("ninth", border), ("half", count / 2)] {
        for (how, way) in ways {
            let mut it = Parts::<I>::of(texts);
            let then = Instant::now();
            let left = black_box(way(&mut it, len));
            lines.push((what, how, then.elapsed().as_nanos(), left));
        }
    }
    for (what, how, nanoseconds, left) in lines {
        println!("{what}{how}\t{nanoseconds}\t{left}");
    }
}

/// What measures these texts, and prints it.
pub type Measure = fn(&[String]);

/// By the name of an index what measures it.
pub const INDEXES: [(&str, Measure); 2] = [
    ("Index", measure::<Index<Symbol>>),
    ("TaggedIndex", measure::<TaggedIndex<Symbol>>),
];
