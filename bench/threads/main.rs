//! Measures interners that threads share beside a plain one, all in one process:
//!
//!     threads COUNT ROUNDS     on so many texts of 9 bytes on average, by medians of so many rounds of 10,000 calls
//!
//! It prints lines of a contestant, a measure and a value: of each call the nanoseconds of processor time by one thread and by four,
//! and the bytes of a text.

use std::cell::UnsafeCell;
use std::collections::BTreeSet;
use std::hash::BuildHasher;
use std::hint::{black_box, spin_loop};
use std::sync::atomic::{AtomicU32, AtomicUsize, Ordering::SeqCst};
use std::sync::{Mutex, RwLock};
use std::{mem, slice, str, thread};

use dashmap::{DashMap, SharedValue};
use hashbrown::hash_map::RawEntryMut;
use string_cache::DefaultAtom;

const THREADS: usize = 4;

/// So many calls each thread makes in a round, so that few lose their processor in it.
const CALLS: usize = 10_000;

/// How many rounds there were. Each takes other processors for the same threads, and other texts.
static TURN: AtomicUsize = AtomicUsize::new(0);

/// An interner, or what serves as one.
trait Contestant: Sync {
    type Symbol: Clone + Send + Sync;

    /// Whether threads may share one.
    const IS_SHARED: bool = true;

    /// Makes one for so many texts, whose length is known only where that is said.
    fn new(count: usize) -> Self;
    fn intern(&self, text: &str) -> Self::Symbol;
    /// Returns the length of a symbol's text.
    fn resolve(&self, symbol: &Self::Symbol) -> usize;
}

/// A plain interner, which one thread has alone.
struct Plain(UnsafeCell<ours::DefaultStringInterner>);

// SAFETY: `IS_SHARED` says that only one thread at a time has it.
unsafe impl Sync for Plain {}

impl Contestant for Plain {
    type Symbol = ours::DefaultSymbol;

    const IS_SHARED: bool = false;

    fn new(_: usize) -> Self {
        Plain(UnsafeCell::new(ours::DefaultStringInterner::new()))
    }

    #[inline]
    fn intern(&self, text: &str) -> Self::Symbol {
        // SAFETY: only this thread has it, and nothing of it is borrowed.
        unsafe { &mut *self.0.get() }.get_or_intern(text)
    }

    #[inline]
    fn resolve(&self, symbol: &Self::Symbol) -> usize {
        // SAFETY: as above.
        unsafe { &*self.0.get() }
            .resolve(*symbol)
            .map_or(0, str::len)
    }
}

impl Contestant for ours::sync::Interner {
    type Symbol = ours::DefaultSymbol;

    fn new(_: usize) -> Self {
        Self::new()
    }

    #[inline]
    fn intern(&self, text: &str) -> Self::Symbol {
        self.get_or_intern(text)
    }

    #[inline]
    fn resolve(&self, symbol: &Self::Symbol) -> usize {
        self.resolve(*symbol).map_or(0, str::len)
    }
}

impl Contestant for RwLock<original::DefaultStringInterner> {
    type Symbol = original::DefaultSymbol;

    fn new(_: usize) -> Self {
        Self::default()
    }

    #[inline]
    fn intern(&self, text: &str) -> Self::Symbol {
        if let Some(symbol) = self.read().unwrap().get(text) {
            return symbol;
        }
        self.write().unwrap().get_or_intern(text)
    }

    #[inline]
    fn resolve(&self, symbol: &Self::Symbol) -> usize {
        self.read().unwrap().resolve(*symbol).map_or(0, str::len)
    }
}

/// The design of lasso's `ThreadedRodeo`: two maps, and bytes that are handed out without a lock.
struct Rodeo {
    symbols: DashMap<&'static str, u32, ahash::RandomState>,
    texts: DashMap<u32, &'static str, ahash::RandomState>,
    bytes: Box<[UnsafeCell<u8>]>,
    used: AtomicUsize,
    count: AtomicU32,
}

// SAFETY: each byte is written once, by the thread that took it from `used`, before it is read.
unsafe impl Sync for Rodeo {}

impl Rodeo {
    /// Copies a text. It is lent for as long as the maps, which go with the bytes.
    fn store(&self, text: &str) -> &'static str {
        let from = self.used.fetch_add(text.len(), SeqCst);
        let place = self.bytes[from..][..text.len()]
            .as_ptr()
            .cast::<u8>()
            .cast_mut();
        // SAFETY: no other thread has these bytes, which are inside of a cell.
        unsafe {
            place.copy_from_nonoverlapping(text.as_ptr(), text.len());
            str::from_utf8_unchecked(slice::from_raw_parts(place, text.len()))
        }
    }
}

impl Contestant for Rodeo {
    type Symbol = u32;

    fn new(count: usize) -> Self {
        Rodeo {
            symbols: DashMap::default(),
            texts: DashMap::default(),
            bytes: (0..MOST * count).map(|_| UnsafeCell::new(0)).collect(),
            used: AtomicUsize::new(0),
            count: AtomicU32::new(0),
        }
    }

    #[inline]
    fn intern(&self, text: &str) -> u32 {
        if let Some(symbol) = self.symbols.get(text) {
            return *symbol;
        }
        let code = self.symbols.hasher().hash_one(text);
        let shard = self.symbols.determine_shard(code as usize);
        let mut shard = self.symbols.shards()[shard].write();
        match shard.raw_entry_mut().from_key_hashed_nocheck(code, text) {
            RawEntryMut::Occupied(entry) => *entry.get().get(),
            RawEntryMut::Vacant(entry) => {
                let (text, symbol) = (self.store(text), self.count.fetch_add(1, SeqCst));
                self.texts.insert(symbol, text);
                entry.insert_hashed_nocheck(code, text, SharedValue::new(symbol));
                symbol
            }
        }
    }

    #[inline]
    fn resolve(&self, symbol: &u32) -> usize {
        self.texts.get(symbol).map_or(0, |text| text.len())
    }
}

/// One table for the process. A text is in it as long as one of its symbols.
struct Atoms;

impl Contestant for Atoms {
    type Symbol = DefaultAtom;

    fn new(_: usize) -> Self {
        Atoms
    }

    #[inline]
    fn intern(&self, text: &str) -> DefaultAtom {
        DefaultAtom::from(text)
    }

    #[inline]
    fn resolve(&self, symbol: &DefaultAtom) -> usize {
        symbol.len()
    }
}

/// Numbers that look random and are the same in each run: the generator splitmix64.
struct Random(u64);

impl Random {
    fn below(&mut self, bound: usize) -> usize {
        self.0 = self.0.wrapping_add(0x9E37_79B9_7F4A_7C15);
        let mut mixed = self.0;
        mixed = (mixed ^ (mixed >> 30)).wrapping_mul(0xBF58_476D_1CE4_E5B9);
        mixed = (mixed ^ (mixed >> 27)).wrapping_mul(0x94D0_49BB_1331_11EB);
        ((u128::from(mixed ^ (mixed >> 31)) * bound as u128) >> 64) as usize
    }
}

/// A text has so many bytes at most.
const MOST: usize = 13;

struct Texts {
    new: Vec<&'static str>,
    /// Some of them in any order, for each thread.
    known: [Vec<&'static str>; THREADS],
}

/// Lays texts out in the order in which they are read.
fn lay_out<'a>(texts: impl Iterator<Item = &'a str> + Clone) -> Vec<&'static str> {
    let mut rest: &'static str = texts.clone().collect::<String>().leak();
    let cut = |text: &str| {
        let (front, back) = rest.split_at(text.len());
        rest = back;
        front
    };
    texts.map(cut).collect()
}

/// Makes distinct identifiers of 5 to 13 bytes, 9 on average.
fn texts(count: usize) -> Texts {
    const LETTERS: &[u8] = b"abcdefghijklmnopqrstuvwxyz_0123456789";
    let mut random = Random(count as u64);
    let mut seen = BTreeSet::new();
    let mut all: Vec<String> = Vec::with_capacity(count);
    while all.len() < count {
        let length = 5 + random.below(MOST - 4);
        let text: String = (0..length)
            .map(|_| char::from(LETTERS[random.below(LETTERS.len())]))
            .collect();
        if seen.insert(text.clone()) {
            all.push(text);
        }
    }
    let parts = (count / CALLS).clamp(4, 40);
    let mut any = || -> Vec<usize> { (0..parts * CALLS).map(|_| random.below(count)).collect() };
    Texts {
        new: lay_out(all.iter().map(String::as_str)),
        known: [any(), any(), any(), any()]
            .map(|places| lay_out(places.iter().map(|place| &*all[*place]))),
    }
}

/// Keeps a thread on one processor, before all other programs, if the system allows that: else threads seldom run at the same time on a
/// busy machine.
fn pin(processor: usize) {
    // SAFETY: a set of no processors is all zeros, and the calls read what they are passed.
    unsafe {
        libc::sched_setscheduler(
            0,
            libc::SCHED_FIFO,
            &libc::sched_param { sched_priority: 1 },
        );
        let mut set: libc::cpu_set_t = mem::zeroed();
        libc::CPU_SET(processor, &mut set);
        libc::sched_setaffinity(0, size_of_val(&set), &set);
    }
}

/// The nanoseconds that this thread had a processor.
fn spent() -> f64 {
    // SAFETY: zeros are a time, which the call writes.
    unsafe {
        let mut time: libc::timespec = mem::zeroed();
        libc::clock_gettime(libc::CLOCK_THREAD_CPUTIME_ID, &mut time);
        time.tv_sec as f64 * 1e9 + time.tv_nsec as f64
    }
}

/// Returns the part of a list for a round.
fn part_of<T>(list: &[T], turn: usize) -> &[T] {
    &list[turn * CALLS % list.len()..][..CALLS]
}

/// Runs a body for each thread and the number of this round in threads that begin at the same time. Each first runs `before` for the
/// next round. They make so many calls. What a body returns is dropped after that. Returns the nanoseconds of a call.
fn run<T: Send>(
    threads: usize,
    calls: usize,
    before: impl Fn(usize, usize) + Sync,
    body: impl Fn(usize, usize) -> T + Sync,
) -> f64 {
    let (ready, before, body, turn) = (
        &AtomicUsize::new(0),
        &before,
        &body,
        TURN.fetch_add(1, SeqCst),
    );
    let time = move |thread: usize| {
        pin((thread + turn) % THREADS);
        ready.fetch_add(1, SeqCst);
        while ready.load(SeqCst) < threads {
            spin_loop();
        }
        before(thread, turn + 1);
        let begun = spent();
        let kept = body(thread, turn);
        (spent() - begun, kept)
    };
    let times: Vec<_> = thread::scope(|scope| {
        let all: Vec<_> = (0..threads)
            .map(|thread| scope.spawn(move || time(thread)))
            .collect();
        all.into_iter().map(|it| it.join().unwrap()).collect()
    });
    times.iter().map(|it| it.0).sum::<f64>() / calls as f64
}

/// A measure, and what its rounds gave.
struct Row {
    name: String,
    round: Box<dyn Fn() -> f64>,
    times: Vec<f64>,
}

/// Returns the rows of a contestant.
fn rows_of<C: Contestant + 'static>(name: &str, texts: &'static Texts) -> Vec<Row> {
    let count = texts.new.len();
    let names: &C = Box::leak(Box::new(C::new(count)));
    // Symbols stay for as long as texts are known.
    let all: Vec<_> = texts.new.iter().map(|text| names.intern(text)).collect();
    mem::forget(all);
    let symbols = texts.known.each_ref().map(|texts| {
        texts
            .iter()
            .map(|text| names.intern(text))
            .collect::<Vec<_>>()
    });
    let symbols: &[_; THREADS] = Box::leak(Box::new(symbols));
    let mut rows = Vec::new();
    for threads in [1, THREADS]
        .into_iter()
        .filter(|threads| *threads == 1 || C::IS_SHARED)
    {
        let mut add = |call: &str, round: Box<dyn Fn() -> f64>| {
            rows.push(Row {
                name: format!("{name}\t{call} {threads}"),
                round,
                times: Vec::new(),
            });
        };
        let find = |thread: usize, turn| {
            for text in part_of(&texts.known[thread], turn) {
                black_box(names.intern(text));
            }
        };
        let resolve = |thread: usize, turn| {
            for symbol in part_of(&symbols[thread], turn) {
                black_box(names.resolve(symbol));
            }
        };
        let part = count / threads;
        let fill = move || {
            let names = C::new(count);
            let fill = |thread, _| -> Vec<_> {
                texts.new[thread * part..][..part]
                    .iter()
                    .map(|text| names.intern(text))
                    .collect()
            };
            run(threads, count, |_, _| (), fill)
        };
        // What is measured is in the caches as far as it has room there.
        add(
            "known",
            Box::new(move || run(threads, threads * CALLS, find, find)),
        );
        add(
            "resolve",
            Box::new(move || run(threads, threads * CALLS, resolve, resolve)),
        );
        add("new", Box::new(fill));
    }
    rows
}

/// Returns the row of making an interner of another one: to it all texts are new.
fn row_of_making<F: Send + 'static, T: Send + 'static>(
    name: &str,
    texts: &'static Texts,
    fill: fn(&'static Texts) -> F,
    make: fn(F) -> T,
) -> Row {
    let round = move || {
        let filled = Mutex::new(None);
        let fill = |_, _| *filled.lock().unwrap() = Some(fill(texts));
        let make = |_, _| filled.lock().unwrap().take().map(make);
        run(1, texts.new.len(), fill, make)
    };
    Row {
        name: format!("{name}\tnew 1"),
        round: Box::new(round),
        times: Vec::new(),
    }
}

/// The bytes that malloc has given and not got back.
fn live() -> usize {
    // SAFETY: the call takes nothing.
    let told = unsafe { libc::mallinfo2() };
    told.uordblks + told.hblkhd
}

/// Prints what a text takes once all are in.
fn print_memory<C: Contestant>(name: &str, texts: &Texts) {
    let mut symbols = Vec::with_capacity(texts.new.len());
    let before = live();
    let names = C::new(texts.new.len());
    symbols.extend(texts.new.iter().map(|text| names.intern(text)));
    println!(
        "{name}\tbytes\t{:.1}",
        (live() - before) as f64 / texts.new.len() as f64
    );
}

/// Prints the median of a row.
fn print_times(mut row: Row) {
    row.times.sort_by(f64::total_cmp);
    if let Some(median) = row.times.get(row.times.len() / 2) {
        println!("{} used\t{median:.1}", row.name);
    }
}

fn main() {
    let [count, rounds] = [1, 2].map(|place| {
        std::env::args()
            .nth(place)
            .and_then(|it| it.parse().ok())
            .expect("threads COUNT ROUNDS")
    });
    let texts: &Texts = Box::leak(Box::new(texts(count)));
    let mut rows = Vec::new();
    macro_rules! measure {
        ($kind:ty, $name:literal) => {
            print_memory::<$kind>($name, texts);
            rows.extend(rows_of::<$kind>($name, texts));
        };
    }
    measure!(Plain, "plain");
    measure!(ours::sync::Interner, "sync::Interner");
    rows.push(row_of_making(
        "plain, by into_interner",
        texts,
        |texts| ours::sync::Interner::from_iter(&texts.new),
        ours::sync::Interner::into_interner,
    ));
    rows.push(row_of_making(
        "shared, by from",
        texts,
        |texts| ours::StringInterner::from_iter(&texts.new),
        |plain: ours::StringInterner<ours::DefaultBackend>| ours::sync::Interner::from(plain),
    ));
    measure!(
        RwLock<original::DefaultStringInterner>,
        "RwLock of the original"
    );
    measure!(Rodeo, "dashmap, as lasso");
    // Its lists are 4096 whatever the count of texts.
    if count <= 100_000 {
        measure!(Atoms, "string_cache");
    }
    // The first round warms up. Filling a large one takes long, so that is done in fewer rounds.
    for round in 0..=rounds {
        rows.rotate_left(1);
        for row in &mut rows {
            if round % 10 == 0 || count <= CALLS || !row.name.contains("new") {
                let times = (row.round)();
                row.times.extend((round > 0).then_some(times));
            }
        }
    }
    rows.sort_by(|one, other| one.name.cmp(&other.name));
    rows.into_iter().for_each(print_times);
}
