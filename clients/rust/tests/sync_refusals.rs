//! What is refused to a shared interner, or panics within it: memory, symbols, hashers and symbol types of a program's own. One text
//! has one symbol all the same.

mod allocator;

use std::cell::Cell;
use std::hash::{BuildHasher, BuildHasherDefault, Hasher};
use std::panic::{catch_unwind, resume_unwind, AssertUnwindSafe};
use std::sync::atomic::{AtomicUsize, Ordering};
use std::sync::Barrier;
use std::thread;

use allocator::{ALONE, HELD, REFUSED, REQUESTS, REQUESTS_ALONE};
use string_interner::hasher::FixedHashBuilder;
use string_interner::symbol::SymbolU16;
use string_interner::sync::Interner;
use string_interner::{DefaultHashBuilder, DefaultSymbol, InternError, Symbol};

thread_local! {
    /// So many calls of a program's own go well before one panics; none does if this is 0.
    static PANICS: Cell<usize> = const { Cell::new(0) };
}

/// Counts down to 0, and reports whether it got there.
fn is_due(count: &'static thread::LocalKey<Cell<usize>>) -> bool {
    let left = count.get();
    count.set(left.saturating_sub(1));
    left == 1
}

/// Texts of which some are too long for an entry of the table.
fn spell(number: usize) -> String {
    let long = if number % 100 == 99 {
        70_000
    } else {
        number % 40
    };
    format!("{number} {}", "x".repeat(long))
}

/// Compares an interner with the first texts, which have the numbers 0, 1, 2, ..
fn holds<S: Symbol, H: BuildHasher>(names: &Interner<S, H>, count: usize) {
    assert_eq!(names.len(), count);
    for (number, (symbol, text)) in names.iter().enumerate() {
        assert_eq!((symbol.to_usize(), text), (number, &*spell(number)));
        assert_eq!(names.get(text).map(S::to_usize), Some(number));
        assert_eq!(names.resolve(symbol), Some(text));
    }
    assert!(names.get(spell(count)).is_none());
}

/// Each request of each call is refused once. The text is then unknown, and has the next number when it is interned again.
#[test]
fn memory_is_refused() {
    let names = Interner::new();
    let mut refusals = 0;
    for number in 0..2_000 {
        let text = spell(number);
        for request in 1.. {
            REFUSED.set(request);
            let returned = names.try_get_or_intern(&text);
            if REFUSED.replace(0) > 0 {
                assert_eq!(returned.map(Symbol::to_usize), Ok(number));
                break;
            }
            refusals += 1;
            match returned {
                Err(error) => assert_eq!(error, InternError::Memory),
                Ok(_) => panic!("memory was refused"),
            }
            assert!(names.len() == number && !names.contains(&text));
        }
    }
    holds(&names, 2_000);
    // Each of 32 shards made an index about three times, and the table has several parts.
    assert!(refusals > 32 * 3, "{refusals}");
}

/// Each request of a call that interns many texts is refused once, behind one for the symbols. The texts before the one that lacked it
/// stay, in their order.
#[test]
fn memory_is_refused_to_many_texts() {
    let mut refusals = 0;
    let names = loop {
        let names = Interner::<DefaultSymbol, _>::with_hasher(FixedHashBuilder);
        REFUSED.set(0);
        let texts: Vec<String> = (0..700).map(spell).collect();
        REFUSED.set(refusals + 1);
        let interned = catch_unwind(AssertUnwindSafe(|| names.intern_all(&texts)));
        if REFUSED.replace(0) > 0 {
            assert_eq!(interned.unwrap().len(), 700);
            break names;
        }
        let message = interned.err().unwrap();
        assert_eq!(message.downcast_ref::<String>().unwrap(), "out of memory");
        holds(&names, names.len());
        refusals += 1;
    };
    holds(&names, 700);
    // Each of 32 shards made an index about twice.
    assert!(refusals > 32 * 2, "{refusals}");
}

/// Each request for capacity is refused once, behind those of a new interner, which end the process.
#[test]
fn capacity_is_refused() {
    let before = REQUESTS.get();
    drop(Interner::new());
    let of_new = REQUESTS.get() - before;
    let mut refusals = 0;
    let names = loop {
        REFUSED.set(of_new + refusals + 1);
        let made = catch_unwind(|| Interner::with_capacity(1_000));
        if REFUSED.replace(0) > 0 {
            break made.unwrap();
        }
        let message = made.err().unwrap();
        assert_eq!(message.downcast_ref::<String>().unwrap(), "out of memory");
        refusals += 1;
    };
    // Each of 32 shards asks for an index, and the table of texts for more than one part.
    assert!(refusals > 32, "{refusals}");
    (&names).extend((0..1_000).map(spell));
    holds(&names, 1_000);
}

/// Threads need more of the table of texts at the same time, and there is memory for that once. One of them asks for it.
#[test]
fn a_part_of_the_table_is_made_once() {
    const THREADS: usize = 4;
    let names: Interner = (0..64).map(spell).collect();
    let start = Barrier::new(THREADS);
    let interned = thread::scope(|scope| {
        let threads = [0, 1, 2, 3].map(|thread| {
            let (names, start) = (&names, &start);
            scope.spawn(move || {
                let text = spell(64 + thread);
                start.wait();
                // The table has eight bytes for each of 64 texts, and then of 64 more.
                ALONE.set(8 * 64);
                let returned = names.try_get_or_intern(&text);
                ALONE.set(0);
                returned
            })
        });
        threads.map(|thread| thread.join().unwrap())
    });
    assert!(interned.iter().all(Result::is_ok), "{interned:?}");
    assert_eq!(REQUESTS_ALONE.load(Ordering::SeqCst), 1);
    assert_eq!(names.iter().count(), 64 + THREADS);
}

/// A symbol type that has no symbol when its time has come, or panics then without a message.
#[derive(Clone, Copy, Debug, PartialEq, Eq)]
struct Fails<const BY_PANIC: bool>(u32);

impl<const BY_PANIC: bool> Symbol for Fails<BY_PANIC> {
    fn try_from_usize(index: usize) -> Option<Self> {
        let fails = is_due(&PANICS);
        if fails && BY_PANIC {
            resume_unwind(Box::new(()));
        }
        (!fails).then_some(Fails(index as u32))
    }

    fn to_usize(self) -> usize {
        self.0 as usize
    }
}

/// Makes a call that fails over and over. Once all has room that it needs beside the text, it leaves no memory behind.
fn leaves_nothing(call: impl Fn() -> bool) {
    assert!((0..10).all(|_| !call()));
    let held = HELD.get();
    for _ in 0..300 {
        assert!(!call());
        assert_eq!(HELD.get(), held);
    }
}

/// The symbol fails once the text is copied, or stands in the list of long texts.
fn symbols_fail<const BY_PANIC: bool>() {
    const LENS: [usize; 6] = [9, 90, 900, 9_000, 90_000, 3];
    let names = Interner::<Fails<BY_PANIC>, _>::with_hasher(FixedHashBuilder);
    for (number, len) in LENS.into_iter().enumerate() {
        let text: &'static str = "x".repeat(len).leak();
        let fails = |intern: &dyn Fn() -> Option<Fails<BY_PANIC>>| {
            // The first call asks whether there is a symbol, and the second for that of the number which is taken.
            PANICS.set(2);
            let returned = catch_unwind(AssertUnwindSafe(intern));
            assert_eq!(PANICS.replace(0), 0);
            returned.is_ok_and(|symbol| symbol.is_some())
        };
        leaves_nothing(|| fails(&|| names.try_get_or_intern(text).ok()));
        leaves_nothing(|| fails(&|| names.try_get_or_intern_static(text).ok()));
        assert_eq!(names.get_or_intern(text).to_usize(), number);
    }
    assert!(names.iter().map(|(_, text)| text.len()).eq(LENS));
}

#[test]
fn a_call_that_fails_gives_its_memory_back() {
    symbols_fail::<false>();
    symbols_fail::<true>();
}

/// A long text is copied, and then the list of long texts is refused memory: the last of the requests of this call. There is one only
/// where an entry has no room for the address and the length of any text.
#[cfg(target_pointer_width = "64")]
#[test]
fn a_long_text_that_is_refused_gives_its_memory_back() {
    let names = Interner::<DefaultSymbol, _>::with_hasher(FixedHashBuilder);
    (&names).extend((0..98).map(spell));
    let long = "long ".repeat(20_000);
    leaves_nothing(|| {
        REFUSED.set(2);
        let returned = names.try_get_or_intern(&long);
        assert_eq!(REFUSED.replace(0), 0);
        returned.is_ok()
    });
    REFUSED.set(3);
    assert_eq!(names.get_or_intern(&long).to_usize(), 98);
    assert_eq!(REFUSED.replace(0), 1);
    assert_eq!(names.iter().last().unwrap().1, long);
}

/// What is counted is what is held, but for lists of blocks, which are small.
#[test]
fn memory_is_counted() {
    let before = HELD.get();
    let mut names = Interner::<DefaultSymbol, _>::with_hasher(FixedHashBuilder);
    let is_counted = |names: &Interner<_, _>| {
        let held = usize::try_from(HELD.get() - before).unwrap();
        let spare = held.checked_sub(names.memory_used()).unwrap();
        assert!(spare <= held / 20 + 10_000, "{spare} of {held}");
    };
    assert_eq!((HELD.get(), names.memory_used()), (before, 0));
    for number in 0..20_000 {
        let text = spell(number);
        if number % 50 == 0 {
            REFUSED.set(1 + number % 3);
            let _ = names.try_get_or_intern(&text);
            REFUSED.set(0);
        }
        names.get_or_intern(text);
        if number % 100 == 0 {
            is_counted(&names);
        }
    }
    let used = names.memory_used();
    names.shrink_to_fit();
    assert!(names.memory_used() < used);
    is_counted(&names);
    holds(&names, 20_000);
}

/// A known text needs no memory.
#[test]
fn known_texts_allocate_nothing() {
    let names: Interner = (0..500).map(spell).collect();
    for text in (0..500).map(spell) {
        REFUSED.set(1);
        let found = (
            names.try_get_or_intern(&text).is_ok(),
            names.contains(&text),
        );
        assert!(REFUSED.replace(0) == 1 && found == (true, true));
    }
}

/// Gives all texts one code.
#[derive(Default)]
struct OneCode;

impl Hasher for OneCode {
    fn write(&mut self, _: &[u8]) {}

    fn finish(&self) -> u64 {
        0
    }
}

/// One of six symbols.
#[derive(Clone, Copy, Debug, PartialEq, Eq)]
struct OfSix(usize);

impl Symbol for OfSix {
    fn try_from_usize(index: usize) -> Option<Self> {
        (index < 6).then_some(OfSix(index))
    }

    fn to_usize(self) -> usize {
        self.0
    }
}

/// The index of a shard is full with six texts, and a look at the first words misses the last of them.
const FIVE: [&str; 5] = ["a", "b", "c", "d", "e"];

#[test]
fn a_known_text_needs_no_symbol_in_a_full_index() {
    let mut names = Interner::<OfSix, BuildHasherDefault<OneCode>>::default();
    names.intern_all(FIVE);
    // One of them is new.
    assert_eq!(names.intern_all(["x"; 40]), [OfSix(5); 40]);
    names.extend(["x"]);
    assert_eq!(names.get_or_intern("x"), OfSix(5));
    assert_eq!(names.try_get_or_intern("y"), Err(InternError::NoSymbol));
    assert_eq!(names.len(), 6);
}

#[test]
fn a_known_text_needs_no_memory_in_a_full_index() {
    let mut names = Interner::<DefaultSymbol, BuildHasherDefault<OneCode>>::default();
    names.intern_all(FIVE);
    names.intern_all(["x"; 40]);
    let (held, used) = (HELD.get(), names.memory_used());
    REFUSED.set(1);
    names.extend(["x"]);
    assert_eq!(
        (HELD.get(), names.memory_used(), REFUSED.replace(0)),
        (held, used, 1)
    );
    names.set_memory_limit(used);
    names.extend(["x"]);
    assert!(names.try_get_or_intern("y").is_err());
    assert_eq!(names.get_or_intern("x").to_usize(), 5);
}

/// Threads intern more texts than there are symbols. As many get one as there are, and each text has one symbol or none.
#[test]
fn symbols_run_out() {
    const SYMBOLS: usize = u16::MAX as usize;
    let names = Interner::<SymbolU16, _>::with_hasher(DefaultHashBuilder);
    let refused = AtomicUsize::new(0);
    thread::scope(|scope| {
        for thread in 0..4 {
            let (names, refused) = (&names, &refused);
            scope.spawn(move || {
                for number in (0..17_000).map(|number| 17_000 * thread + number) {
                    let text = number.to_string();
                    match names.try_get_or_intern(&text) {
                        Ok(symbol) => assert_eq!(names.resolve(symbol), Some(&*text)),
                        Err(error) => {
                            assert_eq!(error, InternError::NoSymbol);
                            assert!(!names.contains(&text));
                            refused.fetch_add(1, Ordering::Relaxed);
                        }
                    }
                }
            });
        }
    });
    assert_eq!(
        (names.len(), refused.into_inner()),
        (SYMBOLS, 68_000 - SYMBOLS)
    );
    for (number, (symbol, text)) in names.iter().enumerate() {
        assert_eq!(symbol.to_usize(), number);
        assert_eq!(names.get_or_intern(text), symbol);
    }
    let panicked = catch_unwind(AssertUnwindSafe(|| names.get_or_intern("one more")));
    assert!(panicked.is_err() && names.len() == SYMBOLS);
}

/// A hasher that panics when its time has come, and whose codes are few.
#[derive(Default)]
struct FewCodes(u64);

impl Hasher for FewCodes {
    fn write(&mut self, bytes: &[u8]) {
        assert!(!is_due(&PANICS), "by intent");
        self.0 += bytes.iter().map(|byte| u64::from(*byte)).sum::<u64>() % 3;
    }

    fn finish(&self) -> u64 {
        self.0
    }
}

/// A symbol type that panics when its time has come.
#[derive(Clone, Copy, Debug, PartialEq, Eq)]
struct Panics(u32);

impl Symbol for Panics {
    fn try_from_usize(index: usize) -> Option<Self> {
        assert!(!is_due(&PANICS), "by intent");
        u32::try_from(index).ok().map(Panics)
    }

    fn to_usize(self) -> usize {
        self.0 as usize
    }
}

/// A call of a program's own panics at each place within a call that interns. The interner is as it was then.
fn panics_within<S: Symbol, H: BuildHasher + Default>() {
    let names = Interner::<S, H>::with_hasher(H::default());
    let mut panics = 0;
    for number in 0..300 {
        let text = spell(number);
        for call in 1.. {
            PANICS.set(call);
            let returned = catch_unwind(AssertUnwindSafe(|| names.get_or_intern(&text).to_usize()));
            if PANICS.replace(0) > 0 {
                assert_eq!(returned.unwrap(), number);
                break;
            }
            assert!(returned.is_err());
            panics += 1;
            assert!(names.len() == number && !names.contains(&text));
        }
    }
    assert!(panics >= 300);
    holds(&names, 300);
}

#[test]
fn hashers_and_symbols_panic() {
    panics_within::<DefaultSymbol, BuildHasherDefault<FewCodes>>();
    panics_within::<Panics, DefaultHashBuilder>();
    panics_within::<Panics, BuildHasherDefault<FewCodes>>();
}
