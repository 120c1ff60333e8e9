//! The interner that threads share, compared with a list of distinct texts. `RANDOM_CALLS` says how many calls each thread makes,
//! and `RANDOM_SEED` which.

use std::collections::{HashMap, HashSet};
use std::env;
use std::panic::{catch_unwind, RefUnwindSafe, UnwindSafe};
use std::sync::{Arc, Barrier, LazyLock};
use std::thread;

use string_interner::sync::Interner;
use string_interner::{DefaultSymbol, Symbol};

const THREADS: u64 = 8;

/// Random numbers by xorshift.
struct Random(u64);

impl Random {
    fn below(&mut self, bound: usize) -> usize {
        self.0 ^= self.0 << 13;
        self.0 ^= self.0 >> 7;
        self.0 ^= self.0 << 17;
        (self.0 % bound as u64) as usize
    }
}

fn number_of(variable: &str, otherwise: usize) -> usize {
    env::var(variable).map_or(otherwise, |number| {
        number.parse().expect("the variable is a number")
    })
}

/// Texts that all threads draw from, so that they meet. Some are long, one is empty.
fn spell(number: usize) -> String {
    match number {
        0 => String::new(),
        number if number % 97 == 0 => "long ß ".repeat(number),
        number => format!("text {number}"),
    }
}

static STATIC: LazyLock<Vec<&'static str>> =
    LazyLock::new(|| (0..3_000).map(|number| &*spell(number).leak()).collect());

/// What a thread was told: each text with its symbol, and where its bytes are.
type Told<'a> = HashMap<&'static str, (DefaultSymbol, &'a str)>;

/// Makes random calls, and compares each with what this thread was told before.
fn call<'a>(interner: &'a Interner, seed: u64, calls: usize) -> Told<'a> {
    let mut random = Random(seed);
    let mut told = Told::new();
    for _ in 0..calls {
        // Few texts at first, then all.
        let text = STATIC[random.below(STATIC.len().min(told.len() + 20))];
        let before = told.get(text).copied();
        let symbol = match random.below(8) {
            0 => interner.get(text),
            1 => interner.contains(text).then(|| interner.get(text).unwrap()),
            2 => Some(interner.get_or_intern_static(text)),
            3 => Some(interner.try_get_or_intern(text).unwrap()),
            4 if interner.len() < told.len() => panic!("texts were lost"),
            _ => Some(interner.get_or_intern(text)),
        };
        let Some(symbol) = symbol else {
            assert!(before.is_none(), "{text:?} was known");
            continue;
        };
        let lent = interner.resolve(symbol).unwrap();
        assert_eq!(lent, text);
        let (known, held) = *told.entry(text).or_insert((symbol, lent));
        // One symbol for one text, and its bytes stay where they were.
        assert!(known == symbol && held.as_ptr() == lent.as_ptr() && held == text);
    }
    told
}

/// Compares what all threads were told, and what the interner has at the end.
fn compare(interner: &Interner, all: &[Told]) {
    let mut symbols = HashMap::new();
    for told in all {
        for (text, (symbol, lent)) in told {
            assert_eq!(symbols.entry(*symbol).or_insert(*text), text);
            assert_eq!(lent, text);
            assert_eq!(interner.get(text), Some(*symbol));
        }
    }
    let listed: HashMap<DefaultSymbol, &str> = interner.iter().collect();
    assert_eq!(listed, symbols);
    assert_eq!(interner.len(), symbols.len());
    assert_eq!(interner.iter().count(), symbols.len());
    let distinct: HashSet<&str> = symbols.values().copied().collect();
    assert_eq!(distinct.len(), symbols.len());
    // Numbers are 0, 1, 2, .., in the order in which texts are yielded.
    let numbers = interner.iter().map(|(symbol, _)| symbol.to_usize());
    assert!(numbers.eq(0..interner.len()));
    let none = DefaultSymbol::try_from_usize(interner.len()).unwrap();
    assert_eq!(interner.resolve(none), None);
}

#[test]
fn threads_agree_with_a_list_of_distinct_texts() {
    let calls = number_of("RANDOM_CALLS", 40_000);
    let first = number_of("RANDOM_SEED", 1) as u64;
    for round in 0..3 {
        let interner = Interner::new();
        let start = Barrier::new(THREADS as usize);
        let all: Vec<Told> = thread::scope(|scope| {
            let run = |seed| {
                let (interner, start) = (&interner, &start);
                scope.spawn(move || {
                    start.wait();
                    call(interner, seed, calls)
                })
            };
            let seed_of =
                |thread: u64| (first + round * THREADS + thread).wrapping_mul(0x9E37_79B9) | 1;
            let threads: Vec<_> = (0..THREADS).map(|thread| run(seed_of(thread))).collect();
            threads.into_iter().map(|it| it.join().unwrap()).collect()
        });
        compare(&interner, &all);
    }
}

/// Each text is new, and all threads intern it at the same time.
#[test]
fn threads_race_for_each_text() {
    let interner = Interner::new();
    let start = Barrier::new(THREADS as usize);
    let intern = || {
        (0..300)
            .map(|number| {
                start.wait();
                interner.get_or_intern(spell(number))
            })
            .collect::<Vec<_>>()
    };
    let all = thread::scope(|scope| {
        let threads: Vec<_> = (0..THREADS).map(|_| scope.spawn(intern)).collect();
        threads
            .into_iter()
            .map(|it| it.join().unwrap())
            .collect::<Vec<_>>()
    });
    assert!(all.iter().all(|symbols| *symbols == all[0]));
    assert_eq!(interner.len(), 300);
}

/// Whoever is told how many texts there are finds each of them, also one that another thread is just adding.
#[test]
fn each_number_below_the_length_has_a_text() {
    const TEXTS: usize = 100_000;
    let interner = Interner::new();
    thread::scope(|scope| {
        for thread in 0..3 {
            let names = &interner;
            scope.spawn(move || {
                (0..TEXTS).for_each(|number| {
                    names.get_or_intern(format!("{thread} {number}"));
                })
            });
        }
        while interner.len() < 3 * TEXTS {
            let Some(last) = interner.len().checked_sub(1) else {
                continue;
            };
            let symbol = DefaultSymbol::try_from_usize(last).unwrap();
            assert!(interner.resolve(symbol).is_some(), "{last} has no text");
        }
    });
}

/// A text is read while so many others come that its shard moves all that it may move.
#[test]
fn a_text_is_lent_while_others_come() {
    let interner = Interner::new();
    let first = interner.resolve(interner.get_or_intern("first")).unwrap();
    let empty = interner.resolve(interner.get_or_intern("")).unwrap();
    thread::scope(|scope| {
        for thread in 0..2 {
            let names = &interner;
            scope.spawn(move || {
                (0..100_000).for_each(|number| {
                    names.get_or_intern(format!("{thread} {number}"));
                })
            });
        }
        for _ in 0..2 {
            scope.spawn(|| (0..100_000).for_each(|_| assert_eq!((first, empty), ("first", ""))));
        }
    });
    assert_eq!(interner.len(), 200_002);
    assert_eq!((first, empty), ("first", ""));
}

#[test]
fn in_an_arc_and_in_a_static() {
    static NAMES: Interner = Interner::new();
    let shared = Arc::new(Interner::from_iter(["Tiger", "Horse", "Tiger"]));
    let threads = [(); 3].map(|()| {
        let shared = Arc::clone(&shared);
        thread::spawn(move || (shared.get("Tiger"), NAMES.get_or_intern("Tiger")))
    });
    let found = threads.map(|it| it.join().unwrap());
    assert!(found[0].0.is_some() && found.iter().all(|it| *it == found[0]));
    let text: &'static str = NAMES.resolve(found[0].1).unwrap();
    assert_eq!(text, "Tiger");
}

/// A text that the interner lent is interned again, and so are its parts.
#[test]
fn parts_of_lent_texts() {
    let names: &'static Interner = Box::leak(Box::default());
    let mut lent = names.resolve(names.get_or_intern(spell(97 * 5))).unwrap();
    while let Some((end, _)) = lent.char_indices().last() {
        let part = names.resolve(names.get_or_intern(&lent[..end])).unwrap();
        let rest = names
            .resolve(names.get_or_intern_static(&lent[end..]))
            .unwrap();
        assert_eq!([part, rest].concat(), lent);
        assert_eq!(names.get(lent), Some(names.get_or_intern(lent)));
        lent = part;
    }
    assert!(names
        .iter()
        .all(|(symbol, text)| names.get(text) == Some(symbol)));
}

#[test]
fn symbols_that_have_no_text() {
    let interner = Interner::new();
    assert!(interner.is_empty() && interner.iter().next().is_none());
    let tiger = interner.get_or_intern("Tiger");
    for number in [0, 1, 15, 16, 4_294_967_294] {
        let symbol = DefaultSymbol::try_from_usize(number).unwrap();
        let found = interner.resolve(symbol);
        assert_eq!(found, (symbol == tiger).then_some("Tiger"));
    }
    assert_eq!(interner.get("Horse"), None);
    assert!(interner.contains("Tiger") && !interner.contains("Horse"));
}

#[test]
fn traits() {
    fn has_all<T: Send + Sync + Unpin + UnwindSafe + RefUnwindSafe + Default>() {}
    has_all::<Interner>();
    let mut interner = Interner::default();
    interner.extend(["Tiger"]);
    (&interner).extend([String::from("Horse"), String::from("Tiger")]);
    assert_eq!((&interner).into_iter().count(), 2);
    let shown = format!("{interner:?}");
    assert!(shown.contains(": \"Tiger\"") && shown.contains(": \"Horse\""));
}

/// A text that interns another one while it is read does so before any lock is held, and one that panics changes nothing.
#[test]
fn a_text_calls_back() {
    struct CallsBack<'a>(&'a Interner, bool);

    impl AsRef<str> for CallsBack<'_> {
        fn as_ref(&self) -> &str {
            self.0.get_or_intern("inner");
            assert!(self.1, "by intent");
            "outer"
        }
    }

    let interner = Interner::new();
    assert!(catch_unwind(|| interner.get_or_intern(CallsBack(&interner, false))).is_err());
    assert_eq!(interner.len(), 1);
    interner.get_or_intern(CallsBack(&interner, true));
    assert_eq!(interner.len(), 2);
}
