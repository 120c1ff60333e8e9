//! Threads that read one interner at the same time, in each way in which Rust shares a value.

use std::panic::{catch_unwind, RefUnwindSafe, UnwindSafe};
use std::sync::{Arc, LazyLock, OnceLock, RwLock};
use std::thread;

mod common;

use common::Backend;
use string_interner::backend::{BucketBackend, BufferBackend, StringBackend};
use string_interner::{DefaultStringInterner, StringInterner};

const TEXTS: usize = 2_000;

fn spell(i: usize) -> String {
    format!("text number {i}")
}

fn fill<B: Backend>() -> StringInterner<B> {
    (0..TEXTS).map(spell).collect()
}

/// Makes all calls that only read, and compares what they return with what `fill` put in.
fn read<B: Backend>(interner: &StringInterner<B>) {
    assert_eq!(interner.len(), TEXTS);
    for (i, (symbol, text)) in interner.iter().enumerate() {
        assert_eq!(text, spell(i));
        assert!(interner.get(text) == Some(symbol));
        assert_eq!(interner.resolve(symbol), Some(text));
    }
    assert!(interner.get("no text").is_none());
    let copy = interner.clone();
    assert!(copy == *interner && copy.to_json() == interner.to_json());
}

fn in_scope<B: Backend>() {
    let interner = fill::<B>();
    thread::scope(|scope| {
        for _ in 0..3 {
            scope.spawn(|| read(&interner));
        }
    });
    read(&interner);
}

fn by_arc<B: Backend + 'static>() {
    let interner = Arc::new(fill::<B>());
    let readers = [(); 3].map(|()| {
        let shared = Arc::clone(&interner);
        thread::spawn(move || read(&shared))
    });
    read(&interner);
    for reader in readers {
        reader.join().unwrap();
    }
}

/// Readers come between writers, and find all that was put in before.
fn behind_a_lock<B: Backend>() {
    let interner = RwLock::new(StringInterner::<B>::new());
    thread::scope(|scope| {
        scope.spawn(|| {
            for i in 0..TEXTS {
                interner.write().unwrap().get_or_intern(spell(i));
            }
        });
        for _ in 0..2 {
            scope.spawn(|| loop {
                let shared = interner.read().unwrap();
                match shared.len() {
                    0 => continue,
                    len => assert!(shared.get(spell(len - 1)).is_some()),
                }
                if shared.len() == TEXTS {
                    break read(&shared);
                }
            });
        }
    });
}

/// Other threads read what the interner lent, while its owner makes calls that only read.
fn lent_texts<B: Backend>() {
    let interner = fill::<B>();
    let lent: Vec<&str> = interner.iter().map(|(_, text)| text).collect();
    thread::scope(|scope| {
        for _ in 0..2 {
            scope.spawn(|| assert!(lent.iter().enumerate().all(|(i, text)| *text == spell(i))));
        }
        read(&interner);
    });
}

fn caught_panics<B: Backend>() {
    let interner = fill::<B>();
    let panicked = catch_unwind(|| interner.get("text number 7").is_some() && panic!("by intent"));
    assert!(panicked.is_err());
    read(&interner);
}

macro_rules! over_each_backend {
    ($($name:ident)*) => {
        $(mod $name {
            #[test]
            fn over_each_backend() {
                super::$name::<super::StringBackend>();
                super::$name::<super::BucketBackend>();
                super::$name::<super::BufferBackend>();
            }
        })*
    };
}

over_each_backend! {
    in_scope by_arc behind_a_lock lent_texts caught_panics
}

#[test]
fn statics() {
    static ONCE: OnceLock<DefaultStringInterner> = OnceLock::new();
    static LOCKED: LazyLock<RwLock<DefaultStringInterner>> = LazyLock::new(RwLock::default);
    thread::scope(|scope| {
        for _ in 0..3 {
            scope.spawn(|| read(ONCE.get_or_init(fill)));
        }
    });
    LOCKED.write().unwrap().extend((0..TEXTS).map(spell));
    read(&LOCKED.read().unwrap());
}

#[test]
fn marker_traits() {
    fn has_all<T: Send + Sync + Unpin + UnwindSafe + RefUnwindSafe>() {}
    has_all::<DefaultStringInterner>();
    has_all::<StringInterner<BucketBackend>>();
    has_all::<StringInterner<BufferBackend>>();
    has_all::<StringBackend>();
    has_all::<BucketBackend>();
    has_all::<BufferBackend>();
}

#[test]
fn iterators_go_to_other_threads() {
    fn is_sent<T: Send + Sync>() {}
    is_sent::<<StringBackend as string_interner::backend::Backend>::Iter<'static>>();
    is_sent::<<BucketBackend as string_interner::backend::Backend>::Iter<'static>>();
    is_sent::<<BufferBackend as string_interner::backend::Backend>::Iter<'static>>();
}
