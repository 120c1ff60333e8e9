//! Each request for memory that a call makes is refused once. The call then fails, and all is as it was.

mod allocator;
mod common;

use std::panic::{catch_unwind, AssertUnwindSafe};

use allocator::REFUSED;
use common::Backend;
use string_interner::backend::{BucketBackend, BufferBackend, StringBackend};
use string_interner::symbol::SymbolUsize;
use string_interner::{InternError, JsonError, StringInterner};

/// Makes a call over and over, of which each time a later request is refused, until none is. Returns how many were.
fn refuse_each<T>(mut call: impl FnMut() -> T, mut check: impl FnMut(T)) -> usize {
    let mut number = 1;
    loop {
        REFUSED.set(number);
        let returned = call();
        let was_refused = REFUSED.replace(0) == 0;
        check(returned);
        if !was_refused {
            return number - 1;
        }
        number += 1;
    }
}

fn spell(number: usize) -> String {
    format!("{number} {}", "ß".repeat(number % 40))
}

fn holds<B: Backend>(interner: &StringInterner<B>, count: usize) {
    assert!(interner
        .iter()
        .map(|(_, text)| text)
        .eq((0..count).map(spell)));
    assert!(interner
        .iter()
        .all(|(symbol, text)| interner.get(text) == Some(symbol)));
    assert_eq!(interner.len(), count);
}

fn interning<B: Backend>() {
    let mut interner = StringInterner::<B>::new();
    let mut refusals = 0;
    for number in 0..300 {
        let text = spell(number);
        refusals += refuse_each(
            || interner.try_get_or_intern(&text),
            |returned| assert!(returned.is_ok() || returned == Err(InternError::Memory)),
        );
        if number % 20 == 0 {
            holds(&interner, number + 1);
        }
    }
    assert!(refusals > 9, "{refusals}");
    holds(&interner, 300);
}

/// A call that fails left the text out.
fn a_text_that_failed<B: Backend>() {
    let mut interner = StringInterner::<B>::new();
    for number in 0..200 {
        let text = spell(number);
        REFUSED.set(1);
        let returned = interner.try_get_or_intern(&text);
        if REFUSED.replace(0) == 0 {
            assert!(returned == Err(InternError::Memory));
            holds(&interner, number);
            assert!(interner.get(&text).is_none());
        }
        interner.get_or_intern(text);
    }
    holds(&interner, 200);
}

/// These panic where memory is refused.
fn other_calls<B: Backend>() {
    let mut interner: StringInterner<B> = (0..100).map(spell).collect();
    let copied = refuse_each(
        || catch_unwind(AssertUnwindSafe(|| interner.clone())),
        |copy| copy.iter().for_each(|copy| holds(copy, 100)),
    );
    holds(&interner, 100);
    let symbol = interner.get(spell(39)).unwrap();
    let part = refuse_each(
        || {
            catch_unwind(AssertUnwindSafe(|| {
                interner.get_or_intern_part(symbol, 1..31)
            }))
        },
        drop,
    );
    let truncated = refuse_each(
        || catch_unwind(AssertUnwindSafe(|| interner.truncate(100))),
        drop,
    );
    assert!(copied > 1 && part > 0 && truncated == 0);
    holds(&interner, 100);
    refuse_each(|| interner.shrink_to_fit(), |()| ());
    holds(&interner, 100);
    interner.get_or_intern(spell(100));
    holds(&interner, 101);
}

fn json<B: Backend>() {
    let interner: StringInterner<B> = (0..50).map(spell).collect();
    let json = interner.to_json();
    let refusals = refuse_each(
        || StringInterner::<B>::from_json(&json),
        |read| match read {
            Ok(read) => holds(&read, 50),
            Err(error) => assert_eq!(error, JsonError::Memory),
        },
    );
    assert!(refusals > 50);
}

macro_rules! over_each_backend {
    ($($name:ident)*) => {
        $(mod $name {
            #[test]
            fn over_each_backend() {
                super::$name::<super::StringBackend>();
                super::$name::<super::BucketBackend>();
                super::$name::<super::BufferBackend<super::SymbolUsize>>();
            }
        })*
    };
}

over_each_backend! {
    interning a_text_that_failed other_calls json
}
