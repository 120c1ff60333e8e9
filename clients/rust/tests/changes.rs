//! Texts that are read after each kind of change, by several threads at once, beside a list. An interner keeps where its texts
//! are until it changes, so what it kept before a change must not be read after it.

use std::panic::{catch_unwind, AssertUnwindSafe};
use std::thread;

mod common;

use common::Backend;
use string_interner::backend::{BucketBackend, BufferBackend, StringBackend};
use string_interner::symbol::{SymbolU16, SymbolU32, SymbolUsize};
use string_interner::{InternError, StringInterner, Symbol};

/// An interner, with what it must hold.
struct Beside<B: Backend> {
    interner: StringInterner<B>,
    texts: Vec<String>,
    symbols: Vec<B::Symbol>,
}

/// A text of any length up to 40 bytes. So the texts move at many different changes.
fn spell(i: usize) -> String {
    format!("{i}{}", "ß".repeat(i * 7 % 17))
}

impl<B: Backend> Beside<B>
where
    B::Symbol: Send + Sync,
{
    fn new() -> Self {
        Beside {
            interner: StringInterner::new(),
            texts: Vec::new(),
            symbols: Vec::new(),
        }
    }

    /// Interns a text that is new.
    fn intern(&mut self, text: String) {
        self.symbols.push(self.interner.get_or_intern(&text));
        self.texts.push(text);
    }

    /// Drops texts, of which none is read then.
    fn truncate(&mut self, len: usize) {
        self.interner.truncate(len);
        self.texts.truncate(len);
        for dropped in self.symbols.drain(len..) {
            assert_eq!(self.interner.resolve(dropped), None);
        }
    }

    /// Compares all texts with the list, in each way in which they are read.
    fn read(&self) {
        let Beside {
            interner,
            texts,
            symbols,
        } = self;
        // The oldest come first, which what was kept before a change would still have.
        for (symbol, text) in symbols.iter().zip(texts) {
            assert_eq!(interner.resolve(*symbol), Some(&**text));
            // SAFETY: the symbol is of this interner.
            assert_eq!(unsafe { interner.resolve_unchecked(*symbol) }, text);
        }
        assert!(interner.iter().map(|(_, text)| text).eq(texts));
        let mut walk = interner.iter();
        for (i, (symbol, text)) in symbols.iter().zip(texts).enumerate() {
            assert_eq!(walk.len(), texts.len() - i);
            assert!(walk.next() == Some((*symbol, &**text)));
        }
        assert!(walk.next().is_none() && walk.len() == 0);
    }

    /// The same by four threads, which begin while nothing was read yet.
    fn read_by_threads(&self) {
        thread::scope(|scope| {
            for _ in 0..3 {
                scope.spawn(|| self.read());
            }
            self.read();
        });
    }

    /// Reads all, makes a change, and reads all again.
    fn change(&mut self, change: impl FnOnce(&mut Self)) {
        self.read();
        self.read();
        change(self);
        self.read_by_threads();
    }
}

/// A call that interns a text, and returns its symbol.
type Call<B> =
    fn(&mut StringInterner<B>, String) -> <B as string_interner::backend::Backend>::Symbol;

/// Each call that interns, so often that each moves the texts.
fn after_texts_come<B: Backend>()
where
    B::Symbol: Send + Sync,
{
    let calls: [Call<B>; 6] = [
        |interner, text| interner.get_or_intern(text),
        |interner, text| interner.try_get_or_intern(text).unwrap(),
        |interner, text| interner.get_or_intern_static(text.leak()),
        |interner, text| interner.try_get_or_intern_static(text.leak()).unwrap(),
        |interner, text| interner.intern_all([text])[0],
        |interner, text| {
            interner.extend([&text]);
            interner.get(text).unwrap()
        },
    ];
    for call in calls {
        let mut beside = Beside::<B>::new();
        for i in 0..100 {
            beside.change(|it| {
                it.texts.push(spell(i));
                it.symbols.push(call(&mut it.interner, spell(i)));
            });
        }
        beside.change(|it| assert!(call(&mut it.interner, spell(7)) == it.symbols[7]));
    }
}

/// Parts of texts are interned, so often that this moves the texts.
fn after_parts_come<B: Backend>()
where
    B::Symbol: Send + Sync,
{
    let mut beside = Beside::<B>::new();
    for i in 0..100 {
        let text = spell(i);
        beside.intern(format!("{text}!"));
        beside.change(|it| {
            let part = it
                .interner
                .get_or_intern_part(it.symbols[2 * i], ..text.len());
            it.symbols.push(part.unwrap());
            it.texts.push(text);
        });
    }
}

fn after_texts_go<B: Backend>()
where
    B::Symbol: Send + Sync,
{
    let mut beside = Beside::<B>::new();
    (0..100).for_each(|i| beside.intern(spell(i)));
    beside.change(|it| it.interner.shrink_to_fit());
    for len in [99, 50, 49, 1] {
        beside.change(|it| it.truncate(len));
        // Another text has the number of one that was dropped.
        beside.change(|it| it.intern(format!("in the place of {len}")));
        beside.change(|it| {
            it.truncate(len - 1);
            it.intern(format!(
                "a text of another length, in the place before {len}"
            ));
        });
        beside.change(|it| it.interner.shrink_to_fit());
    }
    beside.change(|it| it.truncate(0));
    beside.change(|it| it.intern("the only one".into()));
}

/// A copy and what it was copied from go on by themselves.
fn after_a_copy<B: Backend>()
where
    B::Symbol: Send + Sync,
{
    let mut beside = Beside::<B>::new();
    (0..100).for_each(|i| beside.intern(spell(i)));
    beside.read_by_threads();
    let mut copy = Beside {
        interner: beside.interner.clone(),
        texts: beside.texts.clone(),
        symbols: beside.symbols.clone(),
    };
    copy.read_by_threads();
    beside.change(|it| it.intern("in the first".into()));
    copy.change(|it| it.intern("in the copy".into()));
    beside.read();
    beside.change(|it| {
        it.interner = copy.interner.clone();
        it.texts.clone_from(&copy.texts);
        it.symbols.clone_from(&copy.symbols);
    });
    drop(beside);
    copy.read_by_threads();
}

/// A call that fails, with an error or with a panic in the middle of it.
fn after_a_failed_call<B: Backend<Symbol = SymbolU16>>() {
    let mut beside = Beside::<B>::new();
    let texts = ["p", "q", "r"]
        .into_iter()
        .inspect(|text| assert_ne!(*text, "q", "by intent"));
    beside.change(|it| {
        assert!(catch_unwind(AssertUnwindSafe(|| it.interner.extend(texts))).is_err());
        it.symbols.push(it.interner.get("p").unwrap());
        it.texts.push("p".into());
    });
    // On a buffer the numbers run out by one text.
    beside.change(|it| it.intern("long".repeat(20_000)));
    let mut texts = (0..).map(|i| i.to_string());
    let error = loop {
        let text = texts.next().unwrap();
        match beside.interner.try_get_or_intern(&text) {
            Ok(symbol) => beside.symbols.push(symbol),
            Err(error) => break error,
        }
        beside.texts.push(text);
    };
    assert_eq!(error, InternError::NoSymbol);
    beside.change(|it| {
        assert_eq!(
            it.interner.try_get_or_intern("new"),
            Err(InternError::NoSymbol)
        );
        assert!(catch_unwind(AssertUnwindSafe(|| it.interner.get_or_intern("new"))).is_err());
    });
}

macro_rules! over_each_backend {
    ($($name:ident)*) => {
        $(mod $name {
            use super::*;

            #[test]
            fn over_each_backend() {
                super::$name::<StringBackend<SymbolU32>>();
                super::$name::<StringBackend<SymbolU16>>();
                super::$name::<BucketBackend<SymbolUsize>>();
                super::$name::<BufferBackend<usize>>();
            }
        })*
    };
}

over_each_backend! {
    after_texts_come after_parts_come after_texts_go after_a_copy
}

#[test]
fn a_failed_call() {
    after_a_failed_call::<StringBackend<SymbolU16>>();
    after_a_failed_call::<BucketBackend<SymbolU16>>();
    after_a_failed_call::<BufferBackend<SymbolU16>>();
}

/// Numbers that no text has, which the list of ends is too short for.
#[test]
fn numbers_without_a_text() {
    let mut interner = StringInterner::<StringBackend<usize>>::new();
    let ways = |interner: &StringInterner<StringBackend<usize>>, len: usize| {
        for number in [
            len,
            len + 1,
            1 << 20,
            u32::MAX as usize,
            1 << (usize::BITS / 2),
            1 << (usize::BITS - 2),
            usize::MAX,
        ] {
            assert_eq!(interner.resolve(number), None);
            assert_eq!(
                len.checked_sub(1)
                    .and_then(|last| interner.resolve(last))
                    .is_some(),
                len > 0
            );
        }
    };
    for i in 0..9 {
        ways(&interner, i);
        assert_eq!(interner.get_or_intern(spell(i)).to_usize(), i);
        ways(&interner, i + 1);
    }
}
