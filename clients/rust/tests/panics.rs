//! A panic names the line of the caller.

use std::cell::RefCell;
use std::panic::{catch_unwind, set_hook, take_hook, AssertUnwindSafe};

use string_interner::backend::{Backend, BufferBackend, StringBackend};
use string_interner::hasher::FixedHashBuilder;
use string_interner::sync::Interner;
use string_interner::{DefaultSymbol, StringInterner, Symbol};

/// A symbol that stands for no text.
#[derive(Clone, Copy, Debug, PartialEq, Eq)]
enum Never {}

impl Symbol for Never {
    fn try_from_usize(_: usize) -> Option<Self> {
        None
    }

    fn to_usize(self) -> usize {
        match self {}
    }
}

mod kw {
    string_interner::keywords! { A = "a", B = "b" }
}

thread_local! {
    static PLACES: RefCell<Vec<String>> = const { RefCell::new(Vec::new()) };
}

/// Keeps where each panic of this thread is said to have happened, and says nothing.
fn keep_places() {
    set_hook(Box::new(|info| {
        let place = info
            .location()
            .map_or_else(String::new, |at| format!("{}:{}", at.file(), at.line()));
        PLACES.with_borrow_mut(|places| places.push(place));
    }));
}

/// Makes a call that panics, and returns where it stands, and where the panic is said to have happened.
macro_rules! places_of {
    ($call:expr) => {{
        let panicked = catch_unwind(AssertUnwindSafe(|| {
            let _ = $call;
        }))
        .is_err();
        let told = PLACES.with_borrow_mut(Vec::pop);
        (
            panicked,
            format!("{}:{}", file!(), line!()),
            told.unwrap_or_default(),
        )
    }};
}

#[test]
fn panics_name_the_caller() {
    keep_places();
    let mut interner = StringInterner::<StringBackend<Never>>::new();
    let mut backend = StringBackend::<Never>::default();
    let unknown = DefaultSymbol::try_from_usize(0).unwrap();
    let places = [
        places_of!(interner.get_or_intern("a")),
        places_of!(interner.get_or_intern_static("a")),
        places_of!(interner.extend(["a"])),
        places_of!(interner.intern_all(["a"])),
        places_of!(StringInterner::<StringBackend>::with_capacity(usize::MAX)),
        places_of!(Interner::with_capacity(usize::MAX)),
        places_of!(StringInterner::default()[unknown].len()),
        places_of!(Interner::new()[unknown].len()),
        places_of!(Interner::<Never, FixedHashBuilder>::from_iter(["a"])),
        places_of!(Interner::<Never, FixedHashBuilder>::default().intern_all(["a"])),
        places_of!(StringInterner::<BufferBackend>::new().intern_keywords(kw::KEYWORDS)),
        places_of!(Interner::from_iter(["b"]).intern_keywords(kw::KEYWORDS)),
        places_of!(backend.intern("a")),
        places_of!(backend.intern_static("a")),
        places_of!(StringBackend::<Never>::with_capacity(usize::MAX)),
    ];
    drop(take_hook());
    for (panicked, here, told) in places {
        assert!(panicked);
        assert_eq!(told, here);
    }
}
