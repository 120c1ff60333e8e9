//! Backends alone, and types that are generic over them.

use string_interner::backend::{Backend, BucketBackend, BufferBackend, StringBackend};
use string_interner::symbol::SymbolU16;
use string_interner::{DefaultBackend, DefaultStringInterner, StringInterner, Symbol};

const TEXTS: [&str; 4] = ["Tiger", "", "語", "a\0b"];

fn fill<B: Backend>() -> B {
    let mut backend = B::with_capacity(2);
    for text in TEXTS {
        backend.intern(text);
    }
    backend
}

fn texts<B: Backend>(backend: &B) -> Vec<&str> {
    backend.iter().map(|(_, text)| text).collect()
}

fn alone<B: Backend + Clone + Eq>()
where
    for<'a> &'a B: IntoIterator<Item = (B::Symbol, &'a str)>,
{
    let mut backend = fill::<B>();
    for (symbol, text) in &backend {
        assert_eq!(backend.resolve(symbol), Some(text));
        // SAFETY: the symbol is of this backend.
        assert_eq!(unsafe { backend.resolve_unchecked(symbol) }, text);
    }
    assert_eq!(texts(&backend), TEXTS);

    let copy = backend.clone();
    let last = backend.intern_static("last");
    // A backend alone stores also a text that it has.
    let again = backend.intern("last");
    assert!(again != last && backend.resolve(again) == Some("last"));
    assert!(backend != copy && copy == fill() && copy != B::default());
    backend.shrink_to_fit();
    assert_eq!(backend.iter().count(), 6);
    assert_eq!(backend.resolve(last), Some("last"));
    assert_eq!(copy.resolve(last), None);
    assert_eq!(texts(&copy), TEXTS);
    assert!(texts(&B::default()).is_empty());
}

#[test]
fn each_backend_alone() {
    alone::<StringBackend>();
    alone::<BucketBackend<SymbolU16>>();
    alone::<BufferBackend<usize>>();
}

/// An interner and a walk over it, as a generic type has them.
struct Names<B: Backend> {
    interner: StringInterner<B>,
}

struct Walk<'a, B: Backend + 'a> {
    rest: B::Iter<'a>,
}

impl<B: Backend> Names<B> {
    fn add(&mut self, text: &str) -> B::Symbol {
        self.interner.get_or_intern(text)
    }

    fn walk(&self) -> Walk<'_, B> {
        let rest = self.interner.iter();
        Walk { rest }
    }
}

impl<B: Backend + Clone> Clone for Names<B> {
    fn clone(&self) -> Self {
        let interner = self.interner.clone();
        Names { interner }
    }
}

fn in_a_generic_type<B: Backend + Clone>() {
    let interner = StringInterner::new();
    let mut names = Names::<B> { interner };
    let tiger = names.add("Tiger");
    let copy = names.clone();
    assert!(names.add("Tiger") == tiger && names.add("Horse") != tiger);
    assert!(names.walk().rest.eq([
        (tiger, "Tiger"),
        (names.interner.get("Horse").unwrap(), "Horse")
    ]));
    assert!((&copy.interner).into_iter().eq([(tiger, "Tiger")]));
}

#[test]
fn each_backend_in_a_generic_type() {
    in_a_generic_type::<StringBackend>();
    in_a_generic_type::<BucketBackend>();
    in_a_generic_type::<BufferBackend>();
}

#[test]
fn the_default_backend() {
    fn of_an_interner<B: Backend>(_: &StringInterner<B>) -> B {
        B::default()
    }
    let mut backend: DefaultBackend = of_an_interner(&DefaultStringInterner::new());
    assert_eq!(backend.intern("a").to_usize(), 0);
}
