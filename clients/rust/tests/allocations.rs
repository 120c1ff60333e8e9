//! Calls that ask the allocator for nothing, and how much more than its texts a shared interner holds.

mod allocator;
mod common;

use allocator::{HELD, REQUESTS};
use common::Backend;
use string_interner::backend::{BucketBackend, BufferBackend, StringBackend};
use string_interner::hasher::FixedHashBuilder;
use string_interner::symbol::SymbolUsize;
use string_interner::sync::Interner;
use string_interner::{DefaultSymbol, StringInterner};

/// Returns how often the call asked for memory, with what it returned.
fn count_requests<T>(call: impl FnOnce() -> T) -> (usize, T) {
    let before = REQUESTS.get();
    let returned = call();
    (REQUESTS.get() - before, returned)
}

/// A text is not copied when it is looked for, not even while another one is lent.
fn look_up<B: Backend>() {
    let long = "long ".repeat(100);
    let interner: StringInterner<B> = ["Tiger", &long].into_iter().collect();
    let symbol = interner.get(&long).unwrap();
    let lent = interner.resolve(symbol).unwrap();
    assert_eq!(lent, long);
    let (requests, found) = count_requests(|| interner.get(lent));
    assert!(found == Some(symbol));
    assert_eq!(requests, 0);
}

/// A walk takes no memory, however far it goes.
fn walk<B: Backend>() {
    let interner: StringInterner<B> = (0..1_000).map(|i| i.to_string()).collect();
    assert_eq!(
        count_requests(|| interner.iter().next().unwrap().1),
        (0, "0")
    );
    assert_eq!(count_requests(|| interner.iter().take(9).count()), (0, 9));
    let (requests, found) = count_requests(|| interner.iter().find(|(_, text)| *text == "99"));
    assert!(found == interner.get("99").map(|symbol| (symbol, "99")));
    assert_eq!(requests, 0);
}

#[test]
fn walk_over_each_backend() {
    walk::<StringBackend>();
    walk::<BucketBackend>();
    walk::<BufferBackend>();
}

#[test]
fn look_up_over_each_backend() {
    look_up::<StringBackend>();
    look_up::<BucketBackend>();
    look_up::<BufferBackend>();
}

/// Of the blocks in which a shared interner stores texts little is spare, whatever their length.
#[test]
fn blocks_of_a_shared_interner() {
    for len in [1_000, 2_000, 2_050, 5_500, 8_200, 16_000, 40_000] {
        let (before, names) = (HELD.get(), Interner::new());
        let (count, end) = (20_000_000 / len, "x".repeat(len - 9));
        for number in 0..count {
            names.get_or_intern(format!("{number:09}{end}"));
        }
        let held = (HELD.get() - before) as f64 / (len * count) as f64;
        assert!(held < 1.25, "{held} bytes for each byte of texts of {len}");
    }
}

/// What an interner says of its memory is what it asked for.
#[test]
fn memory_of_a_plain_interner() {
    fn check<B: Backend>() {
        let before = HELD.get();
        let mut names = StringInterner::<B, _>::with_hasher(FixedHashBuilder);
        for count in [0, 1, 7, 8, 100, 10_000] {
            (names.len()..count).for_each(|i| _ = names.get_or_intern(format!("text {i}")));
            let held = usize::try_from(HELD.get() - before).unwrap();
            assert_eq!((names.len(), names.memory_used()), (count, held));
        }
        names.shrink_to_fit();
        let held = usize::try_from(HELD.get() - before).unwrap();
        assert_eq!(names.memory_used(), held);
    }
    check::<StringBackend>();
    check::<StringBackend<SymbolUsize>>();
    check::<BucketBackend>();
    check::<BufferBackend>();
}

/// A shared interner of few texts takes at most three times the memory of a plain one, where it lies and on the heap.
#[test]
fn few_texts_of_a_shared_interner() {
    let texts: Vec<String> = (0..100).map(|i| format!("text {:04}", i * i)).collect();
    let before = HELD.get();
    let mut plain = StringInterner::<StringBackend, _>::with_hasher(FixedHashBuilder);
    let plain_size = size_of_val(&plain);
    texts.iter().for_each(|text| _ = plain.get_or_intern(text));
    let of_plain = plain_size + usize::try_from(HELD.get() - before).unwrap();
    let before = HELD.get();
    let shared = Interner::<DefaultSymbol, _>::with_hasher(FixedHashBuilder);
    assert_eq!(HELD.get(), before);
    texts.iter().for_each(|text| _ = shared.get_or_intern(text));
    let held = usize::try_from(HELD.get() - before).unwrap();
    assert_eq!(held, shared.memory_used());
    let of_shared = size_of_val(&shared) + held;
    println!(
        "{of_plain} {of_shared}, {} of which where it lies",
        size_of_val(&shared)
    );
    assert!(of_shared <= 3 * of_plain, "{of_shared} and {of_plain}");
}

/// For texts that are not copied, an interner with capacity asks for nothing more until there are so many.
#[test]
fn capacity_of_a_shared_interner() {
    let texts: Vec<&'static str> = (0..40_000).map(|i| &*i.to_string().leak()).collect();
    for capacity in [1, 63, 1_000, 9_999, 40_000] {
        let names =
            Interner::<DefaultSymbol, _>::with_capacity_and_hasher(capacity, FixedHashBuilder);
        let (requests, ()) = count_requests(|| {
            texts[..capacity].iter().for_each(|text| {
                names.get_or_intern_static(text);
            })
        });
        assert_eq!((requests, names.len()), (0, capacity));
    }
    let (of_none, _) = count_requests(|| Interner::with_capacity(0));
    assert_eq!(of_none, count_requests(Interner::new).0);
}

#[test]
fn requests_are_counted() {
    assert_eq!(count_requests(|| Box::new(7)).0, 1);
}
