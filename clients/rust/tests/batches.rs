//! Many texts at once: whatever an iterator or a text does, those before it are interned, and each once. In a large interner many wait
//! to be interned together, if no drop of an item can be seen.

mod common;

use common::Backend;
use string_interner::backend::{BucketBackend, BufferBackend, StringBackend};
use string_interner::symbol::{SymbolU16, SymbolU32};
use string_interner::sync::Interner;
use string_interner::{DefaultStringInterner, StringInterner, Symbol};

use std::cell::Cell;
use std::collections::HashMap;
use std::hash::{BuildHasher, DefaultHasher, Hasher};
use std::iter;
use std::panic::{catch_unwind, AssertUnwindSafe};
use std::rc::Rc;

fn spell(number: usize) -> String {
    format!("{number:x}").repeat(number % 5)
}

/// Texts of which many repeat, and one is empty.
fn spelled(count: usize) -> impl Iterator<Item = String> {
    (0..count).map(move |number| spell(number * 7 % (count / 2 + 1)))
}

/// The texts of an interner that interns these one after another, and their symbols.
fn one_by_one<B: Backend>(texts: impl Iterator<Item = String>) -> (StringInterner<B>, Vec<usize>) {
    let mut interner = StringInterner::<B>::new();
    let numbers = texts.map(|text| interner.get_or_intern(text).to_usize());
    let numbers = numbers.collect();
    (interner, numbers)
}

fn agree_with_single_calls<B: Backend>() {
    for count in [0, 1, 7, 8, 9, 127, 128, 129, 255, 256, 257, 1000] {
        let (wanted, numbers) = one_by_one::<B>(spelled(count));
        let mut extended = StringInterner::<B>::new();
        extended.extend(spelled(count));
        assert!(extended == wanted);
        let texts: Vec<String> = spelled(count).collect();
        let mut interned = StringInterner::<B>::new();
        let symbols = interned.intern_all(&texts);
        assert!(symbols.into_iter().map(Symbol::to_usize).eq(numbers));
        // Once more, and in parts, so that there is something already.
        let (first, second) = texts.split_at(count / 3);
        let mut parts = StringInterner::<B>::with_capacity(2);
        parts.extend(first);
        parts.extend(second.iter().filter(|_| true));
        parts.extend(&texts);
        assert!(
            interned == wanted && parts == wanted && StringInterner::from_iter(texts) == wanted
        );
        for (symbol, text) in &wanted {
            assert!(extended.resolve(symbol) == Some(text) && extended.get(text) == Some(symbol));
        }
    }
}

#[test]
fn over_each_backend() {
    agree_with_single_calls::<StringBackend>();
    agree_with_single_calls::<BucketBackend>();
    agree_with_single_calls::<BufferBackend>();
    agree_with_single_calls::<StringBackend<SymbolU16>>();
    agree_with_single_calls::<BucketBackend<usize>>();
}

/// A text in the value itself, so that it moves when the value does.
#[derive(Clone, Copy)]
struct Inline {
    bytes: [u8; 3],
    len: usize,
}

impl Inline {
    fn new(number: usize) -> Self {
        let bytes = [1, 26, 676].map(|divisor| b'a' + (number / divisor % 26) as u8);
        Inline {
            bytes,
            len: number % 4,
        }
    }
}

impl AsRef<str> for Inline {
    fn as_ref(&self) -> &str {
        std::str::from_utf8(&self.bytes[..self.len]).unwrap()
    }
}

#[test]
fn texts_in_the_values_themselves() {
    let items: Vec<Inline> = (0..3000).map(Inline::new).collect();
    let mut interner = DefaultStringInterner::default();
    interner.extend(items.iter().copied());
    let mut numbers: HashMap<&str, usize> = HashMap::new();
    for item in &items {
        let next = numbers.len();
        numbers.entry(item.as_ref()).or_insert(next);
    }
    assert_eq!(interner.len(), numbers.len());
    for (text, number) in numbers {
        assert_eq!(interner.get(text).map(Symbol::to_usize), Some(number));
    }
}

/// A text that panics when it is read or dropped at this place, and counts those that are there.
struct Counted {
    text: String,
    panics_when_read: bool,
    panics_when_dropped: bool,
    there: Rc<Cell<usize>>,
}

impl AsRef<str> for Counted {
    fn as_ref(&self) -> &str {
        assert!(!self.panics_when_read, "read");
        &self.text
    }
}

impl Drop for Counted {
    fn drop(&mut self) {
        self.there.set(self.there.get() - 1);
        assert!(!self.panics_when_dropped, "dropped");
    }
}

#[derive(Clone, Copy, PartialEq)]
enum Panics {
    Iterator,
    Text,
    Drop,
}

/// An item of which one at a place panics.
fn counted(place: usize, at: usize, what: Panics, there: &Rc<Cell<usize>>) -> Counted {
    assert!(what != Panics::Iterator || place != at, "iterator");
    there.set(there.get() + 1);
    Counted {
        text: spell(place),
        panics_when_read: what == Panics::Text && place == at,
        panics_when_dropped: what == Panics::Drop && place == at,
        there: Rc::clone(there),
    }
}

#[test]
fn what_panics_keeps_the_texts_before_it() {
    for at in [0, 1, 5, 127, 128, 129, 200, 399] {
        for what in [Panics::Iterator, Panics::Text, Panics::Drop] {
            let there = Rc::new(Cell::new(0));
            let items = (0..400).map(|place| counted(place, at, what, &there));
            let mut interner = DefaultStringInterner::default();
            let ended = catch_unwind(AssertUnwindSafe(|| interner.extend(items)));
            assert!(ended.is_err());
            assert_eq!(there.get(), 0);
            let (before, _) = one_by_one::<StringBackend>(spelled_up_to(at));
            let texts = interner.iter().map(|(_, text)| text);
            let wanted = before.iter().map(|(_, text)| text);
            if what == Panics::Drop {
                assert!(texts.take(before.len()).eq(wanted) && interner.get(spell(at)).is_some());
            } else {
                assert!(texts.eq(wanted));
            }
            interner.extend(spelled_up_to(400));
            assert!(interner == one_by_one(spelled_up_to(400)).0);
        }
    }
}

/// The same for an interner that threads share, in which all texts of a call wait for each other.
#[test]
fn what_panics_keeps_the_texts_before_it_in_a_shared_interner() {
    for at in [0, 1, 511, 512, 513, 1_023, 1_100] {
        for what in [Panics::Iterator, Panics::Text, Panics::Drop] {
            let there = Rc::new(Cell::new(0));
            let items = (0..1_200).map(|place| counted(place, at, what, &there));
            let shared = Interner::new();
            let ended = catch_unwind(AssertUnwindSafe(|| shared.intern_all(items)));
            assert!(ended.is_err());
            assert_eq!(there.get(), 0);
            let (before, _) = one_by_one::<StringBackend>(spelled_up_to(at));
            assert!(shared.iter().take(before.len()).eq(&before));
            // An item is dropped after the texts that waited with it are interned.
            match what {
                Panics::Drop => assert!(shared.contains(spell(at))),
                _ => assert_eq!(shared.len(), before.len()),
            }
            shared.intern_all(spelled_up_to(1_200));
            assert!(shared
                .iter()
                .eq(&one_by_one::<StringBackend>(spelled_up_to(1_200)).0));
        }
    }
}

fn spelled_up_to(count: usize) -> impl Iterator<Item = String> {
    (0..count).map(spell)
}

/// How many texts an interner has in which others wait to be interned together.
const LARGE: usize = 33_000;

fn large<B: Backend>() -> StringInterner<B> {
    let mut interner = StringInterner::new();
    for number in 0..LARGE {
        interner.get_or_intern(format!("old {number}"));
    }
    interner
}

/// Texts of which some are known, some repeat and one is empty, as many as fill several blocks.
fn old_and_new(count: usize) -> impl Iterator<Item = String> {
    (0..count).map(|number| match number % 5 {
        0 => spell(number),
        1 => format!("new {}", number / 3),
        _ => format!("old {}", number * 7919 % (LARGE + 99)),
    })
}

fn agree_in_a_large_interner<B: Backend>() {
    let interner = large::<B>();
    for count in [1, 127, 128, 129, 639, 640, 641, 5000] {
        let mut wanted = interner.clone();
        let symbols: Vec<_> = old_and_new(count)
            .map(|text| wanted.get_or_intern(text))
            .collect();
        let mut extended = interner.clone();
        extended.extend(old_and_new(count));
        let mut listed = interner.clone();
        assert!(listed.intern_all(old_and_new(count)) == symbols);
        let texts: Vec<String> = old_and_new(count).collect();
        let mut borrowed = interner.clone();
        borrowed.extend(&texts);
        // Items that are too large to wait.
        let mut moved = interner.clone();
        moved.extend(texts.iter().map(|text| Padded(text, [0; 4])));
        assert!(extended == wanted && listed == wanted && borrowed == wanted && moved == wanted);
        assert!(extended.intern_all(&texts) == symbols && extended == wanted);
        agree_when_shared(&interner, &wanted, &texts);
        for (text, symbol) in texts.iter().zip(symbols) {
            assert!(extended.get(text) == Some(symbol) && listed.resolve(symbol) == Some(text));
        }
    }
}

/// A shared interner with the texts of a plain one gives these texts the numbers that the other has.
fn agree_when_shared<B: Backend>(
    before: &StringInterner<B>,
    wanted: &StringInterner<B>,
    texts: &[String],
) {
    let shared: Interner = before.iter().map(|(_, text)| text).collect();
    let symbols = shared.intern_all(texts);
    assert!(shared
        .iter()
        .map(|(_, text)| text)
        .eq(wanted.iter().map(|(_, text)| text)));
    let resolved = symbols.iter().map(|symbol| &shared[*symbol]);
    assert!(resolved.eq(texts));
}

struct Padded<'a>(&'a str, [u64; 4]);

impl AsRef<str> for Padded<'_> {
    fn as_ref(&self) -> &str {
        assert_eq!(self.1, [0; 4]);
        self.0
    }
}

#[test]
fn in_a_large_interner_over_each_backend() {
    agree_in_a_large_interner::<StringBackend>();
    agree_in_a_large_interner::<BucketBackend>();
    agree_in_a_large_interner::<BufferBackend>();
    agree_in_a_large_interner::<StringBackend<SymbolU16>>();
    agree_in_a_large_interner::<BufferBackend<usize>>();
}

#[test]
fn what_panics_in_a_large_interner_keeps_the_texts_before_it() {
    let large = large::<StringBackend>();
    for at in [0, 127, 128, 129, 400, 639, 640, 641, 1100] {
        for what in [Panics::Iterator, Panics::Text, Panics::Drop] {
            let there = Rc::new(Cell::new(0));
            let items = || (0..1500).map(|place| counted(place, at, what, &there));
            let mut extended = large.clone();
            assert!(catch_unwind(AssertUnwindSafe(|| extended.extend(items()))).is_err());
            let mut listed = large.clone();
            assert!(catch_unwind(AssertUnwindSafe(|| listed.intern_all(items()))).is_err());
            assert_eq!(there.get(), 0);
            let mut wanted = large.clone();
            wanted.extend(spelled_up_to(at));
            if what == Panics::Drop {
                wanted.get_or_intern(spell(at));
            }
            for interner in [&mut extended, &mut listed] {
                // An item is dropped after the texts that waited with it are interned.
                assert!(interner.len() >= wanted.len());
                assert!(what == Panics::Drop || *interner == wanted);
                assert!(interner.iter().take(wanted.len()).eq(&wanted));
                interner.extend(spelled_up_to(1500));
            }
            wanted.extend(spelled_up_to(1500));
            assert!(extended == wanted && listed == wanted);
        }
    }
}

/// A text that waits, since no drop of it can be seen, and may panic when it is read.
struct Read<'a>(&'a str, bool);

impl AsRef<str> for Read<'_> {
    fn as_ref(&self) -> &str {
        assert!(!self.1, "read");
        self.0
    }
}

#[test]
fn what_panics_while_texts_wait_keeps_the_texts_before_it() {
    let large = large::<StringBackend>();
    let texts: Vec<String> = spelled_up_to(1500).collect();
    for at in [0, 127, 128, 129, 400, 639, 640, 641, 1100] {
        let mut wanted = large.clone();
        wanted.extend(spelled_up_to(at));
        for is_read in [false, true] {
            let items = || {
                texts.iter().enumerate().map(|(place, text)| {
                    assert!(is_read || place != at, "iterator");
                    Read(text, is_read && place == at)
                })
            };
            let mut extended = large.clone();
            assert!(catch_unwind(AssertUnwindSafe(|| extended.extend(items()))).is_err());
            let mut listed = large.clone();
            assert!(catch_unwind(AssertUnwindSafe(|| listed.intern_all(items()))).is_err());
            assert!(extended == wanted && listed == wanted);
            let shared = Interner::new();
            assert!(catch_unwind(AssertUnwindSafe(|| shared.intern_all(items()))).is_err());
            assert!(shared
                .iter()
                .eq(&one_by_one::<StringBackend>(spelled_up_to(at)).0));
        }
    }
}

/// Hashes as std does, and panics for one text.
#[derive(Clone, Default)]
struct Refusing(Rc<Cell<Option<&'static str>>>);

struct RefusingHasher(Option<&'static str>, DefaultHasher);

impl BuildHasher for Refusing {
    type Hasher = RefusingHasher;

    fn build_hasher(&self) -> RefusingHasher {
        RefusingHasher(self.0.get(), DefaultHasher::new())
    }
}

impl Hasher for RefusingHasher {
    fn write(&mut self, bytes: &[u8]) {
        assert!(self.0.map(str::as_bytes) != Some(bytes), "hasher");
        self.1.write(bytes);
    }

    fn finish(&self) -> u64 {
        self.1.finish()
    }
}

#[test]
fn a_hasher_that_panics_keeps_the_texts_before_it() {
    let refused = Refusing::default();
    let mut large = StringInterner::<StringBackend, Refusing>::with_hasher(refused.clone());
    large.extend((0..LARGE).map(|number| format!("old {number}")));
    for at in [127, 128, 150, 159, 400, 1000] {
        let texts: Vec<String> = old_and_new(2000)
            .enumerate()
            .map(|(place, text)| {
                if place == at {
                    "refused".to_string()
                } else {
                    text
                }
            })
            .collect();
        let mut wanted = large.clone();
        texts[..at]
            .iter()
            .for_each(|text| _ = wanted.get_or_intern(text));
        let mut extended = large.clone();
        refused.0.set(Some("refused"));
        assert!(catch_unwind(AssertUnwindSafe(|| extended.extend(&texts))).is_err());
        refused.0.set(None);
        assert!(extended == wanted && texts[..at].iter().all(|text| extended.get(text).is_some()));
        let shared = Interner::<SymbolU32, _>::with_hasher(refused.clone());
        refused.0.set(Some("refused"));
        assert!(catch_unwind(AssertUnwindSafe(|| shared.intern_all(&texts))).is_err());
        refused.0.set(None);
        assert!(
            texts[..at].iter().all(|text| shared.contains(text)) && !shared.contains("refused")
        );
    }
}

/// A text of which the next one that comes makes another.
struct Shown<'a>(&'a Cell<&'static str>);

impl AsRef<str> for Shown<'_> {
    fn as_ref(&self) -> &str {
        self.0.get()
    }
}

#[test]
fn a_text_is_read_before_the_next_one_comes() {
    let mut interner = large::<StringBackend>();
    let texts: Vec<&'static str> = old_and_new(2000).map(|text| &*text.leak()).collect();
    let shown = Cell::new("");
    let items = || {
        texts.iter().map(|text| {
            shown.set(text);
            Shown(&shown)
        })
    };
    let mut wanted = interner.clone();
    let symbols: Vec<_> = texts
        .iter()
        .map(|text| wanted.get_or_intern(text))
        .collect();
    assert!(interner.clone().intern_all(items()) == symbols);
    interner.extend(items());
    assert!(interner == wanted);
    let shared = Interner::new();
    let resolved = shared
        .intern_all(items())
        .into_iter()
        .map(|symbol| &shared[symbol]);
    assert!(resolved.eq(texts.iter().copied()));
}

/// A text that takes a place until it is dropped.
struct Placed<'a>(String, &'a Cell<usize>);

impl AsRef<str> for Placed<'_> {
    fn as_ref(&self) -> &str {
        &self.0
    }
}

impl Drop for Placed<'_> {
    fn drop(&mut self) {
        self.1.set(self.1.get() + 1);
    }
}

/// A text in a value that takes much room.
struct Large([u8; 8192]);

impl AsRef<str> for Large {
    fn as_ref(&self) -> &str {
        std::str::from_utf8(&self.0[..4]).unwrap()
    }
}

#[test]
fn large_items_take_no_more_of_the_stack() {
    let make = |number: usize| {
        let mut large = Large([b'0'; 8192]);
        large.0[..4].copy_from_slice(format!("{number:04}").as_bytes());
        large
    };
    let spawned = std::thread::Builder::new()
        .stack_size(1 << 19)
        .spawn(move || {
            let shared = Interner::new();
            assert_eq!(shared.intern_all((0..600).map(make)).len(), 600);
            let mut plain = large::<StringBackend>();
            plain.extend((0..600).map(make));
            assert_eq!((shared.len(), plain.len()), (600, LARGE + 600));
        });
    spawned.unwrap().join().unwrap();
}

/// An iterator may have no further item until one is dropped.
#[test]
fn an_item_is_dropped_before_the_next_one_comes() {
    let mut interner = large::<BufferBackend>();
    let free = Cell::new(1_usize);
    let items = || {
        old_and_new(2000).map(|text| {
            free.set(free.get().checked_sub(1).expect("a free place"));
            Placed(text, &free)
        })
    };
    interner.extend(items());
    assert_eq!(interner.intern_all(items()).len(), 2000);
    assert_eq!(Interner::new().intern_all(items()).len(), 2000);
}

/// A text that is another one each time that it is read.
struct Changes(Cell<usize>, [String; 2]);

impl AsRef<str> for Changes {
    fn as_ref(&self) -> &str {
        self.0.set(self.0.get() + 1);
        &self.1[(self.0.get() - 1).min(1)]
    }
}

#[test]
fn a_text_that_changes_is_read_once() {
    let mut interner = large::<BucketBackend>();
    let items: Vec<Changes> = (0..2000)
        .map(|number| {
            Changes(
                Cell::new(0),
                [format!("first {number}"), "second".to_string()],
            )
        })
        .collect();
    interner.extend(&mut items.iter().map(|item| item as &dyn AsRef<str>).map(Lent));
    assert!(items.iter().all(|item| item.0.get() == 1));
    assert_eq!(interner.len(), LARGE + 2000);
    let symbols = interner.intern_all(items.iter().map(|item| Lent(item)));
    let second = interner.get("second").unwrap();
    assert!(symbols.iter().all(|symbol| *symbol == second));
    assert_eq!(interner.len(), LARGE + 2001);
}

struct Lent<'a>(&'a dyn AsRef<str>);

impl AsRef<str> for Lent<'_> {
    fn as_ref(&self) -> &str {
        self.0.as_ref()
    }
}

/// An iterator that ends, and would yield more if it were asked again, as a channel may.
#[test]
fn an_iterator_that_ended_is_not_asked_again() {
    let mut interner = large::<StringBackend>();
    for count in [0, 100, 128, 640, 700] {
        let mut calls = 0;
        let texts: Vec<String> = (0..count)
            .map(|number| format!("{count} {number}"))
            .collect();
        let items = iter::from_fn(|| {
            calls += 1;
            (calls != count + 1).then(|| &texts[calls - 1])
        });
        interner.extend(items);
        assert_eq!(calls, count + 1);
    }
    assert_eq!(interner.len(), LARGE + 100 + 128 + 640 + 700);
}

/// Of 65,535 symbols the last goes to a text that waits with others.
#[test]
fn the_last_symbol_goes_to_a_text_that_waits() {
    type Few = StringInterner<StringBackend<SymbolU16>>;
    let left = usize::from(u16::MAX) - LARGE;
    let mut interner: Few = large();
    let texts: Vec<String> = (0..40_000).map(|number| format!("new {number}")).collect();
    let mut items = texts.iter();
    let ended = catch_unwind(AssertUnwindSafe(|| interner.extend(items.by_ref())));
    assert!(ended.is_err());
    assert_eq!(interner.len(), usize::from(u16::MAX));
    let last = interner.get(format!("new {}", left - 1)).unwrap();
    assert_eq!(last.to_usize(), usize::from(u16::MAX) - 1);
    // The iterator went on to no more than a block.
    let next: usize = items.next().unwrap()[4..].parse().unwrap();
    assert!(left < next && next <= left + 512);
    let listed = catch_unwind(AssertUnwindSafe(|| interner.intern_all(["old 1", "more"])));
    assert!(listed.is_err());
    interner.extend((0..LARGE).map(|number| format!("old {number}")));
}

/// An iterator that says of itself what is not so.
struct Lies<I>(I, (usize, Option<usize>));

impl<I: Iterator> Iterator for Lies<I> {
    type Item = I::Item;

    fn next(&mut self) -> Option<I::Item> {
        self.0.next()
    }

    fn size_hint(&self) -> (usize, Option<usize>) {
        self.1
    }
}

#[test]
fn an_iterator_may_lie_about_its_length() {
    let (wanted, _) = one_by_one::<StringBackend>(spelled(300));
    for hint in [
        (0, None),
        (0, Some(0)),
        (usize::MAX, None),
        (usize::MAX, Some(9)),
        (1000, Some(7)),
    ] {
        let mut interner = DefaultStringInterner::default();
        interner.extend(Lies(spelled(300), hint));
        assert!(interner == wanted);
        let mut interner = DefaultStringInterner::default();
        interner.extend(Lies(iter::empty::<&str>(), hint));
        assert!(interner.is_empty());
    }
}

#[test]
fn what_was_dropped_leaves_room() {
    let mut interner = DefaultStringInterner::default();
    for count in [300, 0, 12, 1000] {
        interner.extend(spelled(count));
        assert!(interner == one_by_one(spelled(count)).0);
        interner.truncate(0);
        assert!(interner.is_empty() && interner.get("").is_none());
    }
    let symbol = interner.get_or_intern("Tiger");
    interner.extend(spelled(9));
    assert_eq!(interner.resolve(symbol), Some("Tiger"));
}
