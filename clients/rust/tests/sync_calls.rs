//! What a shared interner has beside that threads share it: symbols in order, types of symbols and hashers, long and static texts,
//! iterating, and making a plain interner of it.

use std::cell::Cell;
use std::hash::{BuildHasher, BuildHasherDefault, DefaultHasher, Hasher, RandomState};
use std::panic::catch_unwind;
use std::thread;

use string_interner::backend::{Backend, BucketBackend, StringBackend};
use string_interner::hasher::FixedHashBuilder;
use string_interner::symbol::{SymbolU16, SymbolUsize};
use string_interner::sync::Interner;
use string_interner::{DefaultHashBuilder, DefaultSymbol, InternError, StringInterner, Symbol};

/// Texts with repeats, of which some are too long for an entry of the table.
fn spell(number: usize) -> String {
    match number % 500 {
        0 => "long ".repeat(13_106 + number / 500),
        1 => "x".repeat(65_533 + number / 500),
        _ => (number * number % 3_000).to_string(),
    }
}

/// One thread gets the symbols of a plain interner, by each call.
fn counts_up<S: Symbol + std::fmt::Debug, H: BuildHasher + Default>() {
    let mut plain = StringInterner::<StringBackend<S>, H>::new();
    let shared = Interner::<S, H>::with_hasher(H::default());
    let mut alone = Interner::<S, H>::with_hasher(H::default());
    for text in (0..4_000).map(spell) {
        let known = plain.get(&text);
        assert_eq!(shared.get(&text), known);
        let symbol = plain.get_or_intern(&text);
        assert_eq!(shared.get_or_intern(&text), symbol);
        assert_eq!(shared.try_get_or_intern(&text), Ok(symbol));
        alone.extend([&text]);
        assert_eq!(alone.get(&text), Some(symbol));
        assert_eq!(alone.resolve(symbol), Some(&*text));
    }
    alone.shrink_to_fit();
    let mut again = Interner::<S, H>::with_hasher(H::default());
    again.extend(plain.iter().map(|(_, text)| text));
    for names in [&shared, &alone, &again] {
        assert!(names.iter().eq(&plain) && names.len() == plain.len());
        assert!(names
            .iter()
            .all(|(symbol, text)| names.get(text) == Some(symbol)));
    }
    assert!(shared.into_interner() == plain);
    assert!(alone.into_backend().iter().eq(plain.iter()));
}

/// A hasher with one code for all texts.
#[derive(Default)]
struct Constant;

impl Hasher for Constant {
    fn write(&mut self, _: &[u8]) {}

    fn finish(&self) -> u64 {
        7
    }
}

/// A hasher whose codes have the same low bits, so that all texts of a shard have one home.
#[derive(Default)]
struct SameLowBits(u64);

impl Hasher for SameLowBits {
    fn write(&mut self, bytes: &[u8]) {
        for byte in bytes {
            self.0 = self.0.wrapping_mul(31).wrapping_add(u64::from(*byte));
        }
    }

    fn finish(&self) -> u64 {
        self.0 << 8
    }
}

/// A hasher that puts nearly all texts into one shard.
#[derive(Default)]
struct OneShard(u64);

impl Hasher for OneShard {
    fn write(&mut self, bytes: &[u8]) {
        for byte in bytes {
            self.0 = (self.0 ^ u64::from(*byte)).wrapping_mul(0x100_0000_01B3);
        }
    }

    fn finish(&self) -> u64 {
        let code = self.0 ^ self.0 >> 29;
        match code % 1_000 {
            0 => code | 31 << 59,
            _ => code & !(31 << 59),
        }
    }
}

/// Each text is found that was interned.
fn all_are_found<H: BuildHasher + Default>(count: usize) {
    let names = Interner::<DefaultSymbol, H>::with_hasher(H::default());
    let spell = |number: usize| format!("text{number}");
    let symbols: Vec<_> = (0..count)
        .map(|number| names.get_or_intern(spell(number)))
        .collect();
    let is_found = |number: &usize| names.get(spell(*number)) == Some(symbols[*number]);
    let denied: Vec<_> = (0..count).filter(|number| !is_found(number)).collect();
    assert_eq!(denied, []);
    assert!((0..count).all(|number| names.contains(spell(number))));
    assert!((count..2 * count).all(|number| names.get(spell(number)).is_none()));
}

#[test]
fn many_texts_are_found() {
    all_are_found::<FixedHashBuilder>(100_000);
    all_are_found::<DefaultHashBuilder>(100_000);
}

#[test]
fn texts_with_poor_codes_are_found() {
    all_are_found::<BuildHasherDefault<SameLowBits>>(769);
}

#[test]
fn few_texts_beside_many_are_found() {
    all_are_found::<BuildHasherDefault<OneShard>>(30_000);
}

#[test]
fn one_thread_counts_up() {
    counts_up::<DefaultSymbol, DefaultHashBuilder>();
    counts_up::<SymbolU16, FixedHashBuilder>();
    counts_up::<SymbolUsize, RandomState>();
    counts_up::<usize, BuildHasherDefault<Constant>>();
}

#[test]
fn static_texts_are_not_copied() {
    let names = Interner::new();
    let text: &'static str = "a static text";
    let symbol = names.try_get_or_intern_static(text).unwrap();
    assert_eq!(names.get_or_intern(String::from(text)), symbol);
    assert_eq!(names.get_or_intern_static(text), symbol);
    assert_eq!(names.resolve(symbol).unwrap().as_ptr(), text.as_ptr());
    let long: &'static str = "long".repeat(20_000).leak();
    let symbol = names.get_or_intern_static(long);
    assert_eq!(names.resolve(symbol).unwrap().as_ptr(), long.as_ptr());
}

/// An iterator yields what there was when it was made, while threads intern more.
#[test]
fn iterating_over_a_snapshot() {
    let names: Interner = (0..100).map(|number| number.to_string()).collect();
    let before = names.iter();
    thread::scope(|scope| {
        scope.spawn(|| {
            for number in 100..20_000 {
                names.get_or_intern(number.to_string());
            }
        });
        while names.len() < 20_000 {
            let seen = names.len();
            let now = names.iter();
            assert!(now.len() >= seen && now.clone().count() == now.len());
            for (number, (symbol, text)) in now.enumerate() {
                assert_eq!((symbol.to_usize(), text), (number, &*number.to_string()));
            }
        }
    });
    assert_eq!(before.len(), 100);
    assert!(before
        .map(|(_, text)| text.to_owned())
        .eq((0..100).map(|number| number.to_string())));
}

/// The greatest numbers have no text, however few bits a `usize` has.
#[test]
fn numbers_without_a_text() {
    let names: Interner<usize> = (0..70).map(|number| number.to_string()).collect();
    for bits in 0..usize::BITS {
        for number in [usize::MAX >> bits, usize::MAX << bits] {
            for behind in 0..130 {
                let number = number.wrapping_sub(behind);
                assert_eq!(names.resolve(number).is_some(), number < 70, "{number}");
            }
        }
    }
    assert_eq!(names.resolve(70), None);
}

/// What is new since a number, however many texts came before.
#[test]
fn iterating_from_a_number() {
    let names: Interner = (0..1_000).map(|number| number.to_string()).collect();
    for from in [
        0,
        1,
        63,
        64,
        999,
        1_000,
        1_001,
        1 << (usize::BITS / 2),
        usize::MAX,
    ] {
        let walk = names.iter_from(from);
        let numbers = from.min(1_000)..1_000;
        assert_eq!(walk.len(), numbers.len());
        assert!(walk.clone().eq(names.iter().skip(from)));
        assert!(walk
            .map(|(symbol, text)| (symbol.to_usize(), text.to_owned()))
            .eq(numbers.map(|number| (number, number.to_string()))));
    }
    let mut walk = names.iter_from(10);
    assert_eq!(walk.nth(5).map(|(_, text)| text), Some("15"));
    assert_eq!((walk.len(), walk.next().unwrap().1), (984, "16"));
    assert!(walk.nth(983).is_none() && walk.next().is_none());
}

/// Neither a number nor `skip` makes a symbol of each text before.
#[test]
fn iterating_passes_no_text() {
    thread_local! {
        static MADE: Cell<usize> = const { Cell::new(0) };
    }

    #[derive(Clone, Copy, Debug, PartialEq, Eq)]
    struct Counted(usize);

    impl Symbol for Counted {
        fn try_from_usize(index: usize) -> Option<Self> {
            MADE.set(MADE.get() + 1);
            Some(Counted(index))
        }

        fn to_usize(self) -> usize {
            self.0
        }
    }

    let texts = (0..1_000).map(|number| number.to_string());
    let names: Interner<Counted, FixedHashBuilder> = texts.collect();
    MADE.set(0);
    assert_eq!(names.iter_from(998).last(), Some((Counted(999), "999")));
    assert_eq!(MADE.replace(0), 2);
    assert_eq!(names.iter().nth(998), Some((Counted(998), "998")));
    assert_eq!(names.iter().skip(999).count(), 1);
    assert!(MADE.get() <= 3);
}

#[test]
fn texts_by_index() {
    let names = Interner::from_iter(["Tiger", ""]);
    for (symbol, text) in &names {
        assert_eq!(&names[symbol], text);
    }
    let lent: &str = &names[names.get("Tiger").unwrap()];
    names.get_or_intern("Horse");
    assert_eq!(lent, "Tiger");
    let unknown = DefaultSymbol::try_from_usize(3).unwrap();
    let panicked = catch_unwind(|| names[unknown].len()).unwrap_err();
    let message = panicked.downcast_ref::<String>().unwrap();
    assert_eq!(message, "no text has the symbol with the number 3");
}

/// A struct that derives, over types of symbols and hashers that are not the default ones.
#[derive(Debug, Default)]
struct Parser {
    names: Interner<SymbolU16, FixedHashBuilder>,
    keyed: Interner<usize, RandomState>,
}

#[test]
fn default_and_collected() {
    let parser = Parser::default();
    assert!(parser.names.is_empty() && parser.keyed.is_empty());
    assert_eq!(parser.keyed.get_or_intern("a"), 0);
    let of_two: Interner<SymbolU16, RandomState> = ["b", "a", "b"].into_iter().collect();
    let by_name = Interner::<usize, FixedHashBuilder>::from_iter(["b", "a", "b"]);
    // Without an annotation the types are the default ones.
    let (usual, empty) = (Interner::from_iter(["b", "a", "b"]), Interner::default());
    // The type that it takes is that of the texts, as of the trait's call.
    assert_eq!(Interner::from_iter::<Vec<&str>>(vec!["b", "a"]).len(), 2);
    let symbols: [DefaultSymbol; 2] = ["a", "b"].map(|text| usual.get(text).unwrap());
    assert_eq!(symbols.map(Symbol::to_usize), [1, 0]);
    let numbers = [
        of_two.get("a").unwrap().to_usize(),
        by_name.get("a").unwrap(),
    ];
    assert_eq!(
        (numbers, of_two.len(), by_name.len(), empty.len()),
        ([1, 1], 2, 2, 0)
    );
}

#[test]
fn the_hasher_is_lent() {
    let keys = RandomState::new();
    let names = Interner::<DefaultSymbol, _>::with_hasher(keys.clone());
    names.get_or_intern("Tiger");
    assert_eq!(names.hasher().hash_one("Tiger"), keys.hash_one("Tiger"));
}

/// Many texts at once get the symbols that a plain interner gives them, also while other threads intern them.
#[test]
fn many_texts_at_once() {
    let texts: Vec<String> = (0..4_000).map(spell).collect();
    let mut plain = StringInterner::<StringBackend>::new();
    let wanted = plain.intern_all(&texts);
    let names = Interner::new();
    assert_eq!(names.intern_all(&texts), wanted);
    assert_eq!(names.intern_all(&texts[3_000..]), wanted[3_000..]);
    assert_eq!(names.intern_all(&texts[..31]), wanted[..31]);
    assert_eq!(Interner::new().intern_all(&texts[..31]), wanted[..31]);
    assert!(names.intern_all([""; 0]).is_empty() && names.len() == plain.len());
    let shared = Interner::new();
    let all = thread::scope(|scope| {
        let intern = || shared.intern_all(&texts);
        [scope.spawn(intern), scope.spawn(intern)].map(|thread| thread.join().unwrap())
    });
    assert_eq!(all[0], all[1]);
    assert!(all[0]
        .iter()
        .zip(&texts)
        .all(|(symbol, text)| shared[*symbol] == **text));
}

/// Threads intern the same texts together in different orders, and wait for no lock without end.
#[test]
fn many_texts_at_once_in_each_order() {
    let texts: Vec<String> = (0..6_000).map(text_of).collect();
    let names = Interner::new();
    let all = thread::scope(|scope| {
        let threads = [1, 7, 11, 5_999].map(|step| {
            let (names, texts) = (&names, &texts);
            scope.spawn(move || {
                let order = (0..texts.len()).map(|number| number * step % texts.len());
                let symbols = names.intern_all(order.clone().map(|number| &texts[number]));
                let resolved = symbols.iter().map(|symbol| &names[*symbol]);
                assert!(resolved.eq(order.map(|number| &texts[number])));
            })
        });
        threads.map(|thread| thread.join().is_ok())
    });
    assert_eq!((all, names.len()), ([true; 4], 6_000));
    assert_eq!(names.iter().count(), 6_000);
}

/// A shared interner that is made of a plain one has its texts under its symbols, and goes on counting.
fn made_of_plain<B, S, H>()
where
    B: Backend<Symbol = S>,
    S: Symbol + std::fmt::Debug,
    H: BuildHasher + Clone + Default,
    StringInterner<B, H>: Clone,
    Interner<S, H>: From<StringInterner<B, H>>,
{
    let mut plain = StringInterner::<B, H>::new();
    plain.get_or_intern_static("static");
    plain.extend((0..3_000).map(spell));
    let shared = Interner::from(plain.clone());
    assert!(shared.iter().eq(plain.iter()) && shared.len() == plain.len());
    assert!(plain
        .iter()
        .all(|(symbol, text)| shared.get(text) == Some(symbol) && &shared[symbol] == text));
    assert_eq!(shared.get_or_intern("a new text").to_usize(), plain.len());
    let again = shared.into_interner();
    assert!(again.iter().take(plain.len()).eq(plain.iter()));
    let none: Interner<S, H> = StringInterner::<B, H>::new().into();
    assert!(none.is_empty());
}

#[test]
fn plain_interners_are_shared() {
    made_of_plain::<StringBackend, DefaultSymbol, DefaultHashBuilder>();
    made_of_plain::<StringBackend<SymbolU16>, _, FixedHashBuilder>();
    made_of_plain::<BucketBackend<SymbolUsize>, _, RandomState>();
    made_of_plain::<BucketBackend<usize>, _, BuildHasherDefault<Constant>>();
}

/// It has the hasher of the plain interner, and with it the keys.
#[test]
fn the_hasher_goes_along() {
    let keys = RandomState::new();
    let plain = StringInterner::<StringBackend, _>::with_hasher(keys.clone());
    let shared = Interner::from(plain);
    assert_eq!(shared.hasher().hash_one("Tiger"), keys.hash_one("Tiger"));
}

fn text_of(number: usize) -> String {
    format!("text {number}")
}

thread_local! {
    /// How many hashers [`Counting`] made.
    static MADE: Cell<usize> = const { Cell::new(0) };
}

/// Counts the texts that are hashed.
#[derive(Clone, Default)]
struct Counting;

impl BuildHasher for Counting {
    type Hasher = DefaultHasher;

    fn build_hasher(&self) -> DefaultHasher {
        MADE.set(MADE.get() + 1);
        DefaultHasher::new()
    }
}

/// What is made of the other has the codes that it had, and hashes no text again.
#[test]
fn no_text_is_hashed_again() {
    let plain: StringInterner<StringBackend, Counting> = (0..3_000).map(text_of).collect();
    assert_eq!(MADE.get(), 3_000);
    let shared = Interner::from(plain);
    assert!(shared.contains(text_of(7)) && !shared.contains("text"));
    let again = shared.into_interner();
    assert!(again.contains(text_of(7)) && !again.contains("text"));
    assert_eq!((again.len(), MADE.get()), (3_000, 3_004));
}

/// Beyond its limit an interner takes no new text, and finds those that it has.
#[test]
fn memory_has_a_limit() {
    const LIMIT: usize = 100_000;
    let names = Interner::new();
    names.set_memory_limit(LIMIT);
    let is_refused = |number: &usize| names.try_get_or_intern(text_of(*number)).is_err();
    let count = (0..).find(is_refused).unwrap();
    assert!(count > 500 && names.len() == count);
    assert!((LIMIT / 2..=LIMIT).contains(&names.memory_used()));
    let long = "long ".repeat(LIMIT / 5);
    assert_eq!(names.try_get_or_intern(long), Err(InternError::Memory));
    assert!(names
        .iter()
        .all(|(symbol, text)| names.try_get_or_intern(text) == Ok(symbol)));
    names.set_memory_limit(usize::MAX);
    assert_eq!(names.get_or_intern(text_of(count)).to_usize(), count);
}

/// What was shared is the same afterwards, in a plain interner and for whoever goes on with it.
#[test]
fn many_texts_are_frozen() {
    fn freeze<H: BuildHasher + Default>(count: usize) {
        let parsed: Interner<DefaultSymbol, H> = (0..count).map(text_of).collect();
        let mut names = parsed.into_interner();
        assert_eq!(names.len(), count);
        for number in 0..2 * count {
            assert_eq!(names.get_or_intern(text_of(number)).to_usize(), number);
        }
    }
    for count in [0, 1, 6, 7, 8, 1_000] {
        freeze::<FixedHashBuilder>(count);
        freeze::<DefaultHashBuilder>(count);
        freeze::<RandomState>(count);
        freeze::<BuildHasherDefault<Constant>>(count.min(100));
    }
}

/// A plain interner that was made of a shared one goes on counting.
#[test]
fn a_frozen_interner() {
    let parsed = Interner::<SymbolU16, _>::with_hasher(FixedHashBuilder);
    let [tiger, horse] = ["Tiger", "Horse"].map(|text| parsed.get_or_intern(text));
    let mut names = parsed.into_interner();
    assert_eq!(
        (names.get("Tiger"), names.get("Horse")),
        (Some(tiger), Some(horse))
    );
    assert_eq!(names.get_or_intern("Cat").to_usize(), 2);
    let empty: StringBackend = Interner::new().into_backend();
    assert_eq!(empty.iter().count(), 0);
}
