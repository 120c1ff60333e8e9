//! Programs that need what only a crate of plain Rust gives them: backends and hashers of their own, bounds as the original has them,
//! iterators whose lifetime shrinks, and names that no glob import meets.

use std::collections::{BTreeSet, HashMap, HashSet};
use std::fmt::Debug;
use std::hash::{BuildHasher, BuildHasherDefault, Hash, Hasher};
use std::sync::Arc;
use std::thread;

use string_interner::backend::{Backend, BucketBackend, BufferBackend, StringBackend};
use string_interner::hasher::{FixedHashBuilder, KeyedHashBuilder};
use string_interner::symbol::{SymbolU16, SymbolU32, SymbolUsize};
use string_interner::{
    DefaultBackend, DefaultHashBuilder, DefaultStringInterner, InternError, JsonError,
    StringInterner, Symbol,
};

/// A backend of a program's own, which shares its texts.
#[derive(Clone, Debug, Default, PartialEq, Eq)]
struct Shared {
    texts: Vec<Arc<str>>,
    statics: usize,
}

/// What [`Shared`] iterates over.
type Numbered<'a> = std::iter::Enumerate<std::slice::Iter<'a, Arc<str>>>;

impl Backend for Shared {
    type Symbol = SymbolU32;
    type Iter<'a> = std::iter::Map<Numbered<'a>, fn((usize, &'a Arc<str>)) -> (SymbolU32, &'a str)>;

    fn with_capacity(cap: usize) -> Self {
        Shared {
            texts: Vec::with_capacity(cap),
            statics: 0,
        }
    }

    fn intern(&mut self, text: &str) -> SymbolU32 {
        let symbol = SymbolU32::try_from_usize(self.texts.len()).expect("few texts");
        self.texts.push(text.into());
        symbol
    }

    fn intern_static(&mut self, text: &'static str) -> SymbolU32 {
        self.statics += 1;
        self.intern(text)
    }

    fn shrink_to_fit(&mut self) {
        self.texts.shrink_to_fit();
    }

    fn resolve(&self, symbol: SymbolU32) -> Option<&str> {
        self.texts.get(symbol.to_usize()).map(|text| &**text)
    }

    unsafe fn resolve_unchecked(&self, symbol: SymbolU32) -> &str {
        // SAFETY: owed by the caller.
        unsafe { self.texts.get_unchecked(symbol.to_usize()) }
    }

    fn iter(&self) -> Self::Iter<'_> {
        self.texts.iter().enumerate().map(|(number, text)| {
            (
                SymbolU32::try_from_usize(number).expect("few texts"),
                &**text,
            )
        })
    }
}

#[test]
fn a_backend_of_the_program() {
    let mut names = StringInterner::<Shared>::new();
    let [tiger, horse] = ["Tiger", "Horse"].map(|name| names.get_or_intern(name));
    assert_eq!((names.get_or_intern("Tiger"), names.len()), (tiger, 2));
    assert_eq!(names.get_or_intern_static("Zebra").to_usize(), 2);
    assert_eq!(names.try_get_or_intern("Horse"), Ok(horse));
    names.extend((0..1_000).map(|number| number.to_string()));
    names.shrink_to_fit();
    let copy = names.clone();
    assert!(copy == names && copy.get("999") == names.get("999") && copy.len() == 1_003);
    assert!(names
        .iter()
        .all(|(symbol, text)| names.resolve(symbol) == Some(text)));
    assert!(format!("{names:?}").contains("statics: 1"));
}

/// It is made anew of the texts that stay.
#[test]
fn a_backend_of_the_program_drops_texts() {
    let mut names: StringInterner<Shared> = ["a", "b", "c"].into_iter().collect();
    let part = names
        .get_or_intern_part(names.get("b").unwrap(), ..0)
        .unwrap();
    assert_eq!((names.resolve(part), names.len()), (Some(""), 4));
    names.truncate(2);
    assert_eq!((names.get("c"), names.len()), (None, 2));
    assert_eq!(names.get_or_intern("d").to_usize(), 2);
    let read = StringInterner::<Shared>::from_json(&names.to_json()).unwrap();
    assert_eq!(read, names);
}

/// A symbol of one byte.
#[derive(Clone, Copy, Debug, PartialEq, Eq)]
struct Byte(u8);

impl Symbol for Byte {
    fn try_from_usize(index: usize) -> Option<Self> {
        u8::try_from(index).ok().map(Byte)
    }

    fn to_usize(self) -> usize {
        self.0.into()
    }
}

/// A backend of a program's own that has symbols for 256 texts.
#[derive(Default)]
struct Small(Vec<Box<str>>);

impl Backend for Small {
    type Symbol = Byte;
    type Iter<'a> = Box<dyn Iterator<Item = (Byte, &'a str)> + 'a>;

    fn with_capacity(_: usize) -> Self {
        Self::default()
    }

    fn intern(&mut self, text: &str) -> Byte {
        self.try_intern(text).expect("a symbol is left")
    }

    fn try_intern(&mut self, text: &str) -> Result<Byte, InternError> {
        let symbol = Byte::try_from_usize(self.0.len()).ok_or(InternError::NoSymbol)?;
        self.0.push(text.into());
        Ok(symbol)
    }

    fn try_intern_static(&mut self, text: &'static str) -> Result<Byte, InternError> {
        self.try_intern(text)
    }

    fn shrink_to_fit(&mut self) {}

    fn resolve(&self, Byte(number): Byte) -> Option<&str> {
        self.0.get(usize::from(number)).map(|text| &**text)
    }

    unsafe fn resolve_unchecked(&self, symbol: Byte) -> &str {
        self.resolve(symbol).expect("a symbol of this backend")
    }

    fn iter(&self) -> Self::Iter<'_> {
        Box::new((0..=255).map(Byte).zip(self.0.iter().map(|text| &**text)))
    }
}

/// A backend of a program's own that counts what another one stores, and what of that is static.
#[derive(Default)]
struct Counted<B> {
    texts: B,
    counts: [usize; 2],
}

impl<B: Backend> Backend for Counted<B> {
    type Symbol = B::Symbol;
    type Iter<'a>
        = B::Iter<'a>
    where
        Self: 'a;

    fn with_capacity(cap: usize) -> Self {
        let (texts, counts) = (B::with_capacity(cap), [0, 0]);
        Counted { texts, counts }
    }

    fn intern(&mut self, text: &str) -> B::Symbol {
        self.try_intern(text).expect("a symbol is left")
    }

    fn try_intern(&mut self, text: &str) -> Result<B::Symbol, InternError> {
        let symbol = self.texts.try_intern(text)?;
        self.counts[0] += 1;
        Ok(symbol)
    }

    fn try_intern_static(&mut self, text: &'static str) -> Result<B::Symbol, InternError> {
        let symbol = self.texts.try_intern_static(text)?;
        self.counts[1] += 1;
        Ok(symbol)
    }

    fn shrink_to_fit(&mut self) {
        self.texts.shrink_to_fit();
    }

    fn resolve(&self, symbol: B::Symbol) -> Option<&str> {
        self.texts.resolve(symbol)
    }

    unsafe fn resolve_unchecked(&self, symbol: B::Symbol) -> &str {
        // SAFETY: owed by the caller.
        unsafe { self.texts.resolve_unchecked(symbol) }
    }

    fn iter(&self) -> Self::Iter<'_> {
        self.texts.iter()
    }
}

/// Fills an interner over a backend with symbols for 256 texts. All of them stay when no symbol is left, and none joins them.
fn fill<B: Backend<Symbol = Byte>>() -> StringInterner<B> {
    let mut names = StringInterner::<B>::new();
    for number in 0..=255 {
        let symbol = names.try_get_or_intern(number.to_string());
        assert_eq!(symbol, Ok(Byte(number)));
    }
    let no_symbol = Err(InternError::NoSymbol);
    assert_eq!(names.try_get_or_intern("256"), no_symbol);
    assert_eq!(names.try_get_or_intern_static("256"), no_symbol);
    assert_eq!(names.try_get_or_intern("7"), Ok(Byte(7)));
    assert_eq!((names.get("256"), names.len()), (None, 256));
    let json = names.to_json().replace(']', ",\"256\"]");
    let read = StringInterner::<B>::from_json(&json);
    assert_eq!(read.err(), Some(JsonError::NoSymbol));
    names
}

#[test]
fn a_full_backend_of_the_program_is_an_error() {
    let mut names = fill::<Small>();
    names.truncate(255);
    assert_eq!(names.try_get_or_intern_static("256"), Ok(Byte(255)));
    assert!(names.iter().last() == Some((Byte(255), "256")));
}

#[test]
fn a_backend_around_another_one_hands_its_errors_on() {
    fill::<Counted<Small>>();
    fill::<Counted<StringBackend<Byte>>>();
    let mut texts = Counted::<BucketBackend<Byte>>::default();
    texts.intern("Tiger");
    assert_eq!(texts.intern_static("Horse"), Byte(1));
    assert_eq!(texts.counts, [2, 0]);
    assert_eq!(texts.try_intern_static("Zebra"), Ok(Byte(2)));
    assert_eq!(texts.counts, [2, 1]);
}

/// A hash whose lower half says little, such as those that multiply and shift nothing down.
#[derive(Default)]
struct Upper(u64);

impl Hasher for Upper {
    fn write(&mut self, bytes: &[u8]) {
        for byte in bytes {
            self.0 = (self.0.rotate_left(5) ^ u64::from(*byte)).wrapping_mul(0x517c_c1b7_2722_0a95);
        }
    }

    fn finish(&self) -> u64 {
        self.0 & !0xffff_ffff
    }
}

#[test]
fn a_hasher_whose_lower_half_is_poor() {
    let mut names = StringInterner::<DefaultBackend, BuildHasherDefault<Upper>>::new();
    // Each would be compared with each, if all had one home.
    names.extend((0..200_000).map(|number| format!("name {number}")));
    assert_eq!(
        names.get("name 199999").map(Symbol::to_usize),
        Some(199_999)
    );
}

#[test]
fn the_crates_hashers_are_builders() {
    fn distinct<H: BuildHasher + Clone + Default + Debug>(texts: &[&str]) -> usize {
        let set: HashSet<&str, H> = texts.iter().copied().collect();
        let mut names = StringInterner::<BucketBackend, H>::new();
        names.extend(texts);
        assert_eq!(names.len(), set.len());
        set.len()
    }
    let texts = ["a", "b", "a", "", "ab"];
    assert_eq!(distinct::<DefaultHashBuilder>(&texts), 4);
    assert_eq!(distinct::<FixedHashBuilder>(&texts), 4);
    let keyed = KeyedHashBuilder::new(1, 2);
    let map: HashMap<&str, u8, _> = HashMap::with_capacity_and_hasher(2, keyed);
    assert_eq!(map.hasher().hash_one("a"), keyed.hash_one("a"));
    assert_ne!(keyed.hash_one(("a", "bc")), keyed.hash_one(("ab", "c")));
}

/// The same hasher, so the same keys, for two interners and a map.
#[test]
fn a_borrowed_hasher() {
    struct Lent<'a>(&'a std::hash::RandomState);
    impl BuildHasher for Lent<'_> {
        type Hasher = std::hash::DefaultHasher;
        fn build_hasher(&self) -> Self::Hasher {
            self.0.build_hasher()
        }
    }
    let random = std::hash::RandomState::new();
    let mut names = StringInterner::<DefaultBackend, _>::with_hasher(Lent(&random));
    let mut more = StringInterner::<BufferBackend, _>::with_capacity_and_hasher(4, Lent(&random));
    assert_eq!(names.get_or_intern("a"), more.get_or_intern("a"));
}

/// Programs that keep an iterator beside something that lives shorter.
#[test]
fn iterators_shrink() {
    fn shorter<'short>(
        iter: <StringBackend as Backend>::Iter<'static>,
        _: &'short str,
    ) -> <StringBackend as Backend>::Iter<'short> {
        iter
    }
    fn shorter_bucket<'a>(
        it: <BucketBackend as Backend>::Iter<'static>,
    ) -> <BucketBackend as Backend>::Iter<'a> {
        it
    }
    fn shorter_buffer<'a>(
        it: <BufferBackend as Backend>::Iter<'static>,
    ) -> <BufferBackend as Backend>::Iter<'a> {
        it
    }
    let names: &'static DefaultStringInterner = Box::leak(Box::new(["a"].into_iter().collect()));
    let own = String::from("b");
    assert_eq!(shorter(names.iter(), &own).count(), 1);
    let _ = (shorter_bucket, shorter_buffer);
}

/// A module of the program's own has names that this crate might have.
mod words {
    pub struct Iter;
    pub struct Entry;
    pub struct Index;
    pub struct Error;
    pub fn proved() -> bool {
        true
    }
}

#[test]
fn glob_imports_meet_no_name() {
    use string_interner::backend::*;
    use string_interner::symbol::*;
    use string_interner::*;
    use words::*;
    let _ = (Iter, Entry, Index, Error, proved());
    let names = StringInterner::<StringBackend<SymbolU16>>::new();
    assert!(names.is_empty());
}

/// Sizes that programs rely on.
#[test]
fn symbols_in_options_and_tokens() {
    #[derive(Clone, Copy, Debug, PartialEq, Eq, Hash, PartialOrd, Ord)]
    enum Token {
        Name(SymbolU32),
        Sign(char),
        End,
    }
    assert!(size_of::<Token>() <= 8 && size_of::<Option<SymbolUsize>>() == size_of::<usize>());
    let mut names = DefaultStringInterner::default();
    let tokens: Vec<Token> = "a+b"
        .chars()
        .map(|letter| match letter.is_alphabetic() {
            true => Token::Name(names.get_or_intern(letter.encode_utf8(&mut [0; 4]))),
            false => Token::Sign(letter),
        })
        .chain([Token::End])
        .collect();
    let sorted: BTreeSet<Token> = tokens.iter().copied().collect();
    assert_eq!((sorted.len(), names.len()), (4, 2));
}

/// A table that is generic over all that an interner is.
#[derive(Debug, Clone)]
struct Columns<B: Backend, H = DefaultHashBuilder> {
    names: StringInterner<B, H>,
    rows: Vec<B::Symbol>,
}

impl<B, H> Columns<B, H>
where
    B: Backend,
    B::Symbol: Hash + Ord,
    H: BuildHasher + Default,
{
    fn of<'t>(texts: impl IntoIterator<Item = &'t str>) -> Self {
        let mut names = StringInterner::new();
        let rows = names.intern_all(texts);
        Columns { names, rows }
    }

    fn most_frequent(&self) -> Option<&str> {
        let mut counts = HashMap::new();
        self.rows
            .iter()
            .for_each(|row| *counts.entry(*row).or_insert(0) += 1);
        let most = counts
            .into_iter()
            .max_by_key(|(symbol, count)| (*count, std::cmp::Reverse(*symbol)))?;
        self.names.resolve(most.0)
    }
}

#[test]
fn generic_over_backend_symbol_and_hasher() {
    let texts = ["b", "a", "b", "c"];
    let usual = Columns::<StringBackend>::of(texts);
    let own = Columns::<Shared, FixedHashBuilder>::of(texts);
    let buffer = Columns::<BufferBackend<SymbolUsize>, BuildHasherDefault<Upper>>::of(texts);
    assert_eq!(usual.most_frequent(), Some("b"));
    assert_eq!(
        (own.most_frequent(), buffer.most_frequent()),
        (Some("b"), Some("b"))
    );
    assert!(usual.clone().names == usual.names && own.names == own.clone().names);
}

/// A backend alone gives each text a symbol of its own, also one that it has.
#[test]
fn a_log_of_all_lines() {
    fn log<B: Backend>(lines: &[&str]) -> (B, Vec<B::Symbol>) {
        let mut backend = B::with_capacity(lines.len());
        let symbols = lines.iter().map(|line| backend.intern(line)).collect();
        (backend, symbols)
    }
    let lines = ["started", "tick", "tick", "ended"];
    let (string, of_string) = log::<StringBackend>(&lines);
    let (bucket, of_bucket) = log::<BucketBackend<SymbolU16>>(&lines);
    let (buffer, of_buffer) = log::<BufferBackend<usize>>(&lines);
    for number in 0..lines.len() {
        assert_eq!(string.resolve(of_string[number]), Some(lines[number]));
        assert_eq!(bucket.resolve(of_bucket[number]), Some(lines[number]));
        assert_eq!(buffer.resolve(of_buffer[number]), Some(lines[number]));
    }
    assert_eq!((string.iter().count(), of_buffer[3]), (4, 18));
}

/// An interner that a builder fills, and that threads then read by parts.
#[test]
fn frozen_and_shared() {
    let names: Arc<StringInterner<Shared>> =
        Arc::new((0..900).map(|number| format!("file {number}.rs")).collect());
    let threads = [0, 300, 600].map(|from| {
        let names = Arc::clone(&names);
        thread::spawn(move || {
            let part = names.iter().skip(from).take(300);
            part.filter(|(symbol, text)| names.get(text) == Some(*symbol))
                .count()
        })
    });
    assert_eq!(threads.map(|thread| thread.join().unwrap()), [300; 3]);
}
