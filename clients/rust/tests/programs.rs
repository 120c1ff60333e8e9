//! What crates that intern texts write: lexers, compilers, symbol tables, columns, label sets. Each test is one such program. All
//! of them compile with string-interner 0.19 as well, and behave the same there.

/// A lexer interns its keywords first, and then tells them by number.
mod lexer_with_keywords {
    use string_interner::{DefaultStringInterner, DefaultSymbol, Symbol};

    const KEYWORDS: [&str; 4] = ["fn", "let", "if", "else"];

    #[derive(Debug, PartialEq)]
    enum Token {
        Keyword(usize),
        Name(DefaultSymbol),
        Other(char),
    }

    struct Lexer<'source> {
        names: &'source mut DefaultStringInterner,
        rest: &'source str,
    }

    impl Iterator for Lexer<'_> {
        type Item = Token;

        fn next(&mut self) -> Option<Token> {
            let rest = self.rest.trim_start();
            let first = rest.chars().next()?;
            if !first.is_alphabetic() {
                self.rest = &rest[first.len_utf8()..];
                return Some(Token::Other(first));
            }
            let end = rest.find(|it: char| !it.is_alphanumeric());
            let (word, after) = rest.split_at(end.unwrap_or(rest.len()));
            self.rest = after;
            let symbol = self.names.get_or_intern(word);
            Some(match symbol.to_usize() {
                number if number < KEYWORDS.len() => Token::Keyword(number),
                _ => Token::Name(symbol),
            })
        }
    }

    #[test]
    fn keywords_have_the_first_numbers() {
        let mut names = <DefaultStringInterner>::new();
        for keyword in KEYWORDS {
            names.get_or_intern_static(keyword);
        }
        let tokens: Vec<_> = Lexer {
            names: &mut names,
            rest: "let größe = größe + if",
        }
        .collect();
        let name = names.get("größe").unwrap();
        let expected = [
            Token::Keyword(1),
            Token::Name(name),
            Token::Other('='),
            Token::Name(name),
            Token::Other('+'),
            Token::Keyword(2),
        ];
        assert_eq!(tokens, expected);
    }
}

/// A compiler has one interner for the process, and a name that is displayed by itself.
mod global_interner {
    use std::fmt;
    use std::sync::{Mutex, OnceLock, PoisonError};
    use string_interner::{backend::BucketBackend, DefaultSymbol, StringInterner};

    type Interner = StringInterner<BucketBackend>;

    fn interner() -> &'static Mutex<Interner> {
        static INTERNER: OnceLock<Mutex<Interner>> = OnceLock::new();
        INTERNER.get_or_init(|| Mutex::new(Interner::new()))
    }

    #[derive(Clone, Copy, PartialEq, Eq, Hash, PartialOrd, Ord)]
    struct Name(DefaultSymbol);

    impl From<&str> for Name {
        fn from(text: &str) -> Self {
            Name(interner().lock().unwrap().get_or_intern(text))
        }
    }

    impl fmt::Display for Name {
        fn fmt(&self, f: &mut fmt::Formatter<'_>) -> fmt::Result {
            let interner = interner().lock().unwrap_or_else(PoisonError::into_inner);
            f.pad(interner.resolve(self.0).expect("a name of this interner"))
        }
    }

    #[test]
    fn names_are_displayed_from_any_thread() {
        let names = ["alpha", "beta", "alpha"].map(|it| std::thread::spawn(move || Name::from(it)));
        let [one, other, same] = names.map(|it| it.join().unwrap());
        assert!(one == same && one != other);
        assert_eq!(format!("{one:>6}|{other}"), " alpha|beta");
    }
}

/// A resolver keeps the definitions of each name in the scopes that are open.
mod scopes {
    use std::collections::HashMap;
    use string_interner::{DefaultBackend, DefaultSymbol, StringInterner};

    #[derive(Default)]
    struct Scopes {
        names: StringInterner<DefaultBackend>,
        definitions: HashMap<DefaultSymbol, Vec<u32>>,
        open: Vec<Vec<DefaultSymbol>>,
    }

    impl Scopes {
        fn define(&mut self, name: &str, value: u32) {
            let symbol = self.names.get_or_intern(name);
            self.definitions.entry(symbol).or_default().push(value);
            self.open.last_mut().expect("a scope is open").push(symbol);
        }

        fn find(&self, name: &str) -> Option<u32> {
            self.definitions
                .get(&self.names.get(name)?)?
                .last()
                .copied()
        }

        fn leave(&mut self) {
            for symbol in self.open.pop().expect("a scope is open") {
                self.definitions
                    .get_mut(&symbol)
                    .expect("it was defined")
                    .pop();
            }
        }
    }

    #[test]
    fn inner_definitions_hide_outer_ones() {
        let mut scopes = Scopes {
            open: vec![vec![]],
            ..Scopes::default()
        };
        scopes.define("x", 1);
        scopes.open.push(vec![]);
        scopes.define("x", 2);
        assert_eq!((scopes.find("x"), scopes.find("y")), (Some(2), None));
        scopes.leave();
        assert_eq!(scopes.find("x"), Some(1));
    }
}

/// A library is generic over the backend and the hasher, with the defaults of the crate.
mod generic_wrapper {
    use std::hash::BuildHasher;
    use std::ops::Index;
    use string_interner::backend::{Backend, BufferBackend, StringBackend};
    use string_interner::{DefaultBackend, DefaultHashBuilder, StringInterner};

    struct Names<B: Backend = DefaultBackend, H: BuildHasher = DefaultHashBuilder> {
        interner: StringInterner<B, H>,
    }

    impl<B: Backend, H: BuildHasher + Default> Names<B, H>
    where
        B::Symbol: Ord,
    {
        fn from_words(words: &str) -> Self {
            Names {
                interner: words.split_whitespace().collect(),
            }
        }

        fn sorted(&self) -> Vec<(B::Symbol, &str)> {
            let mut pairs: Vec<_> = self.interner.iter().collect();
            pairs.sort();
            pairs
        }
    }

    impl<B: Backend, H: BuildHasher> Index<B::Symbol> for Names<B, H> {
        type Output = str;

        fn index(&self, symbol: B::Symbol) -> &str {
            self.interner
                .resolve(symbol)
                .expect("a symbol of these names")
        }
    }

    fn check<B: Backend>(names: Names<B>)
    where
        B::Symbol: Ord,
    {
        let pairs = names.sorted();
        assert_eq!(pairs.iter().map(|it| it.1).collect::<Vec<_>>(), ["b", "a"]);
        assert!(pairs.iter().all(|&(symbol, text)| &names[symbol] == text));
    }

    #[test]
    fn any_backend_serves() {
        check(Names::<StringBackend>::from_words("b a b"));
        check(Names::<BufferBackend>::from_words("b a b"));
        check::<DefaultBackend>(Names::from_words("b a b"));
    }
}

/// An index of ids has a symbol of its own, as small as it can be.
mod own_symbol {
    use std::num::NonZeroU8;
    use string_interner::{backend::StringBackend, StringInterner, Symbol};

    #[derive(Debug, Clone, Copy, PartialEq, Eq, Hash)]
    struct Id(NonZeroU8);

    impl Symbol for Id {
        fn try_from_usize(index: usize) -> Option<Self> {
            let number = u8::try_from(index).ok()?.checked_add(1)?;
            NonZeroU8::new(number).map(Id)
        }

        fn to_usize(self) -> usize {
            usize::from(self.0.get()) - 1
        }
    }

    #[test]
    fn there_are_255_of_them() {
        assert_eq!(size_of::<Option<Id>>(), 1);
        let mut ids = StringInterner::<StringBackend<Id>>::new();
        let all: Vec<Id> = (0..255)
            .map(|it| ids.get_or_intern(it.to_string()))
            .collect();
        assert_eq!((all[0].to_usize(), all[254].to_usize()), (0, 254));
        assert!(all
            .iter()
            .enumerate()
            .all(|(at, id)| ids.resolve(*id) == Some(&*at.to_string())));
        assert_eq!(ids.get_or_intern("254"), all[254]);
    }
}

/// An arena of the program's own stores the texts.
mod own_backend {
    use std::collections::hash_map::RandomState;
    use string_interner::{backend::Backend, symbol::SymbolU32, StringInterner, Symbol};

    #[derive(Debug, Default, Clone, PartialEq)]
    struct Boxes(Vec<Box<str>>);

    impl Backend for Boxes {
        type Symbol = SymbolU32;
        type Iter<'a> = Box<dyn Iterator<Item = (SymbolU32, &'a str)> + 'a>;

        fn with_capacity(capacity: usize) -> Self {
            Boxes(Vec::with_capacity(capacity))
        }

        fn intern(&mut self, text: &str) -> SymbolU32 {
            let symbol = SymbolU32::try_from_usize(self.0.len()).expect("a symbol is left");
            self.0.push(text.into());
            symbol
        }

        fn shrink_to_fit(&mut self) {
            self.0.shrink_to_fit();
        }

        fn resolve(&self, symbol: SymbolU32) -> Option<&str> {
            self.0.get(symbol.to_usize()).map(|it| &**it)
        }

        unsafe fn resolve_unchecked(&self, symbol: SymbolU32) -> &str {
            self.resolve(symbol).expect("a symbol of this backend")
        }

        fn iter(&self) -> Self::Iter<'_> {
            let texts = self.0.iter().enumerate();
            Box::new(texts.filter_map(|(at, text)| Some((SymbolU32::try_from_usize(at)?, &**text))))
        }
    }

    #[test]
    fn it_is_used_like_the_others() {
        let mut names = StringInterner::<Boxes, RandomState>::with_capacity(4);
        let numbers = ["b", "a", "b", ""].map(|it| names.get_or_intern(it).to_usize());
        assert_eq!(numbers, [0, 1, 0, 2]);
        names.shrink_to_fit();
        let copy = names.clone();
        assert!(copy.iter().map(|(_, text)| text).eq(["b", "a", ""]) && copy == names);
        assert_eq!(names.get("c"), None);
    }
}

/// A parser takes a fast hasher, by `BuildHasherDefault`.
mod own_hasher {
    use std::hash::{BuildHasherDefault, Hasher};
    use string_interner::{backend::StringBackend, symbol::SymbolU16, StringInterner};

    #[derive(Default, Clone)]
    struct Rotating(u64);

    impl Hasher for Rotating {
        fn write(&mut self, bytes: &[u8]) {
            for &byte in bytes {
                self.0 =
                    (self.0.rotate_left(5) ^ u64::from(byte)).wrapping_mul(0x9e37_79b9_7f4a_7c15);
            }
        }

        fn finish(&self) -> u64 {
            self.0
        }
    }

    type Names = StringInterner<StringBackend<SymbolU16>, BuildHasherDefault<Rotating>>;

    #[test]
    fn texts_are_found_by_its_codes() {
        let mut names = Names::with_capacity_and_hasher(1000, BuildHasherDefault::default());
        let symbols: Vec<_> = (0..1000)
            .map(|it| names.get_or_intern(format!("name{it}")))
            .collect();
        assert!((0..1000).all(|it| names.get(format!("name{it}")) == Some(symbols[it])));
        assert_eq!(names.len(), 1000);
    }
}

/// A syntax tree has symbols for names, and is printed beside its interner.
mod syntax_tree {
    use std::fmt;
    use string_interner::{DefaultStringInterner, DefaultSymbol};

    enum Tree {
        Name(DefaultSymbol),
        Call(Box<Tree>, Vec<Tree>),
    }

    struct Shown<'a>(&'a Tree, &'a DefaultStringInterner);

    impl fmt::Display for Shown<'_> {
        fn fmt(&self, f: &mut fmt::Formatter<'_>) -> fmt::Result {
            match self.0 {
                Tree::Name(name) => f.write_str(self.1.resolve(*name).ok_or(fmt::Error)?),
                Tree::Call(of, arguments) => {
                    write!(f, "{}(", Shown(of, self.1))?;
                    for (at, it) in arguments.iter().enumerate() {
                        write!(f, "{}{}", if at > 0 { ", " } else { "" }, Shown(it, self.1))?;
                    }
                    f.write_str(")")
                }
            }
        }
    }

    #[test]
    fn it_is_printed_as_it_was_written() {
        let mut names = <DefaultStringInterner>::default();
        let mut name = |text| Tree::Name(names.get_or_intern(text));
        let call = Tree::Call(Box::new(name("max")), vec![name("a"), name("b")]);
        assert_eq!(Shown(&call, &names).to_string(), "max(a, b)");
    }
}

/// A column stores each value once, and a number for each row.
mod column {
    use string_interner::{backend::StringBackend, symbol::SymbolU32, StringInterner, Symbol};

    struct Column {
        values: StringInterner<StringBackend<SymbolU32>>,
        codes: Vec<u32>,
    }

    impl<'a> FromIterator<&'a str> for Column {
        fn from_iter<I: IntoIterator<Item = &'a str>>(rows: I) -> Self {
            let mut column = Column {
                values: StringInterner::new(),
                codes: Vec::new(),
            };
            for row in rows {
                let code = column.values.get_or_intern(row).to_usize();
                column
                    .codes
                    .push(u32::try_from(code).expect("a code of four bytes"));
            }
            column
        }
    }

    impl Column {
        fn row(&self, at: usize) -> Option<&str> {
            self.values
                .resolve(SymbolU32::try_from_usize(self.codes[at] as usize)?)
        }

        fn counts(&self) -> Vec<(&str, usize)> {
            let mut counts = vec![0; self.values.len()];
            self.codes.iter().for_each(|it| counts[*it as usize] += 1);
            self.values
                .iter()
                .map(|(symbol, text)| (text, counts[symbol.to_usize()]))
                .collect()
        }
    }

    #[test]
    fn rows_and_counts() {
        let column: Column = "red green red blue red".split(' ').collect();
        assert_eq!(column.codes, [0, 1, 0, 2, 0]);
        assert_eq!(column.row(3), Some("blue"));
        assert_eq!(column.counts(), [("red", 3), ("green", 1), ("blue", 1)]);
    }
}

/// Metrics have sets of labels, which are compared by symbol.
mod label_sets {
    use std::collections::{BTreeSet, HashMap};
    use string_interner::{DefaultStringInterner, DefaultSymbol};

    type Labels = BTreeSet<(DefaultSymbol, DefaultSymbol)>;

    fn labels(names: &mut DefaultStringInterner, pairs: &[(&str, &str)]) -> Labels {
        pairs
            .iter()
            .map(|(name, value)| (names.get_or_intern(name), names.get_or_intern(value)))
            .collect()
    }

    #[test]
    fn equal_sets_are_one_key() {
        let mut names = <DefaultStringInterner>::new();
        let mut counters: HashMap<Labels, u64> = HashMap::new();
        for pairs in [
            [("method", "get"), ("code", "200")],
            [("code", "200"), ("method", "get")],
            [("method", "get"), ("code", "404")],
        ] {
            *counters.entry(labels(&mut names, &pairs)).or_default() += 1;
        }
        let mut counts: Vec<u64> = counters.into_values().collect();
        counts.sort_unstable();
        assert_eq!((counts, names.len()), (vec![1, 2], 5));
    }
}

/// Two interners are merged, and the symbols of one are translated by a table.
mod merging {
    use string_interner::{DefaultStringInterner, DefaultSymbol, Symbol};

    fn merge(into: &mut DefaultStringInterner, from: &DefaultStringInterner) -> Vec<DefaultSymbol> {
        from.into_iter()
            .map(|(_, text)| into.get_or_intern(text))
            .collect()
    }

    #[test]
    fn translated_symbols_have_the_same_texts() {
        let mut one: DefaultStringInterner = ["a", "b", "c"].into_iter().collect();
        let other = <DefaultStringInterner>::from_iter(["c", "d", "a"]);
        let table = merge(&mut one, &other);
        assert!(other
            .iter()
            .all(|(symbol, text)| one.resolve(table[symbol.to_usize()]) == Some(text)));
        assert_eq!(one.len(), 4);
    }
}

/// A watcher interns the parts of paths, each below its parent.
mod paths {
    use std::collections::HashMap;
    use string_interner::{DefaultStringInterner, DefaultSymbol};

    #[derive(Default)]
    struct Paths {
        names: DefaultStringInterner,
        nodes: Vec<(Option<usize>, DefaultSymbol)>,
        found: HashMap<(Option<usize>, DefaultSymbol), usize>,
    }

    impl Paths {
        fn insert(&mut self, path: &str) -> Option<usize> {
            path.split('/').fold(None, |parent, part| {
                let key = (parent, self.names.get_or_intern(part));
                let nodes = &mut self.nodes;
                Some(*self.found.entry(key).or_insert_with(|| {
                    nodes.push(key);
                    nodes.len() - 1
                }))
            })
        }

        fn parts(&self, at: Option<usize>) -> Vec<&str> {
            let mut parts: Vec<&str> = std::iter::successors(at.map(|it| self.nodes[it]), |it| {
                it.0.map(|it| self.nodes[it])
            })
            .filter_map(|(_, name)| self.names.resolve(name))
            .collect();
            parts.reverse();
            parts
        }
    }

    #[test]
    fn equal_parts_are_stored_once() {
        let mut paths = Paths::default();
        let one = paths.insert("usr/lib/usr");
        assert_eq!(paths.insert("usr/lib/usr"), one);
        assert_eq!(paths.parts(one), ["usr", "lib", "usr"]);
        assert_eq!((paths.names.len(), paths.nodes.len()), (2, 3));
    }
}

/// A cache is written as lines and read back.
mod saved_as_lines {
    use string_interner::{backend::BufferBackend, StringInterner};

    type Names = StringInterner<BufferBackend>;

    #[test]
    fn it_is_read_back_with_the_same_symbols() {
        let names: Names = ["one", "two", "", "two", "drei"].into_iter().collect();
        let saved: String = names.iter().map(|(_, text)| format!("{text}\n")).collect();
        let read: Names = saved.lines().collect();
        assert!(read == names && read.iter().eq(&names));
    }
}

/// A session keeps its interner for a thread, behind `Rc` and `RefCell`.
mod for_a_thread {
    use std::cell::RefCell;
    use std::rc::Rc;
    use string_interner::{DefaultStringInterner, DefaultSymbol};

    #[derive(Clone, Default)]
    struct Session(Rc<RefCell<DefaultStringInterner>>);

    impl Session {
        fn intern(&self, text: impl AsRef<str>) -> DefaultSymbol {
            self.0.borrow_mut().get_or_intern(text)
        }

        fn with<R>(&self, symbol: DefaultSymbol, use_text: impl FnOnce(&str) -> R) -> Option<R> {
            self.0.borrow().resolve(symbol).map(use_text)
        }
    }

    thread_local!(static SESSION: Session = Session::default());

    #[test]
    fn its_texts_are_read_in_place() {
        let symbol = SESSION.with(|it| it.clone().intern(String::from("thread")));
        assert_eq!(SESSION.with(|it| it.with(symbol, str::len)), Some(6));
    }
}

/// A parser tries something, and takes the names back that it met.
mod snapshots {
    use string_interner::DefaultStringInterner;

    #[test]
    fn a_clone_is_as_it_was() {
        let mut names: DefaultStringInterner = ["kept"].into_iter().collect();
        let snapshot = names.clone();
        let tried = names.get_or_intern("tried");
        assert!(names != snapshot && snapshot.resolve(tried).is_none());
        names = snapshot;
        assert_eq!((names.get("tried"), names.len()), (None, 1));
        assert_eq!(names.get_or_intern("other"), tried);
    }
}

/// An analysis stores sets of names as bits.
mod bit_sets {
    use string_interner::{DefaultStringInterner, DefaultSymbol, Symbol};

    #[derive(Default)]
    struct Names(Vec<u64>);

    impl Names {
        fn insert(&mut self, symbol: DefaultSymbol) -> bool {
            let (word, bit) = (symbol.to_usize() / 64, 1 << (symbol.to_usize() % 64));
            if self.0.len() <= word {
                self.0.resize(word + 1, 0);
            }
            let is_new = self.0[word] & bit == 0;
            self.0[word] |= bit;
            is_new
        }

        fn iter(&self) -> impl Iterator<Item = DefaultSymbol> + '_ {
            (0..self.0.len() * 64)
                .filter(|it| self.0[it / 64] >> (it % 64) & 1 == 1)
                .filter_map(DefaultSymbol::try_from_usize)
        }
    }

    #[test]
    fn numbers_lead_back_to_texts() {
        let mut interner = <DefaultStringInterner>::new();
        interner.extend((0..200).map(|it| format!("v{it}")));
        let mut live = Names::default();
        for text in ["v3", "v199", "v3", "v64"] {
            live.insert(interner.get(text).unwrap());
        }
        let texts: Vec<_> = live
            .iter()
            .map(|it| interner.resolve(it).unwrap())
            .collect();
        assert_eq!(texts, ["v3", "v64", "v199"]);
    }
}

/// A reader interns what is borrowed or owned, as it comes.
mod mixed_texts {
    use std::borrow::Cow;
    use std::rc::Rc;
    use string_interner::DefaultStringInterner;

    fn unescape(field: &str) -> Cow<'_, str> {
        if field.contains("\"\"") {
            field.replace("\"\"", "\"").into()
        } else {
            field.into()
        }
    }

    #[test]
    fn what_is_a_str_by_reference_is_taken() {
        let mut names = <DefaultStringInterner>::new();
        names.extend("a,b\"\"c,a".split(',').map(unescape));
        names.extend([String::from("d")].iter());
        names.extend([Box::<str>::from("e")]);
        names.extend([Rc::<str>::from("f"), Rc::from("a")]);
        assert!(names
            .iter()
            .map(|(_, text)| text)
            .eq(["a", "b\"c", "d", "e", "f"]));
    }
}

/// A trait of the program's own is implemented for every interner.
mod extension_trait {
    use std::hash::BuildHasher;
    use string_interner::backend::{Backend, BucketBackend};
    use string_interner::{DefaultStringInterner, StringInterner};

    trait Intern {
        type Key: Copy + Eq;
        fn key(&mut self, text: &str) -> Self::Key;
        fn text(&self, key: Self::Key) -> &str;
        fn rename(&mut self, key: Self::Key, change: impl Fn(&str) -> String) -> Self::Key {
            let text = change(self.text(key));
            self.key(&text)
        }
    }

    impl<B: Backend, H: BuildHasher> Intern for StringInterner<B, H> {
        type Key = B::Symbol;

        fn key(&mut self, text: &str) -> B::Symbol {
            self.get_or_intern(text)
        }

        fn text(&self, key: B::Symbol) -> &str {
            self.resolve(key).unwrap_or("?")
        }
    }

    fn run(mut names: impl Intern) {
        let key = names.key("name");
        let longer = names.rename(key, |it| it.repeat(2));
        assert_eq!((names.text(key), names.text(longer)), ("name", "namename"));
    }

    #[test]
    fn it_serves_each_interner() {
        run(<DefaultStringInterner>::new());
        run(StringInterner::<BucketBackend>::new());
    }
}

/// A virtual machine maps names to slots, and has a cache of resolved texts that lives as long as the interner.
mod borrowed_texts {
    use std::collections::HashMap;
    use string_interner::backend::{Backend, StringBackend};
    use string_interner::{DefaultStringInterner, DefaultSymbol};

    struct Linker<'names> {
        names: &'names DefaultStringInterner,
        texts: HashMap<DefaultSymbol, &'names str>,
    }

    impl<'names> Linker<'names> {
        fn text(&mut self, symbol: DefaultSymbol) -> Option<&'names str> {
            let names = self.names;
            let text = names.resolve(symbol)?;
            Some(self.texts.entry(symbol).or_insert(text))
        }

        fn longest(&self) -> Option<&'names str> {
            self.names
                .iter()
                .map(|(_, text)| text)
                .max_by_key(|it| it.len())
        }
    }

    type Walk<'a> = <StringBackend as Backend>::Iter<'a>;

    fn shorten<'short, 'long: 'short>(walk: Walk<'long>, _: &'short str) -> Walk<'short> {
        walk
    }

    #[test]
    fn texts_outlive_what_borrowed_them() {
        let names: DefaultStringInterner = ["a", "longest", "bb"].into_iter().collect();
        let text = {
            let mut linker = Linker {
                names: &names,
                texts: HashMap::new(),
            };
            assert_eq!(linker.text(names.get("bb").unwrap()), Some("bb"));
            linker.longest()
        };
        assert_eq!(text, Some("longest"));
        let (mut backend, local) = (<StringBackend>::default(), String::from("local"));
        backend.intern("abc");
        assert!(shorten(backend.iter(), &local)
            .map(|(_, text)| text)
            .eq(["abc"]));
    }
}

/// A tokenizer counts words in one pass.
mod word_counts {
    use string_interner::{backend::StringBackend, symbol::SymbolUsize, StringInterner, Symbol};

    #[test]
    fn the_most_frequent_comes_first() {
        let mut words = StringInterner::<StringBackend<SymbolUsize>>::new();
        let mut counts: Vec<(usize, usize)> = Vec::new();
        for word in "the cat and the dog and the bird".split(' ') {
            let number = words.get_or_intern(word).to_usize();
            if number == counts.len() {
                counts.push((number, 0));
            }
            counts[number].1 += 1;
        }
        counts.sort_by_key(|&(number, count)| (std::cmp::Reverse(count), number));
        let text = |number| {
            words
                .resolve(SymbolUsize::try_from_usize(number).unwrap())
                .unwrap()
        };
        let first: Vec<_> = counts[..2]
            .iter()
            .map(|&(number, count)| (text(number), count))
            .collect();
        assert_eq!(first, [("the", 3), ("and", 2)]);
    }
}

/// A service shares names that no longer change among threads.
mod frozen {
    use std::sync::Arc;
    use string_interner::DefaultStringInterner;

    #[test]
    fn threads_read_at_once() {
        let mut names = <DefaultStringInterner>::new();
        names.extend((0..100).map(|it| it.to_string()));
        names.shrink_to_fit();
        let names = Arc::new(names);
        let readers: Vec<_> = (0..4)
            .map(|_| {
                let names = Arc::clone(&names);
                std::thread::spawn(move || {
                    (0..100).all(|it| {
                        names.get(it.to_string()).and_then(|it| names.resolve(it))
                            == Some(&*it.to_string())
                    })
                })
            })
            .collect();
        assert!(readers.into_iter().all(|it| it.join().unwrap()));
    }
}
