//! Programs as they are written for string-interner 0.19. What they need of threads is in `threads.rs`, of backends in
//! `backend.rs`, and of hashers in `hasher.rs`.

use std::borrow::Cow;
use std::cell::{Cell, RefCell};
use std::cmp::Ordering;
use std::collections::{BTreeMap, HashMap};
use std::fmt::{self, Arguments, Debug, Display, Formatter};
use std::hash::{BuildHasher, Hash, RandomState};
use std::rc::Rc;
use std::sync::{LazyLock, Mutex};
use std::thread;

use string_interner::backend::{Backend, BucketBackend, StringBackend};
use string_interner::symbol::{SymbolU16, SymbolU32, SymbolUsize};
use string_interner::{
    DefaultHashBuilder, DefaultStringInterner, DefaultSymbol, StringInterner, Symbol,
};

#[test]
fn no_type_is_named() {
    let mut names = StringInterner::default();
    let tiger = names.get_or_intern("Tiger");
    assert_eq!(names.resolve(tiger), Some("Tiger"));
}

#[test]
fn all_types_are_named() {
    type Names = StringInterner<BucketBackend<SymbolU16>, DefaultHashBuilder>;
    struct Scanner {
        names: StringInterner<StringBackend<SymbolU32>>,
    }
    let mut scanner = Scanner {
        names: StringInterner::with_capacity(3),
    };
    let first: SymbolU32 = scanner.names.get_or_intern(String::from("x"));
    let second: SymbolU16 = Names::new().get_or_intern(Box::<str>::from("x"));
    assert_eq!(first.to_usize(), second.to_usize());
}

#[test]
fn a_symbol_of_the_program() {
    #[derive(Clone, Copy, Debug, PartialEq, Eq, PartialOrd, Ord, Hash)]
    struct Name(u32);

    impl Symbol for Name {
        fn try_from_usize(index: usize) -> Option<Self> {
            index.try_into().ok().map(Name)
        }

        fn to_usize(self) -> usize {
            self.0 as usize
        }
    }

    let mut names = StringInterner::<StringBackend<Name>>::new();
    assert_eq!(names.get_or_intern("Tiger"), Name(0));
    assert_eq!(names.get_or_intern("Horse"), Name(1));
}

#[test]
fn behind_a_mutex_and_in_each_thread() {
    static SHARED: LazyLock<Mutex<DefaultStringInterner>> = LazyLock::new(Default::default);
    thread_local! {
        static OWN: RefCell<DefaultStringInterner> = RefCell::new(DefaultStringInterner::new());
    }
    let intern = |text| {
        let own = OWN.with_borrow_mut(|own| own.get_or_intern(text));
        (own, SHARED.lock().unwrap().get_or_intern(text))
    };
    let (own, shared) = thread::spawn(move || intern("Tiger")).join().unwrap();
    assert_eq!(intern("Horse").0, own);
    assert_ne!(intern("Horse").1, shared);
}

#[test]
fn derived_traits() {
    #[derive(Clone, Debug, Default, PartialEq, Eq)]
    struct Table {
        names: DefaultStringInterner,
        rows: Vec<DefaultSymbol>,
    }
    let mut table = Table::default();
    assert_eq!(table.clone(), table);
    table.rows.push(table.names.get_or_intern("Tiger"));
    assert_ne!(table, Table::default());
    assert!(format!("{table:?}").contains("\"Tiger\""));
}

#[test]
fn symbols_are_keys() {
    let mut names = StringInterner::default();
    let [tiger, horse] = ["Tiger", "Horse"].map(|name| names.get_or_intern(name));
    let by_order = BTreeMap::from([(horse, 2), (tiger, 1)]);
    let by_hash: HashMap<DefaultSymbol, i32> = by_order.clone().into_iter().collect();
    assert_eq!(by_order.into_values().collect::<Vec<_>>(), [1, 2]);
    assert_eq!((by_hash[&tiger], by_hash[&horse]), (1, 2));
}

#[test]
fn texts_of_all_kinds() {
    let mut names = DefaultStringInterner::default();
    names.extend(vec![String::from("a"), String::from("a")]);
    names.extend(["b", "c"]);
    names.extend([Cow::Borrowed("d"), Cow::Owned(String::from("e"))]);
    names.extend([Box::<str>::from("f")]);
    let texts: Vec<&str> = names.iter().map(|(_, text)| text).collect();
    assert_eq!(texts, ["a", "b", "c", "d", "e", "f"]);
    let pairs: Vec<(DefaultSymbol, &str)> = (&names).into_iter().collect();
    assert_eq!(pairs[5], (names.get("f").unwrap(), "f"));
}

#[test]
fn a_part_of_a_text_is_interned() {
    let mut names = StringInterner::default();
    let path = names.get_or_intern("bin/cargo");
    let folder = names.resolve(path).unwrap()[..3].to_owned();
    let folder = names.get_or_intern(folder);
    assert_eq!(names.resolve(folder), Some("bin"));
    assert_eq!(names.resolve(path), Some("bin/cargo"));
}

#[test]
fn texts_of_a_leaked_interner_stay() {
    let names: &'static DefaultStringInterner =
        Box::leak(Box::new(["Tiger"].into_iter().collect()));
    let text: &'static str = names.resolve(names.get("Tiger").unwrap()).unwrap();
    thread::spawn(move || assert_eq!(text, "Tiger"))
        .join()
        .unwrap();
}

#[test]
fn bounds_that_symbols_meet() {
    fn first<S: Symbol + Ord + Hash + Debug + Send + Sync + 'static>() -> S {
        S::try_from_usize(0).unwrap()
    }
    assert_eq!(first::<SymbolU16>().to_usize(), 0);
    assert_eq!(first::<SymbolU32>().to_usize(), 0);
    assert_eq!(first::<SymbolUsize>().to_usize(), 0);
    assert_eq!(first::<usize>(), 0);
}

#[test]
fn keywords_are_the_first_symbols() {
    const KEYWORDS: [&str; 2] = ["fn", "let"];
    let mut names: DefaultStringInterner = StringInterner::from_iter(KEYWORDS);
    let is_keyword = "let größe = fn größe"
        .split(' ')
        .map(|word| names.get_or_intern(word).to_usize() < KEYWORDS.len());
    assert!(is_keyword.eq([true, false, false, true, false]));
}

/// Interners of several types, as one.
trait Intern {
    fn number(&mut self, text: &str) -> usize;
    fn text(&self, number: usize) -> Option<&str>;
    fn all(&self) -> Box<dyn Iterator<Item = (usize, &str)> + '_>;
}

impl<B: Backend, H: BuildHasher> Intern for StringInterner<B, H> {
    fn number(&mut self, text: &str) -> usize {
        self.get_or_intern(text).to_usize()
    }

    fn text(&self, number: usize) -> Option<&str> {
        self.resolve(B::Symbol::try_from_usize(number)?)
    }

    fn all(&self) -> Box<dyn Iterator<Item = (usize, &str)> + '_> {
        Box::new(self.iter().map(|(symbol, text)| (symbol.to_usize(), text)))
    }
}

#[test]
fn behind_a_trait_of_the_program() {
    let interners: [Box<dyn Intern>; 3] = [
        Box::new(StringInterner::<StringBackend>::new()),
        Box::new(StringInterner::<BucketBackend<SymbolU16>, RandomState>::new()),
        Box::new(StringInterner::<StringBackend<usize>>::new()),
    ];
    for mut interner in interners {
        assert_eq!(["a", "", "a"].map(|text| interner.number(text)), [0, 1, 0]);
        assert_eq!((interner.text(1), interner.text(9)), (Some(""), None));
        assert!(interner.all().eq([(0, "a"), (1, "")]));
    }
}

#[test]
fn calls_as_functions() {
    let intern: fn(&mut DefaultStringInterner, &'static str) -> DefaultSymbol =
        DefaultStringInterner::get_or_intern;
    let resolve: for<'a> fn(&'a DefaultStringInterner, DefaultSymbol) -> Option<&'a str> =
        DefaultStringInterner::resolve;
    let names = Cell::new(DefaultStringInterner::default());
    let mut taken = names.take();
    let tiger = intern(&mut taken, "Tiger");
    assert_eq!(resolve(&taken, tiger), Some("Tiger"));
    names.set(taken);
    assert_eq!(names.into_inner().len(), 1);
}

#[test]
fn collected_through_other_collections() {
    let numbers = ["1", "2", "1"].map(|text| text.parse::<u8>().map(|number| number.to_string()));
    let read: Result<DefaultStringInterner, _> = numbers.into_iter().collect();
    assert_eq!(read.unwrap().len(), 2);
    let none: Option<DefaultStringInterner> = [Some("a"), None].into_iter().collect();
    assert!(none.is_none());

    fn fill<'a>(texts: &mut impl Extend<&'a str>) {
        texts.extend("code is code".split(' '));
    }
    let (mut list, mut names) = (Vec::new(), DefaultStringInterner::default());
    fill(&mut list);
    fill(&mut names);
    assert_eq!((list.len(), names.len()), (3, 2));
    names.extend([Rc::<str>::from("shared")]);
    names.extend(names.clone().iter().map(|(_, text)| text));
    assert_eq!(names.len(), 3);
}

#[test]
fn symbols_of_one_interner_in_another() {
    fn merge<A: Backend, B: Backend>(
        into: &mut StringInterner<A>,
        from: &StringInterner<B>,
    ) -> HashMap<usize, A::Symbol> {
        from.iter()
            .map(|(symbol, text)| (symbol.to_usize(), into.get_or_intern(text)))
            .collect()
    }
    let part: StringInterner<BucketBackend> = ["c", "b"].into_iter().collect();
    let mut all: DefaultStringInterner = ["a", "b"].into_iter().collect();
    let symbols = merge(&mut all, &part);
    for (symbol, text) in &part {
        assert_eq!(all.resolve(symbols[&symbol.to_usize()]), Some(text));
    }
    assert_eq!(all.len(), 3);
}

#[test]
fn an_extension_of_the_program() {
    trait Format<S> {
        fn intern_args(&mut self, args: Arguments) -> S;
    }

    impl<B: Backend, H: BuildHasher> Format<B::Symbol> for StringInterner<B, H> {
        fn intern_args(&mut self, args: Arguments) -> B::Symbol {
            match args.as_str() {
                Some(text) => self.get_or_intern_static(text),
                None => self.get_or_intern(args.to_string()),
            }
        }
    }

    let mut names = StringInterner::<BucketBackend>::new();
    let plain = names.intern_args(format_args!("x1"));
    let number = names.len();
    assert_eq!(names.intern_args(format_args!("x{number}")), plain);
}

#[test]
fn names_of_the_process_that_are_ordered_as_texts() {
    static NAMES: LazyLock<Mutex<DefaultStringInterner>> = LazyLock::new(Mutex::default);

    #[derive(Clone, Copy, PartialEq, Eq)]
    struct Name(DefaultSymbol);

    impl From<&str> for Name {
        fn from(text: &str) -> Self {
            Name(NAMES.lock().unwrap().get_or_intern(text))
        }
    }

    impl Ord for Name {
        fn cmp(&self, other: &Self) -> Ordering {
            let names = NAMES.lock().unwrap();
            names.resolve(self.0).cmp(&names.resolve(other.0))
        }
    }

    impl PartialOrd for Name {
        fn partial_cmp(&self, other: &Self) -> Option<Ordering> {
            Some(self.cmp(other))
        }
    }

    let mut fruits = ["pear", "apple", "fig"].map(Name::from);
    fruits.sort();
    assert!(fruits == ["apple", "fig", "pear"].map(Name::from));
}

#[test]
fn generic_over_backend_and_hasher() {
    fn intern_words<B, H>(names: &mut StringInterner<B, H>, line: &str) -> Vec<B::Symbol>
    where
        B: Backend,
        B::Symbol: Debug,
        H: BuildHasher,
    {
        let words = line.split_whitespace();
        words.map(|word| names.get_or_intern(word)).collect()
    }

    let mut names = StringInterner::<BucketBackend<SymbolU16>, RandomState>::default_of();
    let symbols = intern_words(&mut names, "let a = a ;");
    assert_eq!(symbols[1], symbols[3]);
    assert_eq!(names.len(), 4);
}

/// Makes a value where the type that it is of has no `Default`, as for a hasher other than the default.
trait DefaultOf {
    fn default_of() -> Self;
}

impl<B: Backend, H: BuildHasher + Default> DefaultOf for StringInterner<B, H> {
    fn default_of() -> Self {
        Self::with_hasher(H::default())
    }
}

#[test]
fn a_tree_that_shows_its_names() {
    enum Tree {
        Name(DefaultSymbol),
        Sum(Box<Tree>, Box<Tree>),
    }

    struct Shown<'a>(&'a Tree, &'a DefaultStringInterner);

    impl Display for Shown<'_> {
        fn fmt(&self, f: &mut Formatter<'_>) -> fmt::Result {
            let Shown(tree, names) = *self;
            match tree {
                Tree::Name(name) => f.write_str(names.resolve(*name).ok_or(fmt::Error)?),
                Tree::Sum(left, right) => {
                    write!(f, "({} + {})", Shown(left, names), Shown(right, names))
                }
            }
        }
    }

    let mut names = DefaultStringInterner::default();
    let mut leaf = |text| Box::new(Tree::Name(names.get_or_intern(text)));
    let inner = Box::new(Tree::Sum(leaf("x"), leaf("y")));
    let tree = Tree::Sum(inner, leaf("x"));
    assert_eq!(Shown(&tree, &names).to_string(), "((x + y) + x)");
    assert_eq!(names.len(), 2);
}

#[test]
fn scopes_of_a_checker() {
    #[derive(Default)]
    struct Checker {
        names: DefaultStringInterner,
        scopes: Vec<HashMap<DefaultSymbol, usize>>,
    }

    impl Checker {
        fn declare(&mut self, text: &str, kind: usize) {
            let name = self.names.get_or_intern(text);
            self.scopes.last_mut().unwrap().insert(name, kind);
        }

        fn find(&self, text: &str) -> Option<usize> {
            let name = self.names.get(text)?;
            let mut scopes = self.scopes.iter().rev();
            scopes.find_map(|scope| scope.get(&name).copied())
        }
    }

    let mut checker = Checker::default();
    checker.scopes.push(HashMap::new());
    checker.declare("x", 1);
    checker.scopes.push(HashMap::new());
    checker.declare("x", 2);
    checker.declare("y", 3);
    assert_eq!((checker.find("x"), checker.find("y")), (Some(2), Some(3)));
    checker.scopes.pop();
    assert_eq!((checker.find("x"), checker.find("y")), (Some(1), None));
    assert_eq!(checker.find("z"), None);
}

#[test]
fn an_iterator_in_a_struct() {
    struct Pages<'a, B: Backend + 'a> {
        texts: <B as Backend>::Iter<'a>,
    }

    impl<'a, B: Backend> Iterator for Pages<'a, B> {
        type Item = Vec<&'a str>;

        fn next(&mut self) -> Option<Self::Item> {
            let page: Vec<&str> = self.texts.by_ref().take(2).map(|(_, text)| text).collect();
            (!page.is_empty()).then_some(page)
        }
    }

    let names: StringInterner<BucketBackend> = ["a", "b", "c"].into_iter().collect();
    let pages = Pages::<BucketBackend> {
        texts: names.iter(),
    };
    assert!(pages.eq([vec!["a", "b"], vec!["c"]]));
}
