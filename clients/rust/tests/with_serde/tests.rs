//! What serde writes and reads. These are the tests of a crate that asks for string-interner 0.19 with serde and names no path
//! ("Rust, serde" of `clients/check`).

use std::fmt::Debug;

use serde::de::value::{Error, SeqDeserializer};
use serde::de::DeserializeOwned;
use serde::{Deserialize, Serialize};
use string_interner::backend::{Backend, BucketBackend, BufferBackend, StringBackend};
use string_interner::symbol::{SymbolU16, SymbolU32, SymbolUsize};
use string_interner::sync::Interner;
use string_interner::{
    DefaultHashBuilder, DefaultStringInterner, DefaultSymbol, StringInterner, Symbol,
};

/// A program's own table, as it is kept in a file.
#[derive(Debug, PartialEq, Serialize, Deserialize)]
struct Table {
    names: DefaultStringInterner,
    root: DefaultSymbol,
    parent: Option<DefaultSymbol>,
}

fn table() -> Table {
    let mut names = DefaultStringInterner::default();
    let root = names.get_or_intern("Tiger");
    let parent = Some(names.get_or_intern("\"語\n"));
    Table {
        names,
        root,
        parent,
    }
}

#[test]
fn a_table_is_read_back() {
    let json = serde_json::to_string(&table()).unwrap();
    assert_eq!(json, r#"{"names":["Tiger","\"語\n"],"root":1,"parent":2}"#);
    assert_eq!(serde_json::from_str::<Table>(&json).unwrap(), table());
    let bytes = bincode::serialize(&table()).unwrap();
    assert_eq!(bincode::deserialize::<Table>(&bytes).unwrap(), table());
}

fn a_symbol<S: Symbol + Debug + Serialize + DeserializeOwned>() {
    for number in [0, 7, 65_534] {
        let symbol = S::try_from_usize(number).unwrap();
        let json = (number + 1).to_string();
        assert_eq!(serde_json::to_string(&symbol).unwrap(), json);
        assert_eq!(serde_json::from_str::<S>(&json).unwrap(), symbol);
    }
    for json in ["0", "-1", "1.5", "18446744073709551616", "\"1\"", "null"] {
        assert!(serde_json::from_str::<S>(json).is_err(), "{json}");
    }
}

#[test]
fn a_symbol_is_its_number_plus_one() {
    a_symbol::<SymbolU16>();
    a_symbol::<SymbolU32>();
    a_symbol::<SymbolUsize>();
    assert!(serde_json::from_str::<SymbolU16>("65536").is_err());
    assert!(serde_json::from_str::<SymbolU32>("4294967296").is_err());
}

fn over<B: Backend + PartialEq>() {
    let names: StringInterner<B> = ["b", "", "a"].into_iter().collect();
    let json = serde_json::to_string(&names).unwrap();
    assert_eq!(json, r#"["b","","a"]"#);
    assert!(serde_json::from_str::<StringInterner<B>>(&json).unwrap() == names);
    let repeats = r#"["b","","b","a",""]"#;
    assert!(serde_json::from_str::<StringInterner<B>>(repeats).unwrap() == names);
    for json in ["{}", "[1]", "[\"a\"", "\"a\""] {
        let said = serde_json::from_str::<StringInterner<B>>(json);
        assert!(said.is_err(), "{json}");
    }
}

#[test]
fn a_shared_interner_is_a_sequence() {
    let mut names: Interner<SymbolU16> = Interner::with_hasher(DefaultHashBuilder);
    names.extend(["b", "", "a", "b"]);
    let json = serde_json::to_string(&names).unwrap();
    assert_eq!(json, r#"["b","","a"]"#);
    for json in [&*json, r#"["b","","b","a",""]"#] {
        let read: Interner<SymbolU16> = serde_json::from_str(json).unwrap();
        assert!(read.iter().eq(names.iter()) && read.get("a") == names.get("a"));
    }
    for json in ["{}", "[1]", "[\"a\"", "\"a\""] {
        assert!(serde_json::from_str::<Interner>(json).is_err(), "{json}");
    }
    let bytes = bincode::serialize(&names).unwrap();
    assert!(bincode::deserialize::<Interner<SymbolU16>>(&bytes)
        .unwrap()
        .iter()
        .eq(names.iter()));
}

#[test]
fn an_interner_is_a_sequence() {
    over::<StringBackend>();
    over::<BucketBackend>();
    over::<BufferBackend>();
}

/// Reads a sequence whose texts a format hands over as bytes, because it has no type for texts.
fn of_bytes<T: DeserializeOwned>(texts: &[&[u8]]) -> Result<T, Error> {
    T::deserialize(SeqDeserializer::new(texts.iter().copied()))
}

#[test]
fn texts_may_come_as_bytes() {
    let good = ["b", "", "語", "b"].map(str::as_bytes);
    let names: DefaultStringInterner = of_bytes(&good).unwrap();
    let shared: Interner = of_bytes(&good).unwrap();
    assert!(names.iter().map(|(_, text)| text).eq(["b", "", "語"]));
    assert!(shared.iter().eq(names.iter()));
    for bad in [&b"\xff"[..], "語".as_bytes().split_last().unwrap().1] {
        let bad = [good[0], bad];
        let said = of_bytes::<Vec<String>>(&bad).unwrap_err();
        assert_eq!(of_bytes::<DefaultStringInterner>(&bad), Err(said.clone()));
        assert_eq!(of_bytes::<Interner>(&bad).err(), Some(said));
    }
}

#[test]
fn a_text_without_a_symbol_is_an_error() {
    #[derive(Clone, Copy, PartialEq, Eq)]
    struct Only;

    impl Symbol for Only {
        fn try_from_usize(index: usize) -> Option<Self> {
            (index == 0).then_some(Only)
        }

        fn to_usize(self) -> usize {
            0
        }
    }

    type Names = StringInterner<StringBackend<Only>>;
    assert!(serde_json::from_str::<Names>(r#"["a","a"]"#).is_ok());
    let said = serde_json::from_str::<Names>(r#"["a","b"]"#).unwrap_err();
    assert!(said.to_string().starts_with("no symbol is left"), "{said}");
}

/// An input that says it has many texts gets no memory for them before it has them.
#[test]
fn a_length_that_is_not_so() {
    let mut bytes = bincode::serialize(&vec!["a"; 2]).unwrap();
    bytes[..8].copy_from_slice(&u64::MAX.to_le_bytes());
    assert!(bincode::deserialize::<DefaultStringInterner>(&bytes).is_err());
}
