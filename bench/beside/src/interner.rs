//! What is measured beside the library: the original crate, and what a user would write without one.

use std::collections::HashMap;
use std::hash::{BuildHasher, Hasher};
use string_interner::backend::Backend;
use string_interner::{DefaultStringInterner, DefaultSymbol, StringInterner, Symbol};

/// The calls that are measured.
pub trait Interner: Clone {
    type Symbol: Copy;

    fn empty() -> Self;
    fn intern(&mut self, text: &str) -> Self::Symbol;
    fn find(&self, text: &str) -> Option<Self::Symbol>;
    fn resolve(&self, symbol: Self::Symbol) -> Option<&str>;
    fn number(symbol: Self::Symbol) -> usize;
    fn len(&self) -> usize;

    /// All entries by their numbers.
    fn entries(&self) -> impl Iterator<Item = (usize, &str)>;
}

/// 64-bit FNV-1a over the bytes of a text alone, as the library's `FixedState`. The byte that ends a `str` is left out.
#[derive(Clone, Copy, Default)]
pub struct Fnv;

pub struct FnvHasher(u64);

impl BuildHasher for Fnv {
    type Hasher = FnvHasher;

    #[inline]
    fn build_hasher(&self) -> FnvHasher {
        FnvHasher(0xCBF2_9CE4_8422_2325)
    }
}

impl Hasher for FnvHasher {
    #[inline]
    fn write(&mut self, bytes: &[u8]) {
        for &byte in bytes {
            self.0 = (self.0 ^ u64::from(byte)).wrapping_mul(0x100_0000_01B3);
        }
    }

    #[inline]
    fn write_u8(&mut self, _: u8) {}

    #[inline]
    fn finish(&self) -> u64 {
        self.0
    }
}

/// The original crate's interner under FNV-1a.
pub type UnderFnv<B> = StringInterner<B, Fnv>;

/// The original crate's interner under its own default hasher.
pub type UnderDefault<B> = DefaultStringInterner<B>;

impl<B, H> Interner for StringInterner<B, H>
where
    B: Backend<Symbol = DefaultSymbol> + Clone + Default,
    H: BuildHasher + Clone + Default,
{
    type Symbol = DefaultSymbol;

    fn empty() -> Self {
        StringInterner::new()
    }

    #[inline]
    fn intern(&mut self, text: &str) -> DefaultSymbol {
        self.get_or_intern(text)
    }

    #[inline]
    fn find(&self, text: &str) -> Option<DefaultSymbol> {
        self.get(text)
    }

    #[inline]
    fn resolve(&self, symbol: DefaultSymbol) -> Option<&str> {
        StringInterner::resolve(self, symbol)
    }

    #[inline]
    fn number(symbol: DefaultSymbol) -> usize {
        symbol.to_usize()
    }

    fn len(&self) -> usize {
        StringInterner::len(self)
    }

    #[inline]
    fn entries(&self) -> impl Iterator<Item = (usize, &str)> {
        self.iter().map(|(symbol, text)| (symbol.to_usize(), text))
    }
}

/// A `HashMap` to numbers, and a `Vec` from them: each text is kept twice.
#[derive(Clone, Default)]
pub struct MapAndList {
    numbers: HashMap<Box<str>, u32>,
    texts: Vec<Box<str>>,
}

impl Interner for MapAndList {
    type Symbol = u32;

    fn empty() -> Self {
        Self::default()
    }

    #[inline]
    fn intern(&mut self, text: &str) -> u32 {
        if let Some(&number) = self.numbers.get(text) {
            return number;
        }
        let number = self.texts.len() as u32;
        self.texts.push(text.into());
        self.numbers.insert(text.into(), number);
        number
    }

    #[inline]
    fn find(&self, text: &str) -> Option<u32> {
        self.numbers.get(text).copied()
    }

    #[inline]
    fn resolve(&self, number: u32) -> Option<&str> {
        self.texts.get(number as usize).map(|text| &**text)
    }

    #[inline]
    fn number(number: u32) -> usize {
        number as usize
    }

    fn len(&self) -> usize {
        self.texts.len()
    }

    #[inline]
    fn entries(&self) -> impl Iterator<Item = (usize, &str)> {
        self.texts.iter().map(|text| &**text).enumerate()
    }
}

/// An `IndexSet` of `String`s under the standard library's hasher.
#[derive(Clone, Default)]
pub struct Set(indexmap::IndexSet<String, std::collections::hash_map::RandomState>);

impl Interner for Set {
    type Symbol = u32;

    fn empty() -> Self {
        Self::default()
    }

    #[inline]
    fn intern(&mut self, text: &str) -> u32 {
        match self.0.get_index_of(text) {
            Some(number) => number as u32,
            None => self.0.insert_full(text.to_string()).0 as u32,
        }
    }

    #[inline]
    fn find(&self, text: &str) -> Option<u32> {
        self.0.get_index_of(text).map(|number| number as u32)
    }

    #[inline]
    fn resolve(&self, number: u32) -> Option<&str> {
        self.0.get_index(number as usize).map(String::as_str)
    }

    #[inline]
    fn number(number: u32) -> usize {
        number as usize
    }

    fn len(&self) -> usize {
        self.0.len()
    }

    #[inline]
    fn entries(&self) -> impl Iterator<Item = (usize, &str)> {
        self.0.iter().map(String::as_str).enumerate()
    }
}
