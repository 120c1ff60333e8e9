//! The traits of serde, in the forms in which string-interner 0.19 writes.

use crate::backend::Backend;
use crate::error::InternError;
use crate::interner::many::MOST_RESERVED;
use crate::interner::StringInterner;
use crate::symbol::{SymbolU16, SymbolU32, SymbolUsize};
use core::fmt;
use core::hash::BuildHasher;
use core::marker::PhantomData;
use serde::de::{DeserializeSeed, Deserializer, Error, SeqAccess, Unexpected, Visitor};
use serde::ser::{SerializeSeq, Serializer};
use serde::{Deserialize, Serialize};

impl<B: Backend, H> Serialize for StringInterner<B, H> {
    /// Writes the texts as a sequence, in insertion order.
    fn serialize<T: Serializer>(&self, serializer: T) -> Result<T::Ok, T::Error> {
        let mut texts = serializer.serialize_seq(Some(self.len()))?;
        for (_, text) in self {
            texts.serialize_element(text)?;
        }
        texts.end()
    }
}

impl<'de, B: Backend, H: BuildHasher + Default> Deserialize<'de> for StringInterner<B, H> {
    /// Reads a sequence of texts, or of bytes that are UTF-8. Repeats add no text.
    fn deserialize<D: Deserializer<'de>>(deserializer: D) -> Result<Self, D::Error> {
        deserializer.deserialize_seq(OfTexts(PhantomData))
    }
}

/// Reads an interner.
struct OfTexts<B, H>(PhantomData<(B, H)>);

impl<'de, B: Backend, H: BuildHasher + Default> Visitor<'de> for OfTexts<B, H> {
    type Value = StringInterner<B, H>;

    fn expecting(&self, f: &mut fmt::Formatter<'_>) -> fmt::Result {
        f.write_str("a sequence of strings")
    }

    fn visit_seq<A: SeqAccess<'de>>(self, mut texts: A) -> Result<Self::Value, A::Error> {
        let capacity = texts.size_hint().unwrap_or(0).min(MOST_RESERVED);
        let mut interner = StringInterner::with_capacity(capacity);
        let mut intern = |text: &str| interner.try_get_or_intern(text).map(drop);
        while texts.next_element_seed(OneText(&mut intern))?.is_some() {}
        Ok(interner)
    }
}

/// Reads a text, and hands it to what interns it.
pub(crate) struct OneText<F>(pub F);

impl<'de, F: FnOnce(&str) -> Result<(), InternError>> DeserializeSeed<'de> for OneText<F> {
    type Value = ();

    fn deserialize<D: Deserializer<'de>>(self, deserializer: D) -> Result<(), D::Error> {
        deserializer.deserialize_str(self)
    }
}

impl<F: FnOnce(&str) -> Result<(), InternError>> Visitor<'_> for OneText<F> {
    type Value = ();

    fn expecting(&self, f: &mut fmt::Formatter<'_>) -> fmt::Result {
        f.write_str("a string")
    }

    fn visit_str<E: Error>(self, text: &str) -> Result<(), E> {
        (self.0)(text).map_err(E::custom)
    }

    /// Some formats have no type for texts. A `String` is read of bytes, too.
    fn visit_bytes<E: Error>(self, bytes: &[u8]) -> Result<(), E> {
        match core::str::from_utf8(bytes) {
            Ok(text) => self.visit_str(text),
            Err(_) => Err(E::invalid_value(Unexpected::Bytes(bytes), &self)),
        }
    }
}

macro_rules! symbol {
    ($name:ident) => {
        impl Serialize for $name {
            /// Writes the symbol's number plus one.
            fn serialize<T: Serializer>(&self, serializer: T) -> Result<T::Ok, T::Error> {
                self.value.serialize(serializer)
            }
        }

        impl<'de> Deserialize<'de> for $name {
            /// Reads the symbol's number plus one.
            fn deserialize<D: Deserializer<'de>>(deserializer: D) -> Result<Self, D::Error> {
                Ok($name {
                    value: Deserialize::deserialize(deserializer)?,
                })
            }
        }
    };
}

symbol!(SymbolU16);
symbol!(SymbolU32);
symbol!(SymbolUsize);
