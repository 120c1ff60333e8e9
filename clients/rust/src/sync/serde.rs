//! The traits of serde for a shared interner, in the form of a plain one: the sequence of its texts in the order of their numbers.

use super::Interner;
use crate::serde::OneText;
use crate::symbol::Symbol;
use core::fmt;
use core::hash::BuildHasher;
use core::marker::PhantomData;
use serde::de::{Deserializer, SeqAccess, Visitor};
use serde::ser::{SerializeSeq, Serializer};
use serde::{Deserialize, Serialize};

impl<S: Symbol, H> Serialize for Interner<S, H> {
    /// Writes the texts that there are now, so that each has the same symbol when it is read.
    fn serialize<T: Serializer>(&self, serializer: T) -> Result<T::Ok, T::Error> {
        let texts = self.iter();
        let mut sequence = serializer.serialize_seq(Some(texts.len()))?;
        for (_, text) in texts {
            sequence.serialize_element(text)?;
        }
        sequence.end()
    }
}

impl<'de, S: Symbol, H: BuildHasher + Default> Deserialize<'de> for Interner<S, H> {
    /// Reads a sequence of texts, or of bytes that are UTF-8. Repeats add no text.
    fn deserialize<D: Deserializer<'de>>(deserializer: D) -> Result<Self, D::Error> {
        deserializer.deserialize_seq(OfTexts(PhantomData))
    }
}

/// Reads an interner.
struct OfTexts<S, H>(PhantomData<(S, H)>);

impl<'de, S: Symbol, H: BuildHasher + Default> Visitor<'de> for OfTexts<S, H> {
    type Value = Interner<S, H>;

    fn expecting(&self, f: &mut fmt::Formatter<'_>) -> fmt::Result {
        f.write_str("a sequence of strings")
    }

    fn visit_seq<A: SeqAccess<'de>>(self, mut texts: A) -> Result<Self::Value, A::Error> {
        let mut interner = Interner::with_hasher(H::default());
        let mut intern = |text: &str| interner.intern_alone(text).map(drop);
        while texts.next_element_seed(OneText(&mut intern))?.is_some() {}
        interner.shrink_to_fit();
        Ok(interner)
    }
}
