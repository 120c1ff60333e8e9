//! Stands for serde where cargo is run in the folder of string-interner, so that no command there needs a registry: it has the traits
//! of serde that string-interner names, and nothing reads or writes by them. What they do is tested in a crate that depends on
//! string-interner ("Rust, serde" of `clients/check`).

#![no_std]

pub use de::{Deserialize, Deserializer};
pub use ser::{Serialize, Serializer};

use core::num::{NonZeroU16, NonZeroU32, NonZeroUsize};

macro_rules! number {
    ($($number:ty)*) => {$(
        impl Serialize for $number {
            fn serialize<S: Serializer>(&self, _: S) -> Result<S::Ok, S::Error> {
                unimplemented!()
            }
        }

        impl<'de> Deserialize<'de> for $number {
            fn deserialize<D: Deserializer<'de>>(_: D) -> Result<Self, D::Error> {
                unimplemented!()
            }
        }
    )*};
}

number!(NonZeroU16 NonZeroU32 NonZeroUsize);

pub mod de {
    use core::fmt::{Display, Formatter, Result as Shown};

    pub trait Error: Sized {
        fn custom<T: Display>(message: T) -> Self;
        fn invalid_value(unexpected: Unexpected, expected: &dyn Expected) -> Self;
    }

    pub enum Unexpected<'a> {
        Bytes(&'a [u8]),
    }

    pub trait Expected {}

    impl<'de, V: Visitor<'de>> Expected for V {}

    pub trait Deserialize<'de>: Sized {
        fn deserialize<D: Deserializer<'de>>(deserializer: D) -> Result<Self, D::Error>;
    }

    pub trait DeserializeSeed<'de>: Sized {
        type Value;

        fn deserialize<D: Deserializer<'de>>(
            self,
            deserializer: D,
        ) -> Result<Self::Value, D::Error>;
    }

    pub trait Deserializer<'de>: Sized {
        type Error: Error;

        fn deserialize_seq<V: Visitor<'de>>(self, visitor: V) -> Result<V::Value, Self::Error>;
        fn deserialize_str<V: Visitor<'de>>(self, visitor: V) -> Result<V::Value, Self::Error>;
    }

    pub trait Visitor<'de>: Sized {
        type Value;

        fn expecting(&self, formatter: &mut Formatter) -> Shown;

        fn visit_str<E: Error>(self, _: &str) -> Result<Self::Value, E> {
            unimplemented!()
        }

        fn visit_bytes<E: Error>(self, _: &[u8]) -> Result<Self::Value, E> {
            unimplemented!()
        }

        fn visit_seq<A: SeqAccess<'de>>(self, _: A) -> Result<Self::Value, A::Error> {
            unimplemented!()
        }
    }

    pub trait SeqAccess<'de> {
        type Error: Error;

        fn next_element_seed<T: DeserializeSeed<'de>>(
            &mut self,
            seed: T,
        ) -> Result<Option<T::Value>, Self::Error>;
        fn size_hint(&self) -> Option<usize>;
    }
}

pub mod ser {
    pub trait Serialize {
        fn serialize<S: Serializer>(&self, serializer: S) -> Result<S::Ok, S::Error>;
    }

    pub trait Serializer: Sized {
        type Ok;
        type Error;
        type SerializeSeq: SerializeSeq<Ok = Self::Ok, Error = Self::Error>;

        fn serialize_seq(self, len: Option<usize>) -> Result<Self::SerializeSeq, Self::Error>;
    }

    pub trait SerializeSeq {
        type Ok;
        type Error;

        fn serialize_element<T: Serialize + ?Sized>(
            &mut self,
            value: &T,
        ) -> Result<(), Self::Error>;
        fn end(self) -> Result<Self::Ok, Self::Error>;
    }

    impl Serialize for str {
        fn serialize<S: Serializer>(&self, _: S) -> Result<S::Ok, S::Error> {
            unimplemented!()
        }
    }
}
