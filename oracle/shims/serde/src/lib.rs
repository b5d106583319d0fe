//! Stands in for the crate `serde`: the traits that memory.rs names, and derives that only satisfy
//! them.
//!
//! Snapshots are outside the board that is compared (document 01, "Left"). The judge holds no
//! serializer, so no code behind these traits runs and no answer can depend on it.

pub use serde_derive::{Deserialize, Serialize};

pub trait Serialize {
    fn serialize<S: Serializer>(&self, serializer: S) -> Result<S::Ok, S::Error>;
}

pub trait Serializer: Sized {
    type Ok;
    type Error;
    type SerializeTuple: ser::SerializeTuple<Ok = Self::Ok, Error = Self::Error>;

    fn serialize_tuple(self, len: usize) -> Result<Self::SerializeTuple, Self::Error>;
}

pub trait Deserialize<'de>: Sized {
    fn deserialize<D: Deserializer<'de>>(deserializer: D) -> Result<Self, D::Error>;
}

pub trait Deserializer<'de>: Sized {
    type Error: de::Error;

    fn deserialize_tuple<V: de::Visitor<'de>>(
        self,
        len: usize,
        visitor: V,
    ) -> Result<V::Value, Self::Error>;
}

pub mod ser {
    pub trait SerializeTuple {
        type Ok;
        type Error;

        fn serialize_element<T: crate::Serialize>(&mut self, item: &T) -> Result<(), Self::Error>;
        fn end(self) -> Result<Self::Ok, Self::Error>;
    }
}

pub mod de {
    use std::fmt;

    pub trait Error: Sized {
        fn custom<T: fmt::Display>(message: T) -> Self;
        fn invalid_length<E>(len: usize, expected: &E) -> Self;
    }

    pub trait Visitor<'de>: Sized {
        type Value;

        fn expecting(&self, formatter: &mut fmt::Formatter<'_>) -> fmt::Result;
        fn visit_seq<A: SeqAccess<'de>>(self, seq: A) -> Result<Self::Value, A::Error>;
    }

    pub trait SeqAccess<'de> {
        type Error: Error;

        fn next_element<T: crate::Deserialize<'de>>(&mut self) -> Result<Option<T>, Self::Error>;
    }
}
