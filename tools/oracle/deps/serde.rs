// Stand-in for `serde`: the traits that the crate names, with no behaviour.
pub use de::Deserialize;
pub use ser::{Serialize, Serializer};
pub use serde_derive::{Deserialize, Serialize};

pub mod ser {
    pub trait Serialize {
        fn serialize<S: Serializer>(&self, s: S) -> Result<S::Ok, S::Error>;
    }
    pub trait Serializer: Sized {
        type Ok;
        type Error;
        fn serialize_i64(self, _: i64) -> Result<Self::Ok, Self::Error> { unimplemented!("stand-in: serde") }
        fn serialize_u64(self, _: u64) -> Result<Self::Ok, Self::Error> { unimplemented!("stand-in: serde") }
        fn serialize_f64(self, _: f64) -> Result<Self::Ok, Self::Error> { unimplemented!("stand-in: serde") }
    }
}

pub mod de {
    pub trait Error {}
    pub trait Visitor<'de>: Sized {
        type Value;
        fn expecting(&self, f: &mut std::fmt::Formatter) -> std::fmt::Result;
        fn visit_i64<E: Error>(self, v: i64) -> Result<Self::Value, E>;
        fn visit_u64<E: Error>(self, v: u64) -> Result<Self::Value, E>;
        fn visit_f64<E: Error>(self, v: f64) -> Result<Self::Value, E>;
    }
    pub trait Deserializer<'de>: Sized {
        type Error: Error;
        fn deserialize_any<V: Visitor<'de>>(self, _: V) -> Result<V::Value, Self::Error> {
            unimplemented!("stand-in: serde")
        }
    }
    pub trait Deserialize<'de>: Sized {
        fn deserialize<D: Deserializer<'de>>(d: D) -> Result<Self, D::Error>;
    }
}
