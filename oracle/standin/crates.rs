//! One crate under three names: `serde`, `thiserror` and `rmp_serde`. It has
//! what types.rs and error.rs name, so that both compile unchanged. Nothing
//! here is ever called.

pub use oracle_derive::{Deserialize, Error, Serialize};

pub trait Serializer {
    type Ok;
    type Error;
    fn serialize_str(self, text: &str) -> Result<Self::Ok, Self::Error>;
}

pub trait Serialize {
    fn serialize<S: Serializer>(&self, serializer: S) -> Result<S::Ok, S::Error>;
}

pub trait Deserializer<'de> {
    type Error;
}

pub trait Deserialize<'de>: Sized {
    fn deserialize<D: Deserializer<'de>>(deserializer: D) -> Result<Self, D::Error>;
}

impl<'de> Deserialize<'de> for String {
    fn deserialize<D: Deserializer<'de>>(_: D) -> Result<Self, D::Error> {
        unreachable!("the oracle reads no store")
    }
}

pub mod decode {
    #[derive(Debug)]
    pub struct Error;
}

pub mod encode {
    #[derive(Debug)]
    pub struct Error;
}
