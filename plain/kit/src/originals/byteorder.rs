//! The crate `byteorder`.

pub use ::byteorder::{BigEndian, ByteOrder, LittleEndian};
