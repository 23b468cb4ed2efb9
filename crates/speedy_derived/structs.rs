//! Structs of named parts and of one.
use speedy::{Readable, Writable};

/// Named parts.
#[derive(Readable, Writable)]
pub struct Numbers {
    /// It has one byte.
    pub a: u8,
    pub b: u16,
    pub c: u32,
}

/// A single part.
#[derive(Clone, Debug, PartialEq, Readable, Writable)]
pub struct Newtype(pub u16);
