//! Bytes that mean nothing, among others and in a key.
use speedy::{Padding, PaddingBytes, Readable, Writable, ZeroBytes, Zeros};
use std::collections::BTreeSet;

const GAP: usize = 2;

/// A place, with bytes to the next multiple of four.
#[derive(Clone, Copy, PartialEq, Eq, PartialOrd, Ord, Readable, Writable)]
pub struct Spot {
    pub row: u8,
    pub unused: Padding<3>,
    pub column: u16,
    pub zeros: Zeros<GAP>,
}

#[derive(Readable, Writable)]
pub struct Board {
    pub name: String,
    pub gap: Padding<5>,
    pub places: Vec<Spot>,
    pub taken: BTreeSet<Spot>,
}

/// A header of its own bytes, and so many that mean nothing.
#[derive(Readable, Writable)]
pub struct Aligned<T, const N: usize> {
    pub header: T,
    pub rest: Padding<N>,
}

/// An attribute, whose size counts its first two fields too, and padding up to a multiple of four.
#[derive(Readable, Writable)]
pub struct Attribute {
    pub size: u16,
    pub kind: u16,
    #[speedy(length = size - 4)]
    pub content: Vec<u8>,
    #[speedy(length = (4 - size % 4) % 4)]
    pub padding: PaddingBytes,
}

/// A name of at most seven bytes, with zeros behind a shorter one.
#[derive(Readable, Writable)]
pub struct Caption {
    pub used: u8,
    #[speedy(length = used)]
    pub name: String,
    #[speedy(length = 7 - used)]
    pub unused: ZeroBytes,
}
