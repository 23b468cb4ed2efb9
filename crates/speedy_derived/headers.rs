//! Fixed headers: arrays beside other parts, signed numbers among more than six, and arrays of any length.
use speedy::{Readable, Writable};

/// The header of a file of packets.
#[derive(Debug, PartialEq, Readable, Writable)]
pub struct Capture {
    pub magic: [u8; 4],
    pub major: u16,
    pub minor: u16,
    pub zone: i32,
    pub reserved: [u8; 15],
    pub limits: [u32; 3],
    pub network: i8,
    pub name: String,
}

/// As many bytes as its type says, behind a number.
#[derive(Readable, Writable)]
pub struct Block<const N: usize> {
    pub id: u16,
    pub bytes: [u8; N],
}

/// An array of anything.
#[derive(Readable, Writable)]
pub struct Tile<T> {
    pub corners: [T; 4],
    pub name: String,
}

#[derive(Readable, Writable)]
pub enum Sample {
    Load([f32; 3], i64),
    Named { key: [u8; 2], name: String },
}

/// An array between a number and what has the length that it tells.
#[derive(Readable, Writable)]
pub struct Keyed {
    pub count: u8,
    pub key: [u8; 4],
    #[speedy(length = count)]
    pub items: Vec<u16>,
}
