//! Lengths that more than a sum of earlier fields tells.
use speedy::{Readable, Writable};
use std::cmp::max;

const UNIT: usize = 4;

/// The options of an internet header.
#[derive(Readable, Writable)]
pub struct Header {
    pub first: u8,
    pub service: u8,
    #[speedy(length = (first & 0xf) as usize * 4 - 20)]
    pub options: Vec<u8>,
}

/// A length of three bytes.
#[derive(Readable, Writable)]
pub struct Short {
    pub high: u8,
    pub middle: u8,
    pub low: u8,
    #[speedy(length = ((high as usize) << 16) | ((middle as usize) << 8) | low as usize)]
    pub bytes: Vec<u8>,
}

/// A length that is short or long, and a padding.
#[derive(Readable, Writable)]
pub struct Padded {
    pub short: u8,
    pub long: u16,
    #[speedy(length = if short < 128 { short as usize } else { max(long as usize, 128) })]
    pub text: String,
    #[speedy(length = (UNIT - usize::from(long) % UNIT) % UNIT)]
    pub padding: Vec<u8>,
}
