//! Texts and lists of other types, of a length that one field before them tells.
use speedy::{Readable, Writable};
use std::borrow::Cow;

#[derive(Readable, Writable)]
pub struct ToldText {
    pub length: u8,
    #[speedy(length = length * 2)]
    pub data: String,
}

#[derive(Readable, Writable)]
pub struct ToldCow<'a> {
    pub length: u8,
    #[speedy(length = length * 2)]
    pub data: Cow<'a, [bool]>,
}

#[derive(Readable, Writable)]
pub struct ToldLentText<'a> {
    pub length: u8,
    #[speedy(length = length * 2)]
    pub data: &'a str,
}

#[derive(Readable, Writable)]
pub struct ToldTuple(pub u8, #[speedy(length = t0 * 2)] pub Vec<bool>);

#[derive(Readable, Writable)]
pub struct ToldWords {
    pub byte_count: u8,
    #[speedy(length = byte_count / 4)]
    pub data: Vec<u32>,
}
