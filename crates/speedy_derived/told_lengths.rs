//! Texts and lists of a length that one field before them tells; `rows` has more of them.
use speedy::{Readable, Writable};
use std::borrow::Cow;

#[derive(Readable, Writable)]
pub struct ToldList {
    pub length: u8,
    #[speedy(length = length * 2)]
    pub data: Vec<bool>,
}

#[derive(Readable, Writable)]
pub struct ToldScores {
    pub length: u8,
    pub group: char,
    #[speedy(length = length)]
    pub scores: Vec<u16>,
}

#[derive(Readable, Writable)]
pub struct ToldCowText<'a> {
    pub length: u8,
    #[speedy(length = length * 2)]
    pub data: Cow<'a, str>,
}

#[derive(Readable, Writable)]
pub struct ToldBytes<'a> {
    pub length: u8,
    #[speedy(length = length * 2)]
    pub data: &'a [u8],
}
