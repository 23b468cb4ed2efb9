//! Lists to the end of the bytes, texts up to a NUL and lists up to a mark, of more items, holders and numbers.
use speedy::private::VarInt64;
use speedy::{CText, ListUntil, Readable, Writable};
use std::borrow::Cow;

#[derive(Readable, Writable)]
pub struct RestOfBytes {
    #[speedy(length = ..)]
    pub items: Vec<u8>,
}

#[derive(Readable, Writable)]
pub struct RestOfWords {
    #[speedy(length = ..)]
    pub items: Vec<u16>,
}

#[derive(Readable, Writable)]
pub struct RestOfFlags {
    #[speedy(length = ..)]
    pub items: Vec<bool>,
}

#[derive(Readable, Writable)]
pub struct RestOfArrays {
    #[speedy(length = ..)]
    pub items: Vec<[u8; 2]>,
}

#[derive(Readable, Writable)]
pub struct RestOfPairs {
    #[speedy(length = ..)]
    pub items: Vec<(u8, bool)>,
}

#[derive(Readable, Writable)]
pub struct NulEnded<'a> {
    pub text: CText<Box<str>>,
    pub raw: CText<Box<[u8]>>,
    pub lent: CText<Cow<'a, str>>,
    pub bytes: CText<Cow<'a, [u8]>>,
}

#[derive(Readable, Writable)]
pub struct UntilWords {
    pub all: ListUntil<u8, u16, 9>,
}

#[derive(Readable, Writable)]
pub struct UntilLetters {
    pub all: ListUntil<u8, char, 9>,
}

#[derive(Readable, Writable)]
pub struct UntilVariable {
    pub all: ListUntil<VarInt64, u8, 128>,
}
