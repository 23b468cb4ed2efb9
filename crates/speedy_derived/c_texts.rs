//! Texts and bytes that end with a NUL, owned and lent.
use speedy::{CText, Readable, Writable};
use std::borrow::Cow;

/// What an old header says of a file.
#[derive(Clone, PartialEq, Readable, Writable)]
pub struct Label {
    pub name: CText<String>,
    pub size: u16,
    pub raw: CText<Vec<u8>>,
    pub notes: Vec<CText<Box<str>>>,
}

/// A symbol, which points into the bytes that it is read from.
#[derive(Readable, Writable)]
pub struct Symbol<'a> {
    pub name: CText<&'a str>,
    pub alias: Option<CText<Cow<'a, str>>>,
    pub bytes: CText<&'a [u8]>,
}
