//! What the calls of a library are timed over: a message that borrows, a header with entries, and a list of records.
use speedy::{Readable, Writable};

/// A message whose texts and bytes lie in those that are read.
#[derive(Debug, PartialEq, Readable, Writable)]
pub struct Message<'a> {
    pub number: u64,
    pub text: &'a str,
    pub content: &'a [u8],
    pub places: [i64; 3],
    pub level: u8,
}

#[derive(Debug, PartialEq, Readable, Writable)]
pub struct Entry {
    pub hash: u32,
    pub offset: u32,
    pub length: u16,
    pub flags: u16,
}

#[derive(Debug, PartialEq, Readable, Writable)]
pub struct Header {
    pub magic: u32,
    pub version: u16,
    pub flags: u16,
    pub entries: Vec<Entry>,
}

#[derive(Debug, PartialEq, Readable, Writable)]
pub struct Record {
    pub number: u64,
    pub text: String,
    pub content: Vec<u8>,
    pub places: Vec<i64>,
    pub level: u8,
}

#[derive(Debug, PartialEq, Readable, Writable)]
pub struct Records {
    pub list: Vec<Record>,
}
