//! What a small protocol says: a header, of one version or the other, and then messages.
use speedy::{Readable, Writable};

/// What a stream begins with: a magic number, and a header of any version after the number of its bytes.
#[derive(Debug, PartialEq, Readable, Writable)]
pub struct Start {
    #[speedy(constant_prefix = b"MSGS", length_type = u8)]
    pub header: Vec<u8>,
}

/// The header of version 1.
#[derive(Debug, PartialEq, Readable, Writable)]
pub struct Header {
    pub version: u16,
    pub flags: u16,
}

/// The header of version 2 has a field more, at its end.
#[derive(Debug, PartialEq, Readable, Writable)]
pub struct Header2 {
    pub version: u16,
    pub flags: u16,
    pub session: u64,
}

/// What a sensor measured.
#[derive(Debug, PartialEq, Readable, Writable)]
pub struct Reading {
    pub second: u32,
    pub value: i32,
}

/// A message. Its texts and bytes lie in what it is read from.
#[derive(Debug, PartialEq, Readable, Writable)]
#[speedy(tag_type = u8)]
pub enum Message<'a> {
    #[speedy(tag = 1)]
    Ping,
    #[speedy(tag = 2)]
    Hello {
        name: &'a str,
        mail: Option<&'a str>,
    },
    #[speedy(tag = 3)]
    Readings {
        sensor: u16,
        list: Vec<Reading>,
    },
    #[speedy(tag = 4)]
    Blob(&'a [u8]),
    #[speedy(tag = 5)]
    Failure {
        code: u32,
        text: &'a str,
    },
    #[speedy(tag = 255)]
    Bye,
}

/// A message behind the number of its bytes, for callers in other languages.
#[derive(Debug, PartialEq, Readable, Writable)]
pub struct FramedMessage<'a> {
    pub size: u16,
    #[speedy(length = size)]
    pub message: Message<'a>,
}

/// A frame with whatever stands in it.
#[derive(Debug, PartialEq, Readable, Writable)]
pub struct FramedBytes {
    #[speedy(length_type = u16)]
    pub bytes: Vec<u8>,
}
