//! Values whose number of bytes fields before them tell.
use speedy::{Readable, Writable};

#[derive(Readable, Writable)]
pub struct Body {
    pub kind: u8,
    pub name: String,
}

/// A size that counts its own header too.
#[derive(Readable, Writable)]
pub struct SegmentHeader {
    pub version: u8,
    pub size: u16,
}

#[derive(Readable, Writable)]
pub struct Segment {
    pub header: SegmentHeader,
    #[speedy(length = header.size - 3)]
    pub body: Body,
}

/// A value that ends where its bytes do.
#[derive(Readable, Writable)]
pub struct Tail {
    pub kind: u8,
    #[speedy(length = ..)]
    pub samples: Vec<u16>,
}

/// Two sizes before what has them.
#[derive(Readable, Writable)]
pub struct Record {
    pub size: u8,
    pub name_length: u8,
    #[speedy(length = size)]
    pub tail: Tail,
    #[speedy(length = name_length)]
    pub name: String,
}

/// What holds frames is read from borrowed bytes, as they are.
#[derive(Readable, Writable)]
pub struct Log<T> {
    pub records: Vec<Record>,
    pub more: T,
}

#[derive(Readable, Writable)]
pub enum Event<'a> {
    Ping,
    Said { who: u16, text: &'a str },
}

/// An enum that borrows, in a frame in a variant.
#[derive(Readable, Writable)]
pub enum Chunk<'a> {
    Empty,
    Full {
        size: u32,
        #[speedy(length = size)]
        event: Event<'a>,
    },
}
