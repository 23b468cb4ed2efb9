//! Types of each kind, whose bytes the tests of tools/inspect show.
use smallvec::SmallVec;
use speedy::{Readable, Writable};
use std::borrow::Cow;
use std::collections::{BTreeMap, HashSet};
use std::time::Duration;

const UNIT: u16 = 2;

#[derive(Readable, Writable)]
pub struct Header {
    #[speedy(constant_prefix = b"SHOW")]
    pub version: u8,
    pub count: u16,
}

#[derive(Readable, Writable)]
pub struct File<'a> {
    pub header: Header,
    #[speedy(length = header.count * UNIT)]
    pub points: Vec<Point<i16>>,
    pub name: String,
    #[speedy(length_type = u8)]
    pub note: Option<&'a str>,
    pub padding: [u8; 12],
    #[speedy(skip)]
    pub cache: u32,
}

#[derive(Readable, Writable)]
pub struct Point<T> {
    pub x: T,
    pub y: T,
}

#[derive(Readable, Writable)]
#[speedy(tag_type = u8)]
pub enum Message<'a> {
    Ping,
    #[speedy(tag = 7)]
    Text { from: u32, text: Cow<'a, str> },
    Moved(Point<f32>, Option<Duration>),
}

#[derive(Readable, Writable)]
pub struct Table {
    pub rows: BTreeMap<u8, String>,
    pub seen: HashSet<char>,
    pub small: SmallVec<[u32; 2]>,
    #[speedy(varint)]
    pub size: u64,
}

#[derive(Readable, Writable)]
pub struct Body {
    pub kind: u8,
    pub name: String,
}

#[derive(Readable, Writable)]
pub struct Frame {
    pub size: u16,
    #[speedy(length = size - 2)]
    pub body: Body,
    pub sum: u8,
}

#[derive(Readable, Writable)]
pub struct Log {
    pub level: u8,
    #[speedy(length = ..)]
    pub records: Vec<Body>,
}

#[derive(Readable, Writable)]
pub struct Grown {
    pub id: u16,
    #[speedy(default_on_eof)]
    pub port: u16,
}

#[derive(Readable, Writable)]
#[speedy(depth = 3)]
pub struct Tree {
    pub value: u8,
    pub below: Vec<Tree>,
}

pub mod wire {
    use speedy::{Readable, Writable};

    #[derive(Readable, Writable)]
    pub struct Packet {
        pub kind: super::Header,
        pub flags: (bool, u64),
    }
}
