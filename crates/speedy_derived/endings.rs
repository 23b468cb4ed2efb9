//! Types that end where the bytes do, and lengths that signed numbers tell.
use speedy::{Readable, Writable};

/// A number, and the rest of the bytes as numbers.
#[derive(Readable, Writable)]
pub struct Packet {
    pub kind: u8,
    #[speedy(length = ..)]
    pub samples: Vec<u16>,
}

/// A text that is the rest of the bytes, and lies in them.
#[derive(Readable, Writable)]
pub struct Line<'a> {
    pub key: [u8; 4],
    pub level: i8,
    #[speedy(length = ..)]
    pub text: &'a str,
}

/// A struct that grew: older bytes end before the last fields.
#[derive(Readable, Writable)]
pub struct Grown {
    pub id: u16,
    #[speedy(default_on_eof)]
    pub port: u16,
    #[speedy(default_on_eof)]
    pub name: String,
}

/// A length below zero is none.
#[derive(Readable, Writable)]
pub struct Signed {
    pub count: i16,
    pub offset: i16,
    pub scale: i32,
    #[speedy(length = count * 2 - offset)]
    pub items: Vec<u8>,
}
