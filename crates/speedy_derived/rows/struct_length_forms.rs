//! Lengths that fields of structs tell: of structs in structs, of many parts, and of one that borrows.
use speedy::{Readable, Writable};

/// What a letter begins with.
#[derive(Readable, Writable)]
pub struct Envelope {
    pub kind: u8,
    pub name: String,
    #[speedy(varint)]
    pub count: u64,
}

/// A struct in a struct.
#[derive(Readable, Writable)]
pub struct Stamped {
    pub id: i16,
    pub envelope: Envelope,
}

/// Two lengths, of fields at two depths, and a flag before what has them.
#[derive(Readable, Writable)]
pub struct Parcel {
    pub stamped: Stamped,
    pub is_last: bool,
    #[speedy(length = stamped.envelope.count)]
    pub note: String,
    #[speedy(length = stamped.id)]
    pub data: Vec<u8>,
}

/// Many parts, of which one has a length itself.
#[derive(Readable, Writable)]
pub struct Wide {
    pub is_first: bool,
    pub name_length: u8,
    #[speedy(length = name_length)]
    pub name: String,
    pub from: u32,
    pub to: u32,
    pub zone: i8,
    pub mark: char,
    pub time: u64,
    pub end: u16,
}

#[derive(Readable, Writable)]
pub struct WideBody {
    pub wide: Wide,
    #[speedy(length = wide.end - wide.name_length as u16)]
    pub items: Vec<u32>,
}

/// A struct that borrows.
#[derive(Readable, Writable)]
pub struct LentEnvelope<'a> {
    pub name: &'a str,
    pub count: u16,
}

#[derive(Readable, Writable)]
pub struct LentLetter<'a> {
    pub envelope: LentEnvelope<'a>,
    #[speedy(length = envelope.count)]
    pub text: &'a str,
}
