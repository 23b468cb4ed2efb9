//! Lengths that fields of a struct tell, which stands before.
use speedy::{Readable, Writable};

/// What a letter begins with.
#[derive(Readable, Writable)]
pub struct Envelope {
    pub kind: u8,
    pub name: String,
    #[speedy(varint)]
    pub count: u64,
}

/// A length of two fields of one struct.
#[derive(Readable, Writable)]
pub struct Letter {
    pub envelope: Envelope,
    #[speedy(length = envelope.count * 2 - envelope.kind as u64)]
    pub pages: Vec<u16>,
}

/// A generic struct, without names of fields.
#[derive(Readable, Writable)]
pub struct Tagged<T>(pub u8, pub T);

#[derive(Readable, Writable)]
pub struct TaggedBody<T> {
    pub tagged: Tagged<T>,
    #[speedy(length = tagged.0)]
    pub bytes: Vec<u8>,
}

/// A struct in a variant.
#[derive(Readable, Writable)]
pub enum Delivery {
    Empty,
    Full {
        tagged: Tagged<u16>,
        #[speedy(length = tagged.0 / 2)]
        words: Vec<u16>,
    },
}
