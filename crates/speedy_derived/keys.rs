//! Keys of one's own: structs, an enum without parts, and a struct of both that is generic.
use speedy::{Endianness, Readable, Writable};
use std::collections::{BTreeMap, HashMap};
use std::net::IpAddr;

/// Where a piece stands.
#[derive(PartialEq, Eq, PartialOrd, Ord, Readable, Writable)]
pub struct Place {
    pub row: u16,
    pub column: i32,
}

#[derive(Clone, Copy, PartialEq, Eq, PartialOrd, Ord, Hash, Readable, Writable)]
#[speedy(tag_type = u8)]
pub enum Kind {
    King,
    Rook,
    Pawn,
}

/// A key of parts that are keys.
#[derive(PartialEq, Eq, PartialOrd, Ord, Readable, Writable)]
pub struct Piece<T> {
    pub place: Place,
    pub kind: Kind,
    pub name: String,
    pub note: Option<T>,
}

/// A key whose parts are keys by laws of the library.
#[derive(PartialEq, Eq, Hash, Readable, Writable)]
pub struct Peer {
    pub address: IpAddr,
    pub order: Endianness,
}

#[derive(Readable, Writable)]
pub struct Board {
    pub places: BTreeMap<Place, u8>,
    pub kinds: HashMap<Kind, u8>,
    pub pieces: BTreeMap<Piece<u8>, u8>,
    pub players: HashMap<Peer, u8>,
}
