//! Archives of a game (WAD): a table of lumps at an offset.
use speedy::{Readable, Writable};

/// What an archive begins with.
#[derive(Debug, PartialEq, Readable, Writable)]
pub struct Archive {
    #[speedy(constant_prefix = b"PWAD")]
    pub count: u32,
    pub table: u32,
}

/// Where a lump stands in the file, and its name, with zeros after it.
#[derive(Debug, PartialEq, Readable, Writable)]
pub struct Lump {
    pub offset: u32,
    pub size: u32,
    pub name: [u8; 8],
}
