//! Structs of other forms, parts that may be missing or are left out, and a number of few bytes.
use speedy::{Readable, Writable};

/// Parts without names.
#[derive(Readable, Writable)]
pub struct Triple(pub u8, pub u16, pub u32);

/// No part, and no braces.
#[derive(Readable, Writable)]
pub struct Unit;

#[derive(Readable, Writable)]
pub struct Optional {
    pub data: Option<u16>,
}

#[derive(Readable, Writable)]
pub struct Outcome {
    pub data: Result<u16, u16>,
}

/// No part between braces.
#[derive(Readable, Writable)]
pub struct Empty {}

/// A list of structs.
#[derive(Readable, Writable)]
pub struct Holder {
    pub field: Vec<Empty>,
}

#[derive(Readable, Writable)]
pub struct Skipping {
    pub a: u8,
    #[speedy(skip)]
    pub cache: u8,
    pub c: u8,
}

#[derive(Readable, Writable)]
pub struct Variable {
    #[speedy(varint)]
    pub value: u64,
}
