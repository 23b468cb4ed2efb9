//! Lists, maps and sets behind lengths of each width.
use indexmap::{IndexMap, IndexSet};
use speedy::{Readable, Writable};
use std::collections::{BTreeMap, BTreeSet, HashMap, HashSet};

#[derive(Readable, Writable)]
pub struct LengthU7 {
    #[speedy(length_type = u7)]
    pub data: Vec<u8>,
}

#[derive(Readable, Writable)]
pub struct LengthU8 {
    #[speedy(length_type = u8)]
    pub data: Vec<u8>,
}

#[derive(Readable, Writable)]
pub struct LengthU16 {
    #[speedy(length_type = u16)]
    pub data: Vec<u8>,
}

#[derive(Readable, Writable)]
pub struct LengthU32 {
    #[speedy(length_type = u32)]
    pub data: Vec<u8>,
}

#[derive(Readable, Writable)]
pub struct LengthU64 {
    #[speedy(length_type = u64)]
    pub data: Vec<u8>,
}

#[derive(Readable, Writable)]
pub struct LengthVarint {
    #[speedy(length_type = u64_varint)]
    pub data: Vec<u8>,
}

#[derive(Readable, Writable)]
pub struct MapWidths {
    #[speedy(length_type = u7)]
    pub seven: BTreeMap<u8, u16>,
    #[speedy(length_type = u8)]
    pub byte: BTreeMap<u8, u16>,
    #[speedy(length_type = u16)]
    pub short: BTreeMap<u8, u16>,
    #[speedy(length_type = u64_varint)]
    pub variable: BTreeMap<u8, u16>,
}

#[derive(Readable, Writable)]
pub struct SetWidths {
    #[speedy(length_type = u7)]
    pub seven: BTreeSet<u16>,
    #[speedy(length_type = u8)]
    pub byte: BTreeSet<u16>,
    #[speedy(length_type = u16)]
    pub short: BTreeSet<u16>,
    #[speedy(length_type = u64_varint)]
    pub variable: BTreeSet<u16>,
}

#[derive(Readable, Writable)]
pub struct UnsortedWidths {
    #[speedy(length_type = u16)]
    pub hashed: HashMap<u8, u16>,
    #[speedy(length_type = u64_varint)]
    pub listed: IndexMap<u8, u16>,
    #[speedy(length_type = u8)]
    pub items: HashSet<u16>,
    #[speedy(length_type = u7)]
    pub ranked: IndexSet<u16>,
}
