//! Texts, lists, maps and sets behind lengths of other widths, and options of these.
use speedy::{Readable, Writable};
use std::collections::{BTreeMap, HashMap, HashSet};

#[derive(Readable, Writable)]
pub struct LengthsOfMaps {
    #[speedy(length_type = u8)]
    pub tree: BTreeMap<u8, u16>,
    #[speedy(length_type = u64_varint)]
    pub hashed: HashSet<u16>,
}

#[derive(Readable, Writable)]
pub struct LengthOfOption {
    #[speedy(length_type = u16)]
    pub data: Option<Vec<u8>>,
}

#[derive(Readable, Writable)]
pub struct LengthBesideSigned {
    #[speedy(length_type = u8)]
    pub name: Option<String>,
    pub level: i16,
}

#[derive(Readable, Writable)]
pub enum LengthsInCases {
    A,
    B(#[speedy(length_type = u16)] Option<String>, u8),
    C {
        #[speedy(length_type = u7)]
        held: Option<BTreeMap<u8, u16>>,
    },
}

/// An enum of one variant, beside which others may come.
#[derive(Readable, Writable)]
#[speedy(tag_type = u8)]
pub enum LengthsInOneCase {
    #[speedy(tag = 4)]
    First {
        counts: HashMap<u8, u16>,
        #[speedy(length_type = u8)]
        name: Option<String>,
        level: i16,
        size: u64,
        is_new: bool,
    },
}
