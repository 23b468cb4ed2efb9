//! Maps and sets of a length that fields before them tell.
use indexmap::{IndexMap, IndexSet};
use speedy::{Readable, Writable};
use std::collections::{BTreeMap, BTreeSet, HashMap, HashSet};

/// A number tells the length of each map, with a flag behind it.
#[derive(Readable, Writable)]
pub struct ToldMaps {
    pub count: u8,
    pub is_last: bool,
    #[speedy(length = count)]
    pub sorted: BTreeMap<u8, u16>,
    #[speedy(length = count - 1)]
    pub hashed: HashMap<u8, bool>,
    #[speedy(length = count * 2)]
    pub listed: IndexMap<u8, u8>,
}

#[derive(Readable, Writable)]
pub struct ToldSets(
    pub u8,
    #[speedy(length = t0)] pub BTreeSet<u16>,
    #[speedy(length = t0 / 2)] pub HashSet<u16>,
    #[speedy(length = 2)] pub IndexSet<u16>,
);

/// A map of any keys and values.
#[derive(Readable, Writable)]
pub struct ToldTable<K, V>
where
    K: Ord,
{
    pub count: u16,
    #[speedy(length = count)]
    pub rows: BTreeMap<K, V>,
}
