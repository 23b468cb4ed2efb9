//! Each listed type at least once, by itself, within others, and as a key.
use indexmap::{IndexMap, IndexSet};
use smallvec::SmallVec;
use speedy::private::VarInt64;
use speedy::{Endianness, Readable, Writable};
use std::borrow::Cow;
use std::collections::{BTreeMap, BTreeSet, HashMap, HashSet};
use std::net::{IpAddr, Ipv4Addr, Ipv6Addr};
use std::num::{NonZeroI64, NonZeroI8, NonZeroU16, NonZeroU32};
use std::ops::{Range, RangeInclusive};
use std::time::Duration;
use uuid::Uuid;

/// Numbers that are not as they stand.
#[derive(Readable, Writable)]
pub struct ListedNumbers {
    pub some: (NonZeroU16, NonZeroI64),
    pub small: (NonZeroI8, NonZeroU32),
    pub all: (usize, i128, VarInt64),
}

#[derive(Readable, Writable)]
pub struct ListedLeaves {
    pub sign: char,
    pub time: Duration,
    pub order: Endianness,
    pub id: Uuid,
}

#[derive(Readable, Writable)]
pub struct ListedAddresses {
    pub short: Ipv4Addr,
    pub long: Ipv6Addr,
    pub either: IpAddr,
}

#[derive(Readable, Writable)]
pub struct ListedHolders<'a> {
    pub range: (Range<u16>, RangeInclusive<i8>),
    pub boxed: (Box<u16>, Box<str>, Box<[u16]>),
    pub small: SmallVec<[u16; 2]>,
    pub cow: Cow<'a, [char]>,
}

#[derive(Readable, Writable)]
pub struct ListedFlags {
    pub flags: [bool; 3],
    pub one: (u8,),
    pub options: Vec<Option<char>>,
    pub outcome: Result<Box<str>, ()>,
}

/// Arrays of what may be refused.
#[derive(Readable, Writable)]
pub struct ListedArrays {
    pub signs: [char; 2],
    pub names: [String; 2],
    pub pairs: [(u8, bool); 2],
}

#[derive(Readable, Writable)]
pub struct ListedMaps {
    pub sorted: BTreeMap<(u8, String), char>,
    pub hashed: HashMap<IpAddr, u8>,
    pub listed: IndexMap<Endianness, bool>,
}

#[derive(Readable, Writable)]
pub struct ListedSets {
    pub sorted: BTreeSet<Option<i8>>,
    pub hashed: HashSet<bool>,
    pub listed: IndexSet<char>,
}

/// An enum whose numbers are not in a row, as a key.
#[derive(Clone, Copy, PartialEq, Eq, PartialOrd, Ord, Readable, Writable)]
#[speedy(tag_type = u8)]
pub enum Rank {
    High = 9,
    Low = 2,
    Middle = 5,
}

#[derive(Readable, Writable)]
pub struct Ranked {
    pub names: BTreeMap<Rank, u8>,
}

/// An enum whose tags are of variable length.
#[derive(Readable, Writable)]
#[speedy(tag_type = u64_varint)]
pub enum ListedTags {
    None,
    #[speedy(tag = 300)]
    One(u8),
}

/// A map in a frame: a key that comes twice is written once.
#[derive(Readable, Writable)]
pub struct FramedMap {
    pub size: u8,
    #[speedy(length = size)]
    pub body: FramedBody,
}

#[derive(Readable, Writable)]
pub struct FramedBody {
    #[speedy(length_type = u64_varint)]
    pub names: BTreeMap<u8, u8>,
    #[speedy(varint)]
    pub number: u64,
}

/// Lengths of signed numbers, and of quotients.
#[derive(Readable, Writable)]
pub struct Reckoned {
    pub whole: i16,
    pub part: i16,
    pub shift: u8,
    #[speedy(length = whole / part)]
    pub quotient: Vec<u8>,
    #[speedy(length = whole % part)]
    pub remainder: Vec<u8>,
    #[speedy(length = (1_u8 << shift) as usize)]
    pub shifted: Vec<u8>,
}

#[derive(Readable, Writable)]
pub struct Chosen {
    pub kind: u8,
    pub count: u8,
    #[speedy(length = if kind != 2 { count.min(4) } else { count.saturating_sub(200) })]
    pub items: Vec<u8>,
    #[speedy(length = kind ^ 3 | count & 1)]
    pub others: Vec<u8>,
}
