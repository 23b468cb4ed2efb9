//! Numbers that lie in one byte order, and of three bytes, among others and as keys.
use speedy::{Big, Little, Readable, U24, Writable};
use std::collections::BTreeMap;

/// The ports of a datagram, which lie in network order within a file of another.
#[derive(Clone, Copy, PartialEq, Eq, PartialOrd, Ord, Readable, Writable)]
pub struct Ports {
    pub source: Big<u16>,
    pub target: Big<u16>,
}

#[derive(Readable, Writable)]
pub struct Captured {
    pub seconds: u32,
    pub ports: Ports,
    pub offset: Little<i32>,
    pub ratio: Big<f32>,
    pub words: Vec<Big<u32>>,
    pub pair: [Little<u16>; 2],
    pub names: BTreeMap<Ports, u8>,
}

/// What is measured, in the order of its sender.
#[derive(Readable, Writable)]
#[speedy(tag_type = u8)]
pub enum Reading {
    Network(Big<i64>),
    Device { high: Little<u128>, low: Option<Little<i8>> },
}

/// What a frame begins with, whose length has three bytes.
#[derive(Clone, Copy, PartialEq, Eq, PartialOrd, Ord, Readable, Writable)]
pub struct FrameStart {
    pub length: U24,
    pub kind: u8,
    pub stream: Big<U24>,
    pub marks: [U24; 2],
}
