//! The types that `speedy_lines` writes by hand, as `tools/derive` would take them.
use speedy::private::VarInt64;
use speedy::{Readable, Writable};
use std::borrow::Cow;

/// Numbers of variable length behind a constant, and a note.
#[derive(Readable, Writable)]
pub struct Frame {
    #[speedy(constant_prefix = b"SP", length_type = u64_varint)]
    pub parts: Vec<VarInt64>,
    #[speedy(length_type = u8)]
    pub note: String,
}

#[derive(Readable, Writable)]
pub enum Enum {
    A,
    B,
    C,
}

#[derive(Readable, Writable)]
pub enum DerivedEnum {
    A,
    B(u8, u16, u32),
    C { a: u8, b: u16, c: u32 },
}

/// Parts of several kinds.
#[derive(Readable, Writable)]
pub struct Record<'a>(pub u64, pub String, pub Vec<u8>, pub Cow<'a, [i64]>, pub Enum);

/// A value that holds others of its own type.
#[derive(Readable, Writable)]
#[speedy(depth = 16)]
pub struct Tree {
    pub value: u8,
    pub children: Vec<Tree>,
}
