//! Enums with tags of each width, without parts and with them.
use speedy::{Readable, Writable};

#[derive(Readable, Writable)]
#[speedy(tag_type = u16)]
pub enum TagU16 {
    A,
    B = 0xabcd,
    C,
}

#[derive(Readable, Writable)]
#[speedy(tag_type = u32)]
pub enum TagU32 {
    A,
    B = 0xabcd_ef01,
    C,
}

#[derive(Readable, Writable)]
#[speedy(tag_type = u64)]
#[repr(u64)]
pub enum TagU64 {
    A,
    B = 0xabcd_ef01_2345_6789_u64,
    C,
}

#[derive(Readable, Writable)]
pub enum Plain {
    /// The first tag is 0.
    A,
    B = 10,
    C,
}

#[derive(Readable, Writable)]
#[speedy(tag_type = u7)]
pub enum TagU7 {
    A,
    B,
    C = 0x7f,
}

#[derive(Readable, Writable)]
#[speedy(tag_type = u8)]
pub enum TagU8 {
    A,
    B = 0xab,
    C,
}

#[derive(Readable, Writable)]
#[speedy(tag_type = u64_varint)]
pub enum TagVarint {
    A,
    B = 0x1234,
}

#[derive(Readable, Writable)]
pub enum Mixed {
    A,
    B(u8, u16, u32),
    C {
        /// It has one byte.
        a: u8,
        b: u16,
        c: u32,
    },
}
