//! Time zone files (TZif), RFC 9636.
use speedy::{Readable, Writable};

/// A local time type record (section 3.2).
#[derive(Readable, Writable)]
pub struct LocalType {
    /// Seconds east of universal time.
    pub offset: i32,
    /// 1 where this is daylight saving time, else 0.
    pub is_daylight: u8,
    /// Where its name begins among the names of the block.
    pub name: u8,
}

/// A leap-second record (section 3.2), at a time of four or of eight bytes.
#[derive(Readable, Writable)]
pub struct Leap<T> {
    pub time: T,
    pub correction: i32,
}

/// A header (section 3.1) and its data block (section 3.2), with times of four or of eight bytes.
#[derive(Readable, Writable)]
pub struct Block<T> {
    #[speedy(constant_prefix = b"TZif")]
    pub version: u8,
    pub unused: [u8; 15],
    pub universal_count: u32,
    pub standard_count: u32,
    pub leap_count: u32,
    pub time_count: u32,
    pub type_count: u32,
    pub name_bytes: u32,
    /// Seconds since 1970 at which the local time changes, in ascending order.
    #[speedy(length = time_count)]
    pub times: Vec<T>,
    /// For each of these times the local type that begins there.
    #[speedy(length = time_count)]
    pub kinds: Vec<u8>,
    #[speedy(length = type_count)]
    pub types: Vec<LocalType>,
    /// Each name ends with a NUL.
    #[speedy(length = name_bytes)]
    pub names: Vec<u8>,
    #[speedy(length = leap_count)]
    pub leaps: Vec<Leap<T>>,
    #[speedy(length = standard_count)]
    pub standard: Vec<u8>,
    #[speedy(length = universal_count)]
    pub universal: Vec<u8>,
}

/// A file of version 2 and later. Its footer (section 3.3) has the rest of the bytes.
#[derive(Readable, Writable)]
pub struct Zone {
    pub old: Block<i32>,
    pub new: Block<i64>,
    #[speedy(constant_prefix = b"\n")]
    pub line_feed: (),
    /// A rule for times after the last one, as of the environment variable `TZ`, and a line feed.
    #[speedy(length = ..)]
    pub footer: Vec<u8>,
}
