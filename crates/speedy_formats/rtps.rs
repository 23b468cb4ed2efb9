//! Messages of RTPS, by "The Real-time Publish-Subscribe Protocol, DDS Interoperability Wire Protocol 2.5" of the OMG.
//! A flag of each submessage tells the order of its numbers.
use speedy::{PaddingBytes, Readable, Writable};

/// What a message begins with (section 9.4.4).
#[derive(Readable, Writable)]
pub struct Header {
    #[speedy(constant_prefix = b"RTPS")]
    pub major: u8,
    pub minor: u8,
    pub vendor: [u8; 2],
    /// Which participant sent it.
    pub participant: [u8; 12],
}

/// A submessage (section 9.4.5.1). Bit 0 of its flags tells the order of its length and of its body.
#[derive(Readable)]
pub struct Frame<'a> {
    pub kind: u8,
    pub flags: u8,
    pub size: u16,
    #[speedy(length = size)]
    pub body: &'a [u8],
}

/// Who sends or receives, within a participant (section 9.3.1.2): three bytes of a key, and a kind.
pub type EntityId = [u8; 4];

/// The body of INFO_TS without the flag I (section 9.4.5.12): seconds since 1970, and their 2^32nd parts.
#[derive(Readable, Writable)]
pub struct Timestamp {
    pub seconds: u32,
    pub fraction: u32,
}

/// The number of a change (section 9.3.2.2).
#[derive(Readable, Writable)]
pub struct SequenceNumber {
    pub high: i32,
    pub low: u32,
}

/// The body of HEARTBEAT (section 9.4.5.7): which changes a writer has.
#[derive(Readable, Writable)]
pub struct Heartbeat {
    pub reader: EntityId,
    pub writer: EntityId,
    pub first: SequenceNumber,
    pub last: SequenceNumber,
    pub count: i32,
}

/// A set of numbers from a first one on (section 9.4.2.6): a bit for each, the highest first.
#[derive(Readable, Writable)]
pub struct SequenceNumberSet {
    pub base: SequenceNumber,
    pub bits: u32,
    #[speedy(length = (bits + 31) / 32)]
    pub bitmap: Vec<u32>,
}

/// The body of ACKNACK (section 9.4.5.2): which changes a reader lacks.
#[derive(Readable, Writable)]
pub struct AckNack {
    pub reader: EntityId,
    pub writer: EntityId,
    pub lacking: SequenceNumberSet,
    pub count: i32,
}

/// What stands before the parameters and the payload of DATA (section 9.4.5.3). What follows begins so many bytes
/// after the offset's own, of which 16 are known.
#[derive(Readable, Writable)]
pub struct DataStart<'a> {
    pub extra_flags: u16,
    pub offset: u16,
    pub reader: EntityId,
    pub writer: EntityId,
    pub number: SequenceNumber,
    #[speedy(length = offset - 16)]
    pub unknown: &'a [u8],
}

/// A parameter (section 9.4.2.11). The list ends with one of the kind 1.
#[derive(Readable, Writable)]
pub struct Parameter<'a> {
    pub kind: u16,
    pub size: u16,
    #[speedy(length = size)]
    pub value: &'a [u8],
}

/// A text of CDR: its bytes with a NUL, and padding up to a multiple of four.
#[derive(Readable)]
pub struct CdrText<'a> {
    pub size: u32,
    #[speedy(length = size)]
    pub text: &'a [u8],
    #[speedy(length = (4 - size % 4) % 4)]
    pub padding: PaddingBytes,
}
