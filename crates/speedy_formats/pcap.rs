//! Files of captured packets (pcap), by the draft "PCAP Capture File Format" of the IETF's group opsawg. The magic
//! number tells the order of all numbers.
use speedy::{Readable, Writable};
use std::borrow::Cow;

/// What a file begins with (section 4).
#[derive(Readable, Writable)]
pub struct FileHeader {
    pub magic: u32,
    pub major: u16,
    pub minor: u16,
    pub reserved: [u8; 8],
    /// The most bytes that are kept of a packet.
    pub longest: u32,
    /// What the packets begin with, in the lower 16 bits: 1 is Ethernet.
    pub link: u32,
}

/// A packet (section 5). Its bytes lie in those of a file in memory, and are owned where they come from a stream.
#[derive(Readable, Writable)]
pub struct Packet<'a> {
    /// Seconds since 1970.
    pub seconds: u32,
    /// Microseconds or nanoseconds, as the magic number tells.
    pub fraction: u32,
    /// How many bytes were kept.
    pub captured: u32,
    /// How many bytes the packet had.
    pub original: u32,
    #[speedy(length = captured)]
    pub bytes: Cow<'a, [u8]>,
}

/// A file: its header, and packets to the end.
#[derive(Readable, Writable)]
pub struct Capture<'a> {
    pub header: FileHeader,
    #[speedy(length = ..)]
    pub packets: Vec<Packet<'a>>,
}
