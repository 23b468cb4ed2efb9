//! Files of captured packets (pcap).
use speedy::{Readable, Writable};

/// What a file of captured packets begins with. Its first number tells the byte order of the whole file.
#[derive(Debug, PartialEq, Readable, Writable)]
pub struct Capture {
    pub magic: u32,
    pub major: u16,
    pub minor: u16,
    pub reserved: [u8; 8],
    pub longest: u32,
    pub link: u32,
}

/// A packet, and how many of its bytes were captured.
#[derive(Debug, PartialEq, Readable, Writable)]
pub struct Packet {
    pub second: u32,
    pub microsecond: u32,
    pub captured: u32,
    pub original: u32,
    #[speedy(length = captured)]
    pub bytes: Vec<u8>,
}
