//! Files of sound (WAV), by "Multimedia Programming Interface and Data Specifications 1.0" of IBM and Microsoft.
//! Numbers are in little endian.
use speedy::{Readable, Writable};

/// A file: one chunk `RIFF` (chapter 2, "Resource Interchange File Format"), which holds all others.
#[derive(Readable, Writable)]
pub struct Riff<'a> {
    /// How many bytes come after this number.
    #[speedy(constant_prefix = b"RIFF")]
    pub size: u32,
    #[speedy(length = size)]
    pub wave: Wave<'a>,
}

/// The form `WAVE` (chapter 3): chunks to the end.
#[derive(Readable, Writable)]
pub struct Wave<'a> {
    #[speedy(constant_prefix = b"WAVE")]
    pub form: (),
    #[speedy(length = ..)]
    pub chunks: Vec<Chunk<'a>>,
}

/// A chunk. A content of an odd number of bytes has a byte of padding after it.
#[derive(Readable, Writable)]
pub struct Chunk<'a> {
    pub kind: [u8; 4],
    pub size: u32,
    #[speedy(length = size)]
    pub content: &'a [u8],
    #[speedy(length = size % 2)]
    pub padding: &'a [u8],
}

/// What the chunk `fmt ` begins with: how samples are written. Some formats have more after it.
#[derive(Readable)]
pub struct SampleFormat {
    /// 1 is PCM.
    pub tag: u16,
    pub channels: u16,
    /// Samples a second, of each channel.
    pub rate: u32,
    pub bytes_per_second: u32,
    /// Bytes of one sample of all channels.
    pub alignment: u16,
    pub bits: u16,
}
