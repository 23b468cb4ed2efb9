//! Images of PNG, by the W3C recommendation "Portable Network Graphics", third edition. Numbers are in big endian.
use speedy::{Readable, Writable};

/// An image: its signature (section 5.2), and chunks to the end.
#[derive(Readable, Writable)]
pub struct Image<'a> {
    #[speedy(constant_prefix = b"\x89PNG\r\n\x1a\n")]
    pub signature: (),
    #[speedy(length = ..)]
    pub chunks: Vec<Chunk<'a>>,
}

/// A chunk (section 5.3), whose content lies in the bytes of the image.
#[derive(Readable, Writable)]
pub struct Chunk<'a> {
    /// How many bytes the content has.
    pub size: u32,
    /// Four letters, as `IDAT`.
    pub kind: [u8; 4],
    #[speedy(length = size)]
    pub content: &'a [u8],
    /// The CRC-32 of kind and content.
    pub checksum: u32,
}

/// The content of the chunk `IHDR` (section 11.2.1).
#[derive(Readable)]
pub struct ImageHeader {
    pub width: u32,
    pub height: u32,
    /// Bits of a sample, or of an index into the palette.
    pub depth: u8,
    pub colour: u8,
    pub compression: u8,
    pub filter: u8,
    pub interlace: u8,
}
