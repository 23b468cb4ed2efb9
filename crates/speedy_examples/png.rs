//! Images of PNG: chunks of a length, a tag, content and a checksum.
use speedy::{Readable, Writable};

/// What an image begins with.
#[derive(Debug, PartialEq, Readable, Writable)]
pub struct Signature {
    #[speedy(constant_prefix = b"\x89PNG\r\n\x1a\n")]
    pub nothing: (),
}

/// A chunk, whose content lies in the bytes of the image.
#[derive(Debug, PartialEq, Readable, Writable)]
pub struct Chunk<'a> {
    pub length: u32,
    pub tag: [u8; 4],
    #[speedy(length = length)]
    pub content: &'a [u8],
    pub checksum: u32,
}
