//! The directory of ZIP archives, by PKWARE's APPNOTE.TXT 6.3.10. Numbers are in little endian.
use speedy::{Readable, Writable};

/// What an archive ends with (section 4.3.16).
#[derive(Readable, Writable)]
pub struct DirectoryEnd<'a> {
    #[speedy(constant_prefix = b"PK\x05\x06")]
    pub disk: u16,
    pub directory_disk: u16,
    pub entries_here: u16,
    pub entries: u16,
    /// The bytes of the directory, which lies right before this.
    pub directory_size: u32,
    /// How many bytes of the archive come before the directory.
    pub directory_offset: u32,
    pub comment_size: u16,
    #[speedy(length = comment_size)]
    pub comment: &'a [u8],
}

/// What the directory (section 4.3.12) and the local header (section 4.3.7) both tell of a file.
#[derive(Readable, Writable)]
pub struct About {
    pub needs: u16,
    pub flags: u16,
    /// How its bytes are packed: 0 not at all, 8 by deflate.
    pub method: u16,
    /// Two seconds, minutes and hours in 5, 6 and 5 bits.
    pub time: u16,
    /// Day, month and years since 1980 in 5, 4 and 7 bits.
    pub date: u16,
    /// The CRC-32 of the file.
    pub checksum: u32,
    pub packed_size: u32,
    pub size: u32,
    pub name_size: u16,
    pub extra_size: u16,
}

/// A file of the archive, as the directory has it.
#[derive(Readable, Writable)]
pub struct Entry<'a> {
    #[speedy(constant_prefix = b"PK\x01\x02")]
    pub made_by: u16,
    pub about: About,
    pub comment_size: u16,
    pub disk: u16,
    pub inner_attributes: u16,
    pub outer_attributes: u32,
    /// How many bytes of the archive come before its local header.
    pub offset: u32,
    #[speedy(length = about.name_size)]
    pub name: &'a [u8],
    #[speedy(length = about.extra_size)]
    pub extra: &'a [u8],
    #[speedy(length = comment_size)]
    pub comment: &'a [u8],
}

/// The directory: entries to its end.
#[derive(Readable, Writable)]
pub struct Directory<'a> {
    #[speedy(length = ..)]
    pub entries: Vec<Entry<'a>>,
}

/// What stands before the packed bytes of a file.
#[derive(Readable)]
pub struct LocalHeader<'a> {
    #[speedy(constant_prefix = b"PK\x03\x04")]
    pub about: About,
    #[speedy(length = about.name_size)]
    pub name: &'a [u8],
    #[speedy(length = about.extra_size)]
    pub extra: &'a [u8],
}
