//! Programs and libraries of ELF for 64 bits, by the "System V Application Binary Interface", chapters 4 and 5, in
//! either byte order.
use speedy::{Readable, Writable};

/// What a file begins with (chapter 4, "ELF Header").
#[derive(Readable, Writable)]
pub struct FileHeader {
    /// 1 for 32 bits, 2 for 64.
    #[speedy(constant_prefix = b"\x7fELF")]
    pub class: u8,
    /// 1 for little endian, 2 for big endian, of all that follows.
    pub order: u8,
    pub ident_version: u8,
    pub system: u8,
    pub system_version: u8,
    pub padding: [u8; 7],
    /// 2 is a program, 3 a library or a program at any address.
    pub kind: u16,
    pub machine: u16,
    pub version: u32,
    /// The address at which it begins to run.
    pub entry: u64,
    pub segments_offset: u64,
    pub sections_offset: u64,
    pub flags: u32,
    pub header_size: u16,
    pub segment_size: u16,
    pub segment_count: u16,
    pub section_size: u16,
    pub section_count: u16,
    /// Which section has the names of all sections.
    pub names: u16,
}

/// What is put into memory together (chapter 5, "Program Header").
#[derive(Readable, Writable)]
pub struct Segment {
    pub kind: u32,
    /// 1 to run, 2 to write, 4 to read.
    pub flags: u32,
    pub offset: u64,
    pub address: u64,
    pub physical_address: u64,
    pub file_size: u64,
    pub memory_size: u64,
    pub alignment: u64,
}

/// A part of the file (chapter 4, "Sections").
#[derive(Readable, Writable)]
pub struct Section {
    /// Where its name begins in the section of names.
    pub name: u32,
    pub kind: u32,
    pub flags: u64,
    pub address: u64,
    pub offset: u64,
    pub size: u64,
    pub link: u32,
    pub info: u32,
    pub alignment: u64,
    pub entry_size: u64,
}

/// A symbol (chapter 4, "Symbol Table").
#[derive(Readable, Writable)]
pub struct Symbol {
    /// Where its name begins in the section of names that the table's section links to.
    pub name: u32,
    /// What it is in the lower four bits, and how it is bound in the upper ones.
    pub info: u8,
    /// Who sees it, in the lower two bits.
    pub visibility: u8,
    /// The number of the section that it lies in, or one of those from 0xff00 on, which mean something else.
    pub section: u16,
    pub value: u64,
    pub size: u64,
}

/// A table of segments, sections or symbols, to its end.
#[derive(Readable, Writable)]
pub struct Table<T> {
    #[speedy(length = ..)]
    pub items: Vec<T>,
}
