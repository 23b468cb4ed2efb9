//! Headers and variants in which fields tell lengths: several numbers, and other parts between them.
use speedy::{Readable, Writable};

/// Two lengths before what has them, with a flag between the numbers.
#[derive(Readable, Writable)]
pub struct ToldHeader {
    pub name_length: u16,
    pub is_last: bool,
    #[speedy(varint)]
    pub end: u64,
    #[speedy(length = name_length)]
    pub name: String,
    #[speedy(length = end - name_length as u64)]
    pub value: Vec<u16>,
}

#[derive(Readable, Writable)]
pub enum ToldCases {
    Words {
        count: u8,
        #[speedy(length = count)]
        words: Vec<u16>,
    },
    Fixed(#[speedy(length = 3)] String, u8),
}
