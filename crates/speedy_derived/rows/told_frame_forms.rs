//! A value whose number of bytes a field before it tells, with another field between them.
use speedy::{Readable, Writable};

#[derive(Readable, Writable)]
pub struct Body {
    pub kind: u8,
    pub name: String,
}

/// A body behind its size, and a flag between them.
#[derive(Readable, Writable)]
pub struct SizedBody {
    pub size: u16,
    pub is_last: bool,
    #[speedy(length = size)]
    pub body: Body,
}
