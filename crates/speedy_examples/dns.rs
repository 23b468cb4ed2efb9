//! What a message of the domain name system begins with.
use speedy::{Readable, Writable};

/// What a message of the domain name system begins with, in big endian.
#[derive(Debug, PartialEq, Readable, Writable)]
pub struct Header {
    pub id: u16,
    pub flags: u16,
    pub questions: u16,
    pub answers: u16,
    pub authorities: u16,
    pub additional: u16,
}
