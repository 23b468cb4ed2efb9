//! Types whose bytes bincode 1 wrote, by its default settings.
use speedy::{Readable, Writable};

/// What serde derived before.
#[derive(Debug, PartialEq, Readable, Writable)]
pub struct Settings {
    #[speedy(length_type = u64)]
    pub name: String,
    pub volume: Option<u8>,
    #[speedy(length_type = u64)]
    pub scores: Vec<u32>,
    #[speedy(length_type = u64)]
    pub tags: Vec<Tag>,
    pub theme: Theme,
}

/// An item of a list of texts: its length has eight bytes too.
#[derive(Debug, PartialEq, Readable, Writable)]
pub struct Tag {
    #[speedy(length_type = u64)]
    pub text: String,
}

#[derive(Debug, PartialEq, Readable, Writable)]
pub enum Theme {
    Light,
    Dark { contrast: u16 },
}
