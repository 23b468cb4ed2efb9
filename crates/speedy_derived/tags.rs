//! An enum with tags of its own; `rows` has tags of each width.
use speedy::{Readable, Writable};

/// Tags that are set apart from the numbers of `as`.
#[derive(Readable, Writable)]
#[speedy(tag_type = u8)]
pub enum OwnTag {
    #[speedy(tag = 20)]
    A = 10,
    B,
}
