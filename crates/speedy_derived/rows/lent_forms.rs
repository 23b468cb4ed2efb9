//! Structs of one part that borrows from what it is read from.
use speedy::{Readable, Writable};
use std::borrow::Cow;

#[derive(Readable, Writable)]
pub struct CowOfBytes<'a> {
    pub bytes: Cow<'a, [u8]>,
}

#[derive(Readable, Writable)]
pub struct CowOfText<'a> {
    pub inner: Cow<'a, str>,
}

#[derive(Readable, Writable)]
pub struct LentBytes<'a>(pub &'a [u8]);
