//! Structs that borrow from what they are read from.
use speedy::{Readable, Writable};
use std::borrow::Cow;
use std::collections::BTreeMap;

/// Two cows of different types.
#[derive(Readable, Writable)]
pub struct TwoCows<'a> {
    pub a: Cow<'a, BTreeMap<u8, u8>>,
    pub b: Cow<'a, [u8]>,
}

#[derive(Readable, Writable)]
pub struct LentText<'a>(pub &'a str);
