//! Lists that end with a mark.
use speedy::{ListUntil, Readable, Writable};

/// The number that ends a list.
const END: usize = 255;

/// Options by their numbers, as DHCP has them, and a list of them in another list.
#[derive(Clone, Debug, PartialEq, Readable, Writable)]
pub struct Options {
    pub options: ListUntil<u8, Setting, END>,
    pub groups: ListUntil<u16, ListUntil<u8, bool, 0>, 1>,
}

/// What an option says.
#[derive(Clone, Debug, PartialEq, Readable, Writable)]
pub struct Setting {
    #[speedy(length_type = u8)]
    pub bytes: Vec<u8>,
}

/// Parameters that point into the bytes that they are read from.
#[derive(Readable, Writable)]
pub struct Parameters<'a> {
    pub all: ListUntil<u16, Parameter<'a>, 1>,
    pub size: u16,
}

/// A parameter.
#[derive(Readable, Writable)]
pub struct Parameter<'a> {
    #[speedy(length_type = u16)]
    pub value: &'a [u8],
}
