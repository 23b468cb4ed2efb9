//! An enum of many variants.
use speedy::{Readable, Writable};
use std::borrow::Cow;

#[derive(Readable, Writable)]
#[speedy(tag_type = u8)]
pub enum Many<'a> {
    #[speedy(tag = 3)]
    Nothing0,
    #[speedy(tag = 7)]
    Number1(u32),
    #[speedy(tag = 11)]
    Both2 { id: u64, is_new: bool },
    #[speedy(tag = 15)]
    Lent3(&'a str),
    #[speedy(tag = 19)]
    Text4(String),
    #[speedy(tag = 23)]
    Bytes5 { at: u32, bytes: &'a [u8] },
    #[speedy(tag = 27)]
    List6(Vec<u16>),
    #[speedy(tag = 31)]
    Either7(Cow<'a, str>, Option<u8>),
    #[speedy(tag = 35)]
    Nothing8,
    #[speedy(tag = 39)]
    Number9(u32),
    #[speedy(tag = 43)]
    Both10 { id: u64, is_new: bool },
    #[speedy(tag = 47)]
    Lent11(&'a str),
    #[speedy(tag = 51)]
    Text12(String),
    #[speedy(tag = 55)]
    Bytes13 { at: u32, bytes: &'a [u8] },
    #[speedy(tag = 59)]
    List14(Vec<u16>),
    #[speedy(tag = 63)]
    Either15(Cow<'a, str>, Option<u8>),
    #[speedy(tag = 67)]
    Nothing16,
    #[speedy(tag = 71)]
    Number17(u32),
    #[speedy(tag = 75)]
    Both18 { id: u64, is_new: bool },
    #[speedy(tag = 79)]
    Lent19(&'a str),
    #[speedy(tag = 83)]
    Text20(String),
    #[speedy(tag = 87)]
    Bytes21 { at: u32, bytes: &'a [u8] },
    #[speedy(tag = 91)]
    List22(Vec<u16>),
    #[speedy(tag = 95)]
    Either23(Cow<'a, str>, Option<u8>),
}
