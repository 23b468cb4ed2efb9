//! Floats, by themselves and within other parts.
use speedy::{Readable, Writable};
use std::borrow::Cow;

#[derive(Readable, Writable)]
pub enum Place {
    First,
    Second,
    Third,
}

/// A number, a text, bytes, numbers that may be lent, a float, and an enum.
#[derive(Readable, Writable)]
pub struct Measured<'a> {
    pub number: u64,
    pub name: String,
    pub bytes: Vec<u8>,
    pub numbers: Cow<'a, [i64]>,
    pub ratio: f32,
    pub place: Place,
}

#[derive(Readable, Writable)]
pub struct Floats {
    pub all: Vec<f32>,
    pub some: (Option<f64>, [f64; 2]),
}
