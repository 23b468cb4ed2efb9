//! What a sensor measures.
use speedy::{Readable, Writable};

/// What a sensor measured.
#[derive(Debug, PartialEq, Readable, Writable)]
pub struct Reading {
    pub second: u32,
    pub value: i32,
}
