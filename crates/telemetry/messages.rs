//! What sensors send: who they are, and what they measured.
use speedy::{Readable, Writable};

/// What a sensor measured.
#[derive(Debug, PartialEq, Readable, Writable)]
pub struct Reading {
    /// Seconds since the sensor was started.
    pub second: u32,
    pub value: i32,
    pub is_exact: bool,
}

/// A message.
#[derive(Debug, PartialEq, Readable, Writable)]
#[speedy(tag_type = u8)]
pub enum Message<'a> {
    #[speedy(tag = 1)]
    Ping,
    /// Who the sensor is, and whom to tell where it fails.
    #[speedy(tag = 2)]
    Hello {
        name: &'a str,
        version: [u8; 3],
        mail: Option<&'a str>,
    },
    #[speedy(tag = 3)]
    Measured { sensor: u16, reading: Reading },
    /// A picture, or whatever else it took.
    #[speedy(tag = 4)]
    Blob(&'a [u8]),
    /// What it measured since it was asked before.
    #[speedy(tag = 5)]
    Measurements { sensor: u16, readings: Vec<Reading> },
}

/// A line of a log: a level, and a text up to the end of the bytes.
#[derive(Debug, PartialEq, Readable, Writable)]
pub struct Line<'a> {
    pub level: u8,
    #[speedy(length = ..)]
    pub text: &'a str,
}
