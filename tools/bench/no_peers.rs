//! In place of peers.rs, protobuf.rs and in_place.rs, where the packages of the other crates are not installed.

use crate::documents::Coder;
use crate::ports::Slot;
use crate::views::Viewer;

pub trait Peered {}

impl<T> Peered for T {}

pub fn coders_of<T: Peered>(_value: &'static T) -> Vec<Coder> {
    Vec::new()
}

pub fn viewers_of_numbers(_numbers: &'static Vec<u32>, _at: usize) -> Vec<Viewer> {
    Vec::new()
}

pub fn viewers_of_slots(_slots: &'static Vec<Slot>, _at: usize) -> Vec<Viewer> {
    Vec::new()
}
