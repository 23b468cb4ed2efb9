//! Other crates that encode the documents: bincode, and rmp-serde for MessagePack.

use crate::documents::{coder, Coder};
use crate::ports::bench_length;
use crate::rows::Side;
use peer_crates::serde::{de::DeserializeOwned, Serialize};
use peer_crates::{bincode, rmp_serde};
use std::hint::black_box as bb;

pub trait Peered: Serialize + DeserializeOwned + 'static {}

impl<T: Serialize + DeserializeOwned + 'static> Peered for T {}

/// The coders of a document, each under its own settings: bincode's are numbers as they are, in the
/// little order, and lengths of eight bytes.
pub fn coders_of<T: Peered>(value: &'static T) -> Vec<Coder> {
    vec![
        coder!(
            "bincode",
            value,
            bincode::serialize,
            bincode::deserialize::<T>
        ),
        coder!(
            "MessagePack",
            value,
            rmp_serde::to_vec,
            rmp_serde::from_slice::<T>
        ),
    ]
}
