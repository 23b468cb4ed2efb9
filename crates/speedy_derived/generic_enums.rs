//! Enums that are generic in their parts, or in how long these are.
use speedy::{Readable, Writable};
use std::collections::BTreeMap;

#[derive(Readable, Writable)]
pub enum Several<T> {
    None,
    One(T),
    More { first: T, others: Vec<T> },
}

/// Two parameters, one of them with a bound.
#[derive(Readable, Writable)]
#[speedy(tag_type = u8)]
pub enum Lookup<K, V>
where
    K: Ord,
{
    #[speedy(tag = 4)]
    Missing,
    Found { key: K, value: V },
    All(BTreeMap<K, V>),
}

/// Generic in a number.
#[derive(Readable, Writable)]
#[speedy(tag_type = u8)]
pub enum Piece<const N: usize> {
    Raw([u8; N]),
    Numbered { id: u16, items: [u16; N] },
}
