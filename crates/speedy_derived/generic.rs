//! Structs that are generic in their parts; `rows` has those of other maps, and of sets and lists.
use speedy::{Readable, Writable};
use std::borrow::Cow;
use std::collections::{BTreeMap, HashMap};
use std::hash::Hash;

#[derive(Readable, Writable)]
pub struct Generic<T> {
    pub inner: T,
}

#[derive(Readable, Writable)]
pub struct HashMapOf<K, V>(pub HashMap<K, V>)
where
    K: Hash + Eq;

#[derive(Readable, Writable)]
pub struct CowOfTreeMap<'a, K, V>(pub Cow<'a, BTreeMap<K, V>>)
where
    K: Ord + Clone,
    V: Clone;
