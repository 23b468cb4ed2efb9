//! Structs that are generic in what a map, a set, a list or an array holds.
use speedy::{Readable, Writable};
use std::borrow::Cow;
use std::collections::{BTreeMap, BTreeSet, HashMap, HashSet};
use std::hash::Hash;

#[derive(Readable, Writable)]
pub struct GenericWithDefault<T = u8> {
    pub inner: T,
}

#[derive(Readable, Writable)]
pub struct ArrayOf<T> {
    pub data: [T; 4],
}

#[derive(Readable, Writable)]
pub struct ListOf<T>(pub Vec<T>);

#[derive(Readable, Writable)]
pub struct HashSetOf<T>(pub HashSet<T>)
where
    T: Hash + Eq;

#[derive(Readable, Writable)]
pub struct TreeMapOf<K, V>(pub BTreeMap<K, V>)
where
    K: Ord;

#[derive(Readable, Writable)]
pub struct TreeSetOf<T>(pub BTreeSet<T>)
where
    T: Ord;

#[derive(Readable, Writable)]
pub struct CowOfHashMap<'a, K, V>(pub Cow<'a, HashMap<K, V>>)
where
    K: Hash + Eq + Clone,
    V: Clone;

#[derive(Readable, Writable)]
pub struct CowOfHashSet<'a, T>(pub Cow<'a, HashSet<T>>)
where
    T: Hash + Eq + Clone;

#[derive(Readable, Writable)]
pub struct CowOfTreeSet<'a, T>(pub Cow<'a, BTreeSet<T>>)
where
    T: Ord + Clone;
