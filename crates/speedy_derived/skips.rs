//! Fields without bytes, of types that need an allocator for their default, or that have no layout.
use speedy::{Readable, Writable};
use std::collections::HashMap;
use std::marker::PhantomData;

#[derive(Readable, Writable)]
pub struct Session<T> {
    pub id: u32,
    #[speedy(skip)]
    pub names: HashMap<u8, Vec<u16>>,
    #[speedy(skip)]
    pub offset: isize,
    #[speedy(skip)]
    pub last: (Option<T>, String),
    #[speedy(skip)]
    pub kind: PhantomData<T>,
}

#[derive(Readable, Writable)]
pub enum Step {
    Named {
        first_name: u8,
        last_name: u8,
        #[speedy(skip)]
        cached: Box<str>,
    },
    Left(#[speedy(skip)] Vec<u8>, u16),
}
