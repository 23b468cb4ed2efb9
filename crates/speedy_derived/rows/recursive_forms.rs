//! Types that hold themselves, of other forms and depths.
use speedy::{Readable, Writable};

#[derive(Readable, Writable)]
#[speedy(depth = 32)]
pub struct RecursiveStruct {
    pub inner: Vec<RecursiveStruct>,
}

#[derive(Readable, Writable)]
#[speedy(depth = 2)]
pub struct Shallow(pub Option<Box<Shallow>>, pub u8);

/// Boxes, a pair of them, and tags that are set.
#[derive(Readable, Writable)]
#[speedy(depth = 8, tag_type = u64_varint)]
pub enum Expr {
    #[speedy(tag = 200)]
    Add(Box<Expr>, Box<Self>),
    Call {
        name: String,
        arguments: Vec<Expr>,
        #[speedy(skip)]
        line: u32,
    },
    #[speedy(tag = 3)]
    Maybe(Option<Box<Expr>>),
    Point(u8, [i16; 2]),
    Nothing,
}

/// Three levels alone, behind tags of the usual type.
#[derive(Readable, Writable)]
#[speedy(depth = 3)]
pub enum Nest {
    Nest(Vec<Nest>),
    Some(u8),
}
