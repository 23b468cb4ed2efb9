//! Types whose values hold values of their own type, each with a bound on its levels.
use speedy::{Readable, Writable};

/// A value with a name, and the nodes below it.
#[derive(Debug, PartialEq, Readable, Writable)]
#[speedy(depth = 16)]
pub struct Node {
    pub value: u8,
    pub name: String,
    pub children: Vec<Node>,
}

/// A step, what may follow it, a mark, and other steps by their names.
#[derive(Readable, Writable)]
#[speedy(depth = 10)]
pub struct Step(
    pub u16,
    pub Option<Box<Self>>,
    pub [u8; 3],
    pub Vec<(String, Step)>,
    #[speedy(skip)] pub u8,
);

/// A value of JSON.
#[derive(Debug, PartialEq, Readable, Writable)]
#[speedy(depth = 16, tag_type = u8)]
pub enum Json {
    Null,
    Bool(bool),
    Number(f64),
    Text(String),
    List(Vec<Json>),
    Object(Vec<(String, Json)>),
}

/// A document, whose parts hold values of their own types.
#[derive(Debug, PartialEq, Readable, Writable)]
pub struct Document {
    pub version: u16,
    pub root: Json,
    pub outline: Node,
}
