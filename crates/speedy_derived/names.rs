//! Names that the made module has uses for itself: of types, of parameters, of fields and of parts that it names.
use speedy::{Readable, Writable};

/// What came of it.
#[derive(Readable, Writable)]
pub enum Result {
    Pass,
    Fail { error: u8, writer: u16, reader: String },
}

#[derive(Readable, Writable)]
pub struct Context {
    pub r#type: u8,
}

#[derive(Readable, Writable)]
pub struct Part<Layout> {
    pub reader: Layout,
    pub writer: Context,
    pub parts: Option<u8>,
}

#[derive(Readable, Writable)]
pub enum Message {
    Hello {
        data: u8,
        #[speedy(length_type = u8)]
        record: String,
    },
}

#[derive(Readable, Writable)]
pub struct MessageHello {
    #[speedy(constant_prefix = "a")]
    pub a_b: u8,
    #[speedy(constant_prefix = "b")]
    pub ab: u8,
}

pub mod inner {
    use speedy::{Readable, Writable};

    #[derive(Readable, Writable)]
    pub enum Kind {
        A,
        B(u8, super::Context),
    }
}
