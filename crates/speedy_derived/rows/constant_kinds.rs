//! Parts behind constants of the other kinds.
use speedy::{Readable, Writable};

#[derive(Readable, Writable)]
pub struct BehindText {
    #[speedy(constant_prefix = "ABC")]
    pub value: (),
}

#[derive(Readable, Writable)]
pub struct BehindBytes {
    #[speedy(constant_prefix = b"ABC")]
    pub value: (),
}

#[derive(Readable, Writable)]
pub struct BehindByte {
    #[speedy(constant_prefix = b'A')]
    pub value: (),
}

#[derive(Readable, Writable)]
pub struct BehindTrue {
    #[speedy(constant_prefix = true)]
    pub value: (),
}

#[derive(Readable, Writable)]
pub struct BehindFalse {
    #[speedy(constant_prefix = false)]
    pub value: (),
}

#[derive(Readable, Writable)]
pub struct BehindU8 {
    #[speedy(constant_prefix = 10_u8)]
    pub value: (),
}

#[derive(Readable, Writable)]
pub struct BehindI8 {
    #[speedy(constant_prefix = -1_i8)]
    pub value: (),
}
