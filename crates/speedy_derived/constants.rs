//! A part behind a constant; `rows` has constants of the other kinds.
use speedy::{Readable, Writable};

#[derive(Readable, Writable)]
pub struct BehindCharacter {
    #[speedy(constant_prefix = '苺')]
    pub value: (),
}
