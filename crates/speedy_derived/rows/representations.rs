//! Structs whose place in memory is fixed, which changes no byte.
use speedy::{Readable, Writable};

#[derive(Readable, Writable)]
#[repr(transparent)]
pub struct TransparentU8(pub u8);

#[derive(Clone, Copy, Readable, Writable)]
#[repr(transparent)]
pub struct TransparentU16(pub u16);

#[derive(Readable, Writable)]
#[repr(transparent)]
pub struct TransparentU32(pub u32);

#[derive(Readable, Writable)]
#[repr(transparent)]
pub struct TransparentU128(pub u128);

#[derive(Readable, Writable)]
#[repr(transparent)]
pub struct TransparentList<T>(pub Vec<T>);

#[derive(Readable, Writable)]
#[repr(transparent)]
pub struct TransparentArray(pub [u8; 16]);

#[derive(Readable, Writable)]
#[repr(transparent)]
pub struct TransparentUnit;

#[derive(Readable, Writable)]
#[repr(C)]
pub struct CByte(pub u8);

#[derive(Readable, Writable)]
#[repr(C)]
pub struct CNumber(pub u16);

#[derive(Readable, Writable)]
#[repr(C)]
pub struct CPair(pub u16, pub u16);

#[derive(Readable, Writable)]
#[repr(C)]
pub struct CUneven(pub u16, pub u8);

#[derive(Readable, Writable)]
#[repr(C)]
pub struct CNested(pub CNumber);

#[derive(Readable, Writable)]
#[repr(C)]
pub struct CUnit;

#[derive(Clone, Copy, Readable, Writable)]
#[repr(packed)]
pub struct PackedNumber(pub u16);

#[derive(Clone, Copy, Readable, Writable)]
#[repr(packed)]
pub struct PackedPair(pub u16, pub u16);

#[derive(Clone, Copy, Readable, Writable)]
#[repr(packed)]
pub struct PackedPairs(pub PackedPair, pub PackedPair);

#[derive(Readable, Writable)]
#[repr(packed)]
pub struct PackedUnit;
