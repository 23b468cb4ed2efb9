//! The types of the cases, and what the port exports for each (gen.py).

// What rkyv's derives name.
#[cfg(in_place)]
use peer_crates::{bytecheck, rkyv};
use speedy::private::{error_invalid_enum_variant, VarInt64};
use speedy::{Context, Endianness, Readable, Reader, Writable, Writer};
use std::collections::{BTreeMap, BTreeSet, HashMap};
use std::net::IpAddr;
use std::time::Duration;

pub type Record = (u64, String, Vec<u8>, Vec<i64>, u8);

/// A place in a file, by its key: a record whose parts have one width each.
pub type Slot = (u64, u32, u32);

/// Structs of one's own, with the least size of each, and the impls as the original's derive
/// writes them.
macro_rules! structs {
    ($($name:ident, $least:literal { $($field:ident: $type:ty,)* })*) => { $(
        #[cfg_attr(
            peers,
            derive(peer_crates::serde::Serialize, peer_crates::serde::Deserialize),
            serde(crate = "peer_crates::serde")
        )]
        #[cfg_attr(
            in_place,
            derive(rkyv::Archive, rkyv::Serialize, rkyv::Deserialize),
            archive(crate = "peer_crates::rkyv"),
            archive_attr(derive(bytecheck::CheckBytes))
        )]
        pub struct $name {
            $(pub $field: $type,)*
        }

        impl<'a, C: Context> Readable<'a, C> for $name {
            #[inline]
            fn read_from<R: Reader<'a, C>>(reader: &mut R) -> Result<Self, C::Error> {
                Ok($name { $($field: reader.read_value()?,)* })
            }

            #[inline]
            fn minimum_bytes_needed() -> usize {
                $least
            }
        }

        impl<C: Context> Writable<C> for $name {
            #[inline]
            fn write_to<W: ?Sized + Writer<C>>(&self, writer: &mut W) -> Result<(), C::Error> {
                $(writer.write_value(&self.$field)?;)*
                Ok(())
            }
        }
    )* };
}

// The last four are those of documents.rt.in.
structs! {
    Own, 21 { number: u64, text: String, bytes: Vec<u8>, numbers: Vec<i64>, level: u8, }
    LogLine, 21 { time: u64, level: u8, target: String, message: String, line: u32, }
    Entry, 12 { offset: u32, length: u32, kind: u16, flags: u16, }
    Header, 12 { magic: u32, version: u16, flags: u16, entries: Vec<Entry>, }
    Account, 16 { name: String, balance: u64, groups: Vec<u16>, }
}

/// An enum of one's own, that of event.rs.in, with the impls as the original's derive writes them.
pub enum Event {
    Started,
    Stopped,
    Moved(u32, u32),
    Resized { width: u16, height: u16 },
    Named(String),
    Key(u32),
    Data(Vec<u8>),
    Scores(Vec<u16>),
    Level(u8),
    Paid { amount: u64, to: String },
}

impl<'a, C: Context> Readable<'a, C> for Event {
    #[inline]
    fn read_from<R: Reader<'a, C>>(reader: &mut R) -> Result<Self, C::Error> {
        Ok(match reader.read_value::<u32>()? {
            0 => Event::Started,
            1 => Event::Stopped,
            2 => Event::Moved(reader.read_value()?, reader.read_value()?),
            3 => Event::Resized {
                width: reader.read_value()?,
                height: reader.read_value()?,
            },
            4 => Event::Named(reader.read_value()?),
            5 => Event::Key(reader.read_value()?),
            6 => Event::Data(reader.read_value()?),
            7 => Event::Scores(reader.read_value()?),
            8 => Event::Level(reader.read_value()?),
            9 => Event::Paid {
                amount: reader.read_value()?,
                to: reader.read_value()?,
            },
            _ => return Err(error_invalid_enum_variant()),
        })
    }

    #[inline]
    fn minimum_bytes_needed() -> usize {
        4
    }
}

impl<C: Context> Writable<C> for Event {
    #[inline]
    fn write_to<W: ?Sized + Writer<C>>(&self, writer: &mut W) -> Result<(), C::Error> {
        match self {
            Event::Started => writer.write_value(&0u32),
            Event::Stopped => writer.write_value(&1u32),
            Event::Moved(x, y) => {
                writer.write_value(&2u32)?;
                writer.write_value(x)?;
                writer.write_value(y)
            }
            Event::Resized { width, height } => {
                writer.write_value(&3u32)?;
                writer.write_value(width)?;
                writer.write_value(height)
            }
            Event::Named(name) => {
                writer.write_value(&4u32)?;
                writer.write_value(name)
            }
            Event::Key(key) => {
                writer.write_value(&5u32)?;
                writer.write_value(key)
            }
            Event::Data(bytes) => {
                writer.write_value(&6u32)?;
                writer.write_value(bytes)
            }
            Event::Scores(scores) => {
                writer.write_value(&7u32)?;
                writer.write_value(scores)
            }
            Event::Level(level) => {
                writer.write_value(&8u32)?;
                writer.write_value(level)
            }
            Event::Paid { amount, to } => {
                writer.write_value(&9u32)?;
                writer.write_value(amount)?;
                writer.write_value(to)
            }
        }
    }
}

pub type ReadFn = unsafe extern "C" fn(*const u8, usize, bool, usize) -> usize;
pub type StreamFn = unsafe extern "C" fn(*const u8, usize, bool, u8, usize) -> usize;
pub type WriteFn = unsafe extern "C" fn(*const u8, usize, *mut u8, usize, bool, u8, usize) -> usize;
pub type JsonFn = unsafe extern "C" fn(*const u8, usize, *mut u8, usize) -> usize;
pub type JsonRounds = unsafe extern "C" fn(*const u8, usize, usize) -> usize;

/// What the port exports for a type.
pub struct Port {
    pub read: ReadFn,
    pub stream: StreamFn,
    pub write: WriteFn,
}

pub trait Ported: Readable<'static, Endianness> + Writable<Endianness> + 'static {
    const PORT: Port;
}

/// What the port exports for a type that is written and read as JSON too.
pub struct Json {
    pub make: JsonFn,
    pub write: JsonRounds,
    pub read: JsonRounds,
}

pub trait PortedJson: Ported {
    const JSON: Json;
}

macro_rules! ports {
    ($($type:ty: $name:literal,)*) => { $(
        impl Ported for $type {
            const PORT: Port = {
                extern "C" {
                    #[link_name = concat!("port_read_", $name)]
                    fn read(bytes: *const u8, length: usize, big: bool, rounds: usize) -> usize;

                    #[link_name = concat!("port_stream_", $name)]
                    fn stream(
                        bytes: *const u8,
                        length: usize,
                        big: bool,
                        how: u8,
                        rounds: usize,
                    ) -> usize;

                    #[link_name = concat!("port_write_", $name)]
                    fn write(
                        bytes: *const u8,
                        length: usize,
                        buffer: *mut u8,
                        room: usize,
                        big: bool,
                        how: u8,
                        rounds: usize,
                    ) -> usize;
                }
                Port { read, stream, write }
            };
        }
    )* };
}

macro_rules! json_ports {
    ($($type:ty: $name:literal,)*) => { $(
        impl PortedJson for $type {
            const JSON: Json = {
                extern "C" {
                    #[link_name = concat!("port_json_", $name)]
                    fn make(
                        bytes: *const u8,
                        length: usize,
                        buffer: *mut u8,
                        room: usize,
                    ) -> usize;

                    #[link_name = concat!("port_json_write_", $name)]
                    fn write(bytes: *const u8, length: usize, rounds: usize) -> usize;

                    #[link_name = concat!("port_json_read_", $name)]
                    fn read(json: *const u8, length: usize, rounds: usize) -> usize;
                }
                Json { make, write, read }
            };
        }
    )* };
}

ports! {
    u16: "u16",
    (u64, u64): "pair",
    Record: "record",
    Vec<u8>: "vec_u8",
    Vec<u16>: "vec_u16",
    Vec<u32>: "vec_u32",
    Vec<u64>: "vec_u64",
    Vec<u128>: "vec_u128",
    Vec<(u64, u64)>: "vec_pair",
    Vec<String>: "vec_string",
    String: "string",
    Vec<Option<u32>>: "vec_opt",
    Vec<char>: "vec_char",
    Vec<VarInt64>: "vec_varint",
    Vec<[u16; 4]>: "vec_array",
    Vec<Duration>: "vec_duration",
    Vec<IpAddr>: "vec_ip",
    Vec<bool>: "vec_bool",
    Vec<Record>: "vec_record",
    BTreeMap<u64, u64>: "tree",
    HashMap<u64, u64>: "hash",
    BTreeMap<String, u32>: "tree_text",
    BTreeSet<u32>: "tree_set",
    Own: "own",
    Vec<Own>: "vec_own",
    Vec<Event>: "vec_event",
    LogLine: "log_line",
    Header: "header",
    BTreeMap<u32, Account>: "snapshot",
    Vec<Slot>: "vec_slot",
}

json_ports! {
    LogLine: "log_line",
    Header: "header",
    BTreeMap<u32, Account>: "snapshot",
}

/// Reads a list again and again, and returns what it summed up, by a number: the digests of the item at
/// an index (0) or of all items (1), or their first parts (2).
pub type LookFn = unsafe extern "C" fn(*const u8, usize, u8, usize, usize) -> usize;

/// Reads a document again and again as what borrows from the bytes.
pub type LentFn = unsafe extern "C" fn(*const u8, usize, usize) -> usize;

macro_rules! looks {
    ($($name:ident)*) => {
        extern "C" {
            $(pub fn $name(bytes: *const u8, length: usize, what: u8, at: usize, rounds: usize) -> usize;)*
        }
    };
}

looks! { port_look_view port_look_numbers port_look_slots port_look_walk port_look_columns }

/// Reads or writes a format again and again, and adds up what it sees.
pub type FormatFn = unsafe extern "C" fn(*const u8, usize, usize) -> usize;

extern "C" {
    pub fn port_format_zone(bytes: *const u8, length: usize, rounds: usize) -> usize;
    pub fn port_format_zone_written(bytes: *const u8, length: usize, rounds: usize) -> usize;
    pub fn port_format_symbols(bytes: *const u8, length: usize, rounds: usize) -> usize;
    pub fn port_format_packets(bytes: *const u8, length: usize, rounds: usize) -> usize;
    pub fn port_lent_log_line(bytes: *const u8, length: usize, rounds: usize) -> usize;
    pub fn port_lent_snapshot(bytes: *const u8, length: usize, rounds: usize) -> usize;
    pub fn port_read_vec_str(bytes: *const u8, length: usize, big: bool, rounds: usize) -> usize;
    pub fn port_read_slices(bytes: *const u8, length: usize, big: bool, rounds: usize) -> usize;
    pub fn port_nothing(buffer: *mut u8, room: usize, big: bool, rounds: usize) -> usize;

    // What is passed, which neither compiler can see through (c/keep.c).
    pub fn bench_order(big: bool) -> bool;
    pub fn bench_length(length: usize) -> usize;
    pub fn bench_keep(bytes: *mut u8, length: usize);

    pub fn mallopt(param: i32, value: i32) -> i32;
}
