//! prost, which encodes the documents as messages of Protocol Buffers.

use crate::documents::{coder, Coder};
use crate::ports::{self, bench_length};
use crate::rows::Side;
use prost::Message;
use std::collections::BTreeMap;
use std::convert::Infallible;
use std::hint::black_box as bb;

/// Documents with the message that a user of prost declares for them: its fields have numbers, and
/// no integer is narrower than 32 bits.
pub trait Peered {
    type Message: Message + Default + 'static;

    fn message(&self) -> Self::Message;
}

#[derive(Clone, PartialEq, Message)]
pub struct LogLine {
    #[prost(uint64, tag = "1")]
    time: u64,
    #[prost(uint32, tag = "2")]
    level: u32,
    #[prost(string, tag = "3")]
    target: String,
    #[prost(string, tag = "4")]
    message: String,
    #[prost(uint32, tag = "5")]
    line: u32,
}

impl Peered for ports::LogLine {
    type Message = LogLine;

    fn message(&self) -> LogLine {
        LogLine {
            time: self.time,
            level: self.level.into(),
            target: self.target.clone(),
            message: self.message.clone(),
            line: self.line,
        }
    }
}

#[derive(Clone, PartialEq, Message)]
pub struct Entry {
    #[prost(uint32, tag = "1")]
    offset: u32,
    #[prost(uint32, tag = "2")]
    length: u32,
    #[prost(uint32, tag = "3")]
    kind: u32,
    #[prost(uint32, tag = "4")]
    flags: u32,
}

#[derive(Clone, PartialEq, Message)]
pub struct Header {
    #[prost(fixed32, tag = "1")]
    magic: u32,
    #[prost(uint32, tag = "2")]
    version: u32,
    #[prost(uint32, tag = "3")]
    flags: u32,
    #[prost(message, repeated, tag = "4")]
    entries: Vec<Entry>,
}

impl Peered for ports::Header {
    type Message = Header;

    fn message(&self) -> Header {
        let entry = |it: &ports::Entry| Entry {
            offset: it.offset,
            length: it.length,
            kind: it.kind.into(),
            flags: it.flags.into(),
        };
        Header {
            magic: self.magic,
            version: self.version.into(),
            flags: self.flags.into(),
            entries: self.entries.iter().map(entry).collect(),
        }
    }
}

#[derive(Clone, PartialEq, Message)]
pub struct Account {
    #[prost(string, tag = "1")]
    name: String,
    #[prost(uint64, tag = "2")]
    balance: u64,
    #[prost(uint32, repeated, tag = "3")]
    groups: Vec<u32>,
}

#[derive(Clone, PartialEq, Message)]
pub struct Snapshot {
    #[prost(btree_map = "uint32, message", tag = "1")]
    accounts: BTreeMap<u32, Account>,
}

impl Peered for BTreeMap<u32, ports::Account> {
    type Message = Snapshot;

    fn message(&self) -> Snapshot {
        let account = |it: &ports::Account| Account {
            name: it.name.clone(),
            balance: it.balance,
            groups: it.groups.iter().map(|&group| group.into()).collect(),
        };
        let accounts = self.iter().map(|(&key, it)| (key, account(it)));
        Snapshot {
            accounts: accounts.collect(),
        }
    }
}

fn encode<M: Message>(message: &M) -> Result<Vec<u8>, Infallible> {
    Ok(message.encode_to_vec())
}

pub fn coders_of<T: Peered>(value: &T) -> Vec<Coder> {
    let message: &'static T::Message = Box::leak(Box::new(value.message()));
    vec![coder!(
        "prost",
        message,
        encode,
        <T::Message as Message>::decode
    )]
}
