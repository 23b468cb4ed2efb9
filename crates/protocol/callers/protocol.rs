//! The types of `crates/speedy_protocol/messages.rs`, by the calls of `libprotocol.a`, whose proofs `rt lib` checks.
//!
//! Made from `crates/speedy_protocol/messages.rs` by `tools/derive --library`: change that, and make this again.
//!
//! Copy this file into `src/` of a crate, and `build.rs` beside its `Cargo.toml`.
//!
//! What a small protocol says: a header, of one version or the other, and then messages.
#![allow(dead_code)]

use std::fmt;
use std::marker::PhantomData;

/// The number of the file that this was made of.
const SOURCE: u32 = 116202973;

/// A byte order.
#[derive(Debug, Clone, Copy, PartialEq, Eq)]
#[repr(u32)]
pub enum Order {
    LittleEndian = 0,
    BigEndian = 1,
}

/// Why bytes are refused.
#[derive(Debug, Clone, Copy, PartialEq, Eq)]
pub enum Kind {
    /// a number that should be a character is none
    InvalidChar,
    /// a tag that no variant has, or in a view a flag that is neither 0 nor 1
    InvalidEnumVariant,
    /// a text is not UTF-8
    InvalidUtf8,
    /// the seconds of a time do not fit into 64 bits
    InvalidSystemTime,
    /// a number that must not be zero is zero
    ZeroNonZero,
    /// a length or a size does not fit, or in a view bytes are not so many items of a list
    OutOfRangeLength,
    /// a size does not fit into 64 bits, which never comes
    OutOfRangeUsize,
    /// the bytes end too soon: with more of them there may be a value
    UnexpectedEndOfInput,
    /// a buffer has no room, which no call answers
    UnexpectedEndOfOutputBuffer,
    /// the bytes are fewer than any value has: with more of them there may be one
    InputBufferIsTooSmall,
    /// the buffer is shorter than what is written
    OutputBufferIsTooSmall,
    /// a length is another than the field says that tells it
    LengthIsNotTheSameAsLengthAttribute,
    /// other bytes stand where a constant should
    ExpectedConstant,
    /// a value that borrows is read where nothing is lent, which no check answers
    Unsized,
    /// numbers lie in the other byte order
    EndiannessMismatch,
    /// the encoding is not the canonical one, which no check answers
    NotWrittenForm,
    /// a call of a device failed, which no check answers
    IoError,
    /// memory lacks, and nothing is known of the bytes
    OutOfMemory,
    /// an error of the type's own
    Custom,
    /// the number of the byte order is none of the two
    UnknownOrder,
    /// a number that this file does not know
    Other(u32),
}

/// Bytes that were refused.
#[derive(Debug, Clone, Copy, PartialEq, Eq)]
pub struct Refused {
    pub kind: Kind,
    /// How many bytes were read before that, or how many a buffer has to have that is too short.
    pub at: usize,
}

impl Refused {
    /// The refusal that a call answered.
    fn of(answer: u32, at: usize) -> Refused {
        let kind = match answer {
            1 => Kind::InvalidChar,
            2 => Kind::InvalidEnumVariant,
            3 => Kind::InvalidUtf8,
            4 => Kind::InvalidSystemTime,
            5 => Kind::ZeroNonZero,
            6 => Kind::OutOfRangeLength,
            7 => Kind::OutOfRangeUsize,
            8 => Kind::UnexpectedEndOfInput,
            9 => Kind::UnexpectedEndOfOutputBuffer,
            10 => Kind::InputBufferIsTooSmall,
            11 => Kind::OutputBufferIsTooSmall,
            12 => Kind::LengthIsNotTheSameAsLengthAttribute,
            13 => Kind::ExpectedConstant,
            14 => Kind::Unsized,
            15 => Kind::EndiannessMismatch,
            16 => Kind::NotWrittenForm,
            17 => Kind::IoError,
            18 => Kind::OutOfMemory,
            19 => Kind::Custom,
            100 => Kind::UnknownOrder,
            other => Kind::Other(other),
        };
        Refused { kind, at }
    }

    /// Whether the bytes ended too soon, so that more of them may help.
    pub fn ends_too_soon(&self) -> bool {
        matches!(self.kind, Kind::UnexpectedEndOfInput | Kind::InputBufferIsTooSmall)
    }
}

impl fmt::Display for Refused {
    fn fmt(&self, f: &mut fmt::Formatter<'_>) -> fmt::Result {
        write!(f, "{:?} after {} bytes", self.kind, self.at)
    }
}

impl std::error::Error for Refused {}

/// Whether the library was made of the same file as this module.
pub fn fits() -> bool {
    // SAFETY: the call takes nothing.
    unsafe { protocol_source() == SOURCE }
}

unsafe extern "C" {
    fn protocol_source() -> u32;
    fn protocol_start_check(bytes: *const u8, length: usize, order: u32, size: *mut usize) -> u32;
    fn protocol_start_read(
        bytes: *const u8,
        length: usize,
        order: u32,
        view: *mut RawStart,
        size: *mut usize,
    ) -> u32;
    fn protocol_start_write(
        view: *const RawStart,
        order: u32,
        buffer: *mut u8,
        room: usize,
        size: *mut usize,
    ) -> u32;
    fn protocol_header_check(bytes: *const u8, length: usize, order: u32, size: *mut usize) -> u32;
    fn protocol_header_read(
        bytes: *const u8,
        length: usize,
        order: u32,
        view: *mut RawHeader,
        size: *mut usize,
    ) -> u32;
    fn protocol_header_write(
        view: *const RawHeader,
        order: u32,
        buffer: *mut u8,
        room: usize,
        size: *mut usize,
    ) -> u32;
    fn protocol_header2_check(bytes: *const u8, length: usize, order: u32, size: *mut usize) -> u32;
    fn protocol_header2_read(
        bytes: *const u8,
        length: usize,
        order: u32,
        view: *mut RawHeader2,
        size: *mut usize,
    ) -> u32;
    fn protocol_header2_write(
        view: *const RawHeader2,
        order: u32,
        buffer: *mut u8,
        room: usize,
        size: *mut usize,
    ) -> u32;
    fn protocol_reading_check(bytes: *const u8, length: usize, order: u32, size: *mut usize) -> u32;
    fn protocol_reading_read(
        bytes: *const u8,
        length: usize,
        order: u32,
        view: *mut RawReading,
        size: *mut usize,
    ) -> u32;
    fn protocol_reading_write(
        view: *const RawReading,
        order: u32,
        buffer: *mut u8,
        room: usize,
        size: *mut usize,
    ) -> u32;
    fn protocol_message_check(bytes: *const u8, length: usize, order: u32, size: *mut usize) -> u32;
    fn protocol_message_read(
        bytes: *const u8,
        length: usize,
        order: u32,
        view: *mut RawMessage,
        size: *mut usize,
    ) -> u32;
    fn protocol_message_write(
        view: *const RawMessage,
        order: u32,
        buffer: *mut u8,
        room: usize,
        size: *mut usize,
    ) -> u32;
    fn protocol_framed_message_check(bytes: *const u8, length: usize, order: u32, size: *mut usize) -> u32;
    fn protocol_framed_message_read(
        bytes: *const u8,
        length: usize,
        order: u32,
        view: *mut RawFramedMessage,
        size: *mut usize,
    ) -> u32;
    fn protocol_framed_message_write(
        view: *const RawFramedMessage,
        order: u32,
        buffer: *mut u8,
        room: usize,
        size: *mut usize,
    ) -> u32;
    fn protocol_framed_bytes_check(bytes: *const u8, length: usize, order: u32, size: *mut usize) -> u32;
    fn protocol_framed_bytes_read(
        bytes: *const u8,
        length: usize,
        order: u32,
        view: *mut RawFramedBytes,
        size: *mut usize,
    ) -> u32;
    fn protocol_framed_bytes_write(
        view: *const RawFramedBytes,
        order: u32,
        buffer: *mut u8,
        room: usize,
        size: *mut usize,
    ) -> u32;
}

/// Bytes as the library shows them.
#[derive(Clone, Copy)]
#[repr(C)]
struct RawBytes {
    at: *const u8,
    length: usize,
}

impl RawBytes {
    /// The bytes. They lie in those that were read, for as long as these are borrowed.
    unsafe fn get<'a>(self) -> &'a [u8] {
        // SAFETY: by the contract of the call, so many bytes lie there, within those that were read.
        unsafe { std::slice::from_raw_parts(self.at, self.length) }
    }

    /// Where bytes lie.
    fn of(bytes: &[u8]) -> RawBytes {
        RawBytes { at: bytes.as_ptr(), length: bytes.len() }
    }

    /// The text.
    unsafe fn text<'a>(self) -> &'a str {
        // SAFETY: as `get`, and by the contract of the call the text is UTF-8.
        unsafe { std::str::from_utf8_unchecked(self.get()) }
    }
}

/// A list as the library shows it.
#[derive(Clone, Copy)]
#[repr(C)]
struct RawList {
    items: RawBytes,
    count: usize,
    order: u32,
}

impl RawList {
    /// The list. It lies in the bytes that were read, for as long as these are borrowed.
    unsafe fn list<'a, T>(self) -> List<'a, T> {
        let order = if self.order == 0 { Order::LittleEndian } else { Order::BigEndian };
        // SAFETY: as `get`.
        List { bytes: unsafe { self.items.get() }, count: self.count, order, items: PhantomData }
    }

    /// Where a list lies.
    fn of<T>(list: List<'_, T>) -> RawList {
        RawList { items: RawBytes::of(list.bytes), count: list.count, order: list.order as u32 }
    }
}

/// A list that lies in bytes: the encodings of its items, one after another. Each item is decoded when it is asked for.
#[derive(Clone, Copy)]
pub struct List<'a, T> {
    bytes: &'a [u8],
    count: usize,
    order: Order,
    items: PhantomData<T>,
}

impl<'a, T: Item<'a>> List<'a, T> {
    /// How many items there are.
    pub fn len(&self) -> usize {
        self.count
    }

    /// Whether there is none.
    pub fn is_empty(&self) -> bool {
        self.count == 0
    }

    /// The items.
    pub fn iter(&self) -> Items<'a, T> {
        Items { left: *self }
    }
}

impl<T> Default for List<'_, T> {
    fn default() -> Self {
        List { bytes: &[], count: 0, order: Order::LittleEndian, items: PhantomData }
    }
}

impl<'a, T: Item<'a> + fmt::Debug> fmt::Debug for List<'a, T> {
    fn fmt(&self, f: &mut fmt::Formatter<'_>) -> fmt::Result {
        f.debug_list().entries(self.iter()).finish()
    }
}

impl<'a, T: Item<'a> + PartialEq> PartialEq for List<'a, T> {
    fn eq(&self, other: &Self) -> bool {
        self.count == other.count && self.iter().eq(other.iter())
    }
}

impl<'a, T: Item<'a>> IntoIterator for List<'a, T> {
    type Item = T;
    type IntoIter = Items<'a, T>;

    fn into_iter(self) -> Items<'a, T> {
        Items { left: self }
    }
}

/// The items of a list, from the first on.
#[derive(Clone)]
pub struct Items<'a, T> {
    left: List<'a, T>,
}

impl<'a, T: Item<'a>> Iterator for Items<'a, T> {
    type Item = T;

    fn next(&mut self) -> Option<T> {
        let left = &mut self.left;
        left.count = left.count.checked_sub(1)?;
        // A list is one that was read, or whose items were written, so these are there.
        Some(T::take(&mut left.bytes, left.order).expect("an item of a list"))
    }

    fn size_hint(&self) -> (usize, Option<usize>) {
        (self.left.count, Some(self.left.count))
    }
}

impl<'a, T: Item<'a>> ExactSizeIterator for Items<'a, T> {}

/// What lists hold.
pub trait Item<'a>: Copy {
    /// Takes an item from the front of bytes.
    fn take(bytes: &mut &'a [u8], order: Order) -> Result<Self, Refused>;
}

impl<'a, T: Item<'a> + Put> List<'a, T> {
    /// A list of these items, whose encodings take the place of what stands in the buffer.
    pub fn of(items: &[T], buffer: &'a mut Vec<u8>) -> Result<Self, Refused> {
        buffer.clear();
        for item in items {
            item.put(buffer)?;
        }
        Ok(List { bytes: buffer, count: items.len(), order: Order::LittleEndian, items: PhantomData })
    }
}

/// What lists that are written hold.
pub trait Put {
    /// Appends an item to a buffer, in little endian.
    fn put(&self, buffer: &mut Vec<u8>) -> Result<(), Refused>;
}

#[derive(Clone, Copy)]
#[repr(C)]
struct RawMaybeText {
    is_some: u8,
    value: RawBytes,
}

#[derive(Clone, Copy)]
#[repr(C)]
struct RawStart {
    header: RawBytes,
}

/// The value that a view shows.
unsafe fn start_of<'a>(raw: RawStart) -> start::Start<'a> {
    start::Start {
        header: unsafe { raw.header.get() },
    }
}

/// The view that shows a value.
fn start_raw(value: start::Start<'_>) -> RawStart {
    RawStart {
        header: RawBytes::of(value.header),
    }
}

#[derive(Clone, Copy)]
#[repr(C)]
struct RawHeader {
    version: u16,
    flags: u16,
}

/// The value that a view shows.
unsafe fn header_of(raw: RawHeader) -> header::Header {
    header::Header {
        version: raw.version,
        flags: raw.flags,
    }
}

/// The view that shows a value.
fn header_raw(value: header::Header) -> RawHeader {
    RawHeader {
        version: value.version,
        flags: value.flags,
    }
}

#[derive(Clone, Copy)]
#[repr(C)]
struct RawHeader2 {
    version: u16,
    flags: u16,
    session: u64,
}

/// The value that a view shows.
unsafe fn header2_of(raw: RawHeader2) -> header2::Header2 {
    header2::Header2 {
        version: raw.version,
        flags: raw.flags,
        session: raw.session,
    }
}

/// The view that shows a value.
fn header2_raw(value: header2::Header2) -> RawHeader2 {
    RawHeader2 {
        version: value.version,
        flags: value.flags,
        session: value.session,
    }
}

#[derive(Clone, Copy)]
#[repr(C)]
struct RawReading {
    second: u32,
    value: i32,
}

/// The value that a view shows.
unsafe fn reading_of(raw: RawReading) -> reading::Reading {
    reading::Reading {
        second: raw.second,
        value: raw.value,
    }
}

/// The view that shows a value.
fn reading_raw(value: reading::Reading) -> RawReading {
    RawReading {
        second: value.second,
        value: value.value,
    }
}

#[derive(Clone, Copy)]
#[repr(C)]
struct RawMessageHello {
    name: RawBytes,
    mail: RawMaybeText,
}

#[derive(Clone, Copy)]
#[repr(C)]
struct RawMessageReadings {
    sensor: u16,
    list: RawList,
}

#[derive(Clone, Copy)]
#[repr(C)]
struct RawMessageBlob {
    t0: RawBytes,
}

#[derive(Clone, Copy)]
#[repr(C)]
struct RawMessageFailure {
    code: u32,
    text: RawBytes,
}

#[derive(Clone, Copy)]
#[repr(C)]
struct RawMessage {
    tag: u32,
    hello: RawMessageHello,
    readings: RawMessageReadings,
    blob: RawMessageBlob,
    failure: RawMessageFailure,
}

/// The value that a view shows.
unsafe fn message_of<'a>(raw: RawMessage) -> message::Message<'a> {
    match raw.tag {
        1 => message::Message::Ping,
        2 => message::Message::Hello {
            name: unsafe { raw.hello.name.text() },
            mail: if raw.hello.mail.is_some == 0 { None } else { Some(unsafe { raw.hello.mail.value.text() }) },
        },
        3 => message::Message::Readings {
            sensor: raw.readings.sensor,
            list: unsafe { raw.readings.list.list() },
        },
        4 => message::Message::Blob {
            t0: unsafe { raw.blob.t0.get() },
        },
        5 => message::Message::Failure {
            code: raw.failure.code,
            text: unsafe { raw.failure.text.text() },
        },
        _ => message::Message::Bye,
    }
}

/// The view that shows a value.
fn message_raw(value: message::Message<'_>) -> RawMessage {
    match value {
        message::Message::Ping => RawMessage {
            tag: 1,
            ..unsafe { self::zeros() }
        },
        message::Message::Hello { name, mail } => RawMessage {
            tag: 2,
            hello: RawMessageHello {
                name: RawBytes::of(name.as_bytes()),
                mail: self::maybe_text_raw(mail),
            },
            ..unsafe { self::zeros() }
        },
        message::Message::Readings { sensor, list } => RawMessage {
            tag: 3,
            readings: RawMessageReadings {
                sensor: sensor,
                list: RawList::of(list),
            },
            ..unsafe { self::zeros() }
        },
        message::Message::Blob { t0 } => RawMessage {
            tag: 4,
            blob: RawMessageBlob {
                t0: RawBytes::of(t0),
            },
            ..unsafe { self::zeros() }
        },
        message::Message::Failure { code, text } => RawMessage {
            tag: 5,
            failure: RawMessageFailure {
                code: code,
                text: RawBytes::of(text.as_bytes()),
            },
            ..unsafe { self::zeros() }
        },
        message::Message::Bye => RawMessage {
            tag: 255,
            ..unsafe { self::zeros() }
        },
    }
}

#[derive(Clone, Copy)]
#[repr(C)]
struct RawFramedMessage {
    size: u16,
    message: RawMessage,
}

/// The value that a view shows.
unsafe fn framed_message_of<'a>(raw: RawFramedMessage) -> framed_message::FramedMessage<'a> {
    framed_message::FramedMessage {
        size: raw.size,
        message: unsafe { message_of(raw.message) },
    }
}

/// The view that shows a value.
fn framed_message_raw(value: framed_message::FramedMessage<'_>) -> RawFramedMessage {
    RawFramedMessage {
        size: value.size,
        message: self::message_raw(value.message),
    }
}

#[derive(Clone, Copy)]
#[repr(C)]
struct RawFramedBytes {
    bytes: RawBytes,
}

/// The value that a view shows.
unsafe fn framed_bytes_of<'a>(raw: RawFramedBytes) -> framed_bytes::FramedBytes<'a> {
    framed_bytes::FramedBytes {
        bytes: unsafe { raw.bytes.get() },
    }
}

/// The view that shows a value.
fn framed_bytes_raw(value: framed_bytes::FramedBytes<'_>) -> RawFramedBytes {
    RawFramedBytes {
        bytes: RawBytes::of(value.bytes),
    }
}

impl Item<'_> for reading::Reading {
    fn take(bytes: &mut &[u8], order: Order) -> Result<Self, Refused> {
        let all = *bytes;
        let (value, size) = reading::read(all, order)?;
        *bytes = &all[size..];
        Ok(value)
    }
}

impl Put for reading::Reading {
    fn put(&self, buffer: &mut Vec<u8>) -> Result<(), Refused> {
        append(buffer, |room| self.write_to(room, Order::LittleEndian))
    }
}

/// The view that shows an option.
fn maybe_text_raw(value: Option<&str>) -> RawMaybeText {
    match value {
        None => unsafe { self::zeros() },
        Some(it) => RawMaybeText { is_some: 1, value: RawBytes::of(it.as_bytes()) },
    }
}

/// A struct of C in which nothing is set.
///
/// # Safety
///
/// `T` is a struct of numbers and pointers.
unsafe fn zeros<T>() -> T {
    // SAFETY: zeros are numbers and pointers.
    unsafe { std::mem::zeroed() }
}

/// Appends what is written to a buffer, which grows as the write says.
fn append(buffer: &mut Vec<u8>, write: impl Fn(&mut [u8]) -> Result<usize, Refused>) -> Result<(), Refused> {
    let begin = buffer.len();
    buffer.resize(begin + 64, 0);
    loop {
        match write(&mut buffer[begin..]) {
            Ok(size) => {
                buffer.truncate(begin + size);
                return Ok(());
            }
            Err(Refused { kind: Kind::OutputBufferIsTooSmall, at }) => buffer.resize(begin + at, 0),
            Err(refused) => {
                buffer.truncate(begin);
                return Err(refused);
            }
        }
    }
}

/// What a stream begins with: a magic number, and a header of any version after the number of its bytes.
pub mod start {
    /// Says whether bytes begin with an encoding of a `Start`, and of how many bytes it is.
    pub fn check(bytes: &[u8], order: super::Order) -> Result<usize, super::Refused> {
        let (start, length) = (bytes.as_ptr(), bytes.len());
        let mut size = 0;
        // SAFETY: so many bytes are there, they are only read, and nothing keeps a pointer.
        let answer = unsafe { super::protocol_start_check(start, length, order as u32, &mut size) };
        if answer == 0 { Ok(size) } else { Err(super::Refused::of(answer, size)) }
    }

    /// A value.
    #[derive(Debug, Clone, Copy, PartialEq)]
    pub struct Start<'a> {
        pub header: &'a [u8],
    }

    /// Reads the value that the bytes begin with, and says of how many bytes it is.
    pub fn read<'a>(
        bytes: &'a [u8],
        order: super::Order,
    ) -> Result<(Start<'a>, usize), super::Refused> {
        let mut raw = std::mem::MaybeUninit::<super::RawStart>::uninit();
        let mut size = 0;
        // SAFETY: so many bytes are there, they are only read, and what is written is not read before.
        let answer = unsafe {
            super::protocol_start_read(bytes.as_ptr(), bytes.len(), order as u32, raw.as_mut_ptr(), &mut size)
        };
        if answer != 0 {
            return Err(super::Refused::of(answer, size));
        }
        // SAFETY: the view is set, and shows bytes of those that were read.
        Ok((unsafe { super::start_of(raw.assume_init()) }, size))
    }

    /// The values that stand one after another, up to the end of the bytes or to the first that is refused, `at` where
    /// it begins.
    pub fn walk<'a>(
        bytes: &'a [u8],
        order: super::Order,
    ) -> impl Iterator<Item = Result<Start<'a>, super::Refused>> + 'a {
        let mut at = 0;
        std::iter::from_fn(move || {
            let left = bytes.get(at..).filter(|left| !left.is_empty())?;
            match read(left, order) {
                Ok((_, 0)) => None,
                Ok((value, size)) => {
                    at += size;
                    Some(Ok(value))
                }
                Err(refused) => {
                    let refused = super::Refused { at, ..refused };
                    at = bytes.len();
                    Some(Err(refused))
                }
            }
        })
    }

    impl Start<'_> {
        /// Writes the value to the front of the buffer, in its canonical encoding, and says how many bytes that takes.
        /// Where the buffer is shorter, `at` of the error says how many are needed.
        pub fn write_to(&self, buffer: &mut [u8], order: super::Order) -> Result<usize, super::Refused> {
            let raw = super::start_raw(*self);
            let (start, room) = (buffer.as_mut_ptr(), buffer.len());
            let mut size = 0;
            // SAFETY: what the view shows stays while `self` is borrowed, so many bytes can be written, and nothing
            // keeps a pointer.
            let answer = unsafe { super::protocol_start_write(&raw, order as u32, start, room, &mut size) };
            if answer == 0 { Ok(size) } else { Err(super::Refused::of(answer, size)) }
        }

        /// The canonical encoding of the value.
        pub fn to_bytes(&self, order: super::Order) -> Result<Vec<u8>, super::Refused> {
            let mut bytes = Vec::new();
            super::append(&mut bytes, |buffer| self.write_to(buffer, order))?;
            Ok(bytes)
        }
    }
}

/// The header of version 1.
pub mod header {
    /// Says whether bytes begin with an encoding of a `Header`, and of how many bytes it is.
    pub fn check(bytes: &[u8], order: super::Order) -> Result<usize, super::Refused> {
        let (start, length) = (bytes.as_ptr(), bytes.len());
        let mut size = 0;
        // SAFETY: so many bytes are there, they are only read, and nothing keeps a pointer.
        let answer = unsafe { super::protocol_header_check(start, length, order as u32, &mut size) };
        if answer == 0 { Ok(size) } else { Err(super::Refused::of(answer, size)) }
    }

    /// A value.
    #[derive(Debug, Clone, Copy, PartialEq)]
    pub struct Header {
        pub version: u16,
        pub flags: u16,
    }

    /// Reads the value that the bytes begin with, and says of how many bytes it is.
    pub fn read(
        bytes: &[u8],
        order: super::Order,
    ) -> Result<(Header, usize), super::Refused> {
        let mut raw = std::mem::MaybeUninit::<super::RawHeader>::uninit();
        let mut size = 0;
        // SAFETY: so many bytes are there, they are only read, and what is written is not read before.
        let answer = unsafe {
            super::protocol_header_read(bytes.as_ptr(), bytes.len(), order as u32, raw.as_mut_ptr(), &mut size)
        };
        if answer != 0 {
            return Err(super::Refused::of(answer, size));
        }
        // SAFETY: the view is set, and shows bytes of those that were read.
        Ok((unsafe { super::header_of(raw.assume_init()) }, size))
    }

    /// The values that stand one after another, up to the end of the bytes or to the first that is refused, `at` where
    /// it begins.
    pub fn walk(
        bytes: &[u8],
        order: super::Order,
    ) -> impl Iterator<Item = Result<Header, super::Refused>> + '_ {
        let mut at = 0;
        std::iter::from_fn(move || {
            let left = bytes.get(at..).filter(|left| !left.is_empty())?;
            match read(left, order) {
                Ok((_, 0)) => None,
                Ok((value, size)) => {
                    at += size;
                    Some(Ok(value))
                }
                Err(refused) => {
                    let refused = super::Refused { at, ..refused };
                    at = bytes.len();
                    Some(Err(refused))
                }
            }
        })
    }

    impl Header {
        /// Writes the value to the front of the buffer, in its canonical encoding, and says how many bytes that takes.
        /// Where the buffer is shorter, `at` of the error says how many are needed.
        pub fn write_to(&self, buffer: &mut [u8], order: super::Order) -> Result<usize, super::Refused> {
            let raw = super::header_raw(*self);
            let (start, room) = (buffer.as_mut_ptr(), buffer.len());
            let mut size = 0;
            // SAFETY: what the view shows stays while `self` is borrowed, so many bytes can be written, and nothing
            // keeps a pointer.
            let answer = unsafe { super::protocol_header_write(&raw, order as u32, start, room, &mut size) };
            if answer == 0 { Ok(size) } else { Err(super::Refused::of(answer, size)) }
        }

        /// The canonical encoding of the value.
        pub fn to_bytes(&self, order: super::Order) -> Result<Vec<u8>, super::Refused> {
            let mut bytes = Vec::new();
            super::append(&mut bytes, |buffer| self.write_to(buffer, order))?;
            Ok(bytes)
        }
    }
}

/// The header of version 2 has a field more, at its end.
pub mod header2 {
    /// Says whether bytes begin with an encoding of a `Header2`, and of how many bytes it is.
    pub fn check(bytes: &[u8], order: super::Order) -> Result<usize, super::Refused> {
        let (start, length) = (bytes.as_ptr(), bytes.len());
        let mut size = 0;
        // SAFETY: so many bytes are there, they are only read, and nothing keeps a pointer.
        let answer = unsafe { super::protocol_header2_check(start, length, order as u32, &mut size) };
        if answer == 0 { Ok(size) } else { Err(super::Refused::of(answer, size)) }
    }

    /// A value.
    #[derive(Debug, Clone, Copy, PartialEq)]
    pub struct Header2 {
        pub version: u16,
        pub flags: u16,
        pub session: u64,
    }

    /// Reads the value that the bytes begin with, and says of how many bytes it is.
    pub fn read(
        bytes: &[u8],
        order: super::Order,
    ) -> Result<(Header2, usize), super::Refused> {
        let mut raw = std::mem::MaybeUninit::<super::RawHeader2>::uninit();
        let mut size = 0;
        // SAFETY: so many bytes are there, they are only read, and what is written is not read before.
        let answer = unsafe {
            super::protocol_header2_read(bytes.as_ptr(), bytes.len(), order as u32, raw.as_mut_ptr(), &mut size)
        };
        if answer != 0 {
            return Err(super::Refused::of(answer, size));
        }
        // SAFETY: the view is set, and shows bytes of those that were read.
        Ok((unsafe { super::header2_of(raw.assume_init()) }, size))
    }

    /// The values that stand one after another, up to the end of the bytes or to the first that is refused, `at` where
    /// it begins.
    pub fn walk(
        bytes: &[u8],
        order: super::Order,
    ) -> impl Iterator<Item = Result<Header2, super::Refused>> + '_ {
        let mut at = 0;
        std::iter::from_fn(move || {
            let left = bytes.get(at..).filter(|left| !left.is_empty())?;
            match read(left, order) {
                Ok((_, 0)) => None,
                Ok((value, size)) => {
                    at += size;
                    Some(Ok(value))
                }
                Err(refused) => {
                    let refused = super::Refused { at, ..refused };
                    at = bytes.len();
                    Some(Err(refused))
                }
            }
        })
    }

    impl Header2 {
        /// Writes the value to the front of the buffer, in its canonical encoding, and says how many bytes that takes.
        /// Where the buffer is shorter, `at` of the error says how many are needed.
        pub fn write_to(&self, buffer: &mut [u8], order: super::Order) -> Result<usize, super::Refused> {
            let raw = super::header2_raw(*self);
            let (start, room) = (buffer.as_mut_ptr(), buffer.len());
            let mut size = 0;
            // SAFETY: what the view shows stays while `self` is borrowed, so many bytes can be written, and nothing
            // keeps a pointer.
            let answer = unsafe { super::protocol_header2_write(&raw, order as u32, start, room, &mut size) };
            if answer == 0 { Ok(size) } else { Err(super::Refused::of(answer, size)) }
        }

        /// The canonical encoding of the value.
        pub fn to_bytes(&self, order: super::Order) -> Result<Vec<u8>, super::Refused> {
            let mut bytes = Vec::new();
            super::append(&mut bytes, |buffer| self.write_to(buffer, order))?;
            Ok(bytes)
        }
    }
}

/// What a sensor measured.
pub mod reading {
    /// Says whether bytes begin with an encoding of a `Reading`, and of how many bytes it is.
    pub fn check(bytes: &[u8], order: super::Order) -> Result<usize, super::Refused> {
        let (start, length) = (bytes.as_ptr(), bytes.len());
        let mut size = 0;
        // SAFETY: so many bytes are there, they are only read, and nothing keeps a pointer.
        let answer = unsafe { super::protocol_reading_check(start, length, order as u32, &mut size) };
        if answer == 0 { Ok(size) } else { Err(super::Refused::of(answer, size)) }
    }

    /// A value.
    #[derive(Debug, Clone, Copy, PartialEq)]
    pub struct Reading {
        pub second: u32,
        pub value: i32,
    }

    /// Reads the value that the bytes begin with, and says of how many bytes it is.
    pub fn read(
        bytes: &[u8],
        order: super::Order,
    ) -> Result<(Reading, usize), super::Refused> {
        let mut raw = std::mem::MaybeUninit::<super::RawReading>::uninit();
        let mut size = 0;
        // SAFETY: so many bytes are there, they are only read, and what is written is not read before.
        let answer = unsafe {
            super::protocol_reading_read(bytes.as_ptr(), bytes.len(), order as u32, raw.as_mut_ptr(), &mut size)
        };
        if answer != 0 {
            return Err(super::Refused::of(answer, size));
        }
        // SAFETY: the view is set, and shows bytes of those that were read.
        Ok((unsafe { super::reading_of(raw.assume_init()) }, size))
    }

    /// The values that stand one after another, up to the end of the bytes or to the first that is refused, `at` where
    /// it begins.
    pub fn walk(
        bytes: &[u8],
        order: super::Order,
    ) -> impl Iterator<Item = Result<Reading, super::Refused>> + '_ {
        let mut at = 0;
        std::iter::from_fn(move || {
            let left = bytes.get(at..).filter(|left| !left.is_empty())?;
            match read(left, order) {
                Ok((_, 0)) => None,
                Ok((value, size)) => {
                    at += size;
                    Some(Ok(value))
                }
                Err(refused) => {
                    let refused = super::Refused { at, ..refused };
                    at = bytes.len();
                    Some(Err(refused))
                }
            }
        })
    }

    impl Reading {
        /// Writes the value to the front of the buffer, in its canonical encoding, and says how many bytes that takes.
        /// Where the buffer is shorter, `at` of the error says how many are needed.
        pub fn write_to(&self, buffer: &mut [u8], order: super::Order) -> Result<usize, super::Refused> {
            let raw = super::reading_raw(*self);
            let (start, room) = (buffer.as_mut_ptr(), buffer.len());
            let mut size = 0;
            // SAFETY: what the view shows stays while `self` is borrowed, so many bytes can be written, and nothing
            // keeps a pointer.
            let answer = unsafe { super::protocol_reading_write(&raw, order as u32, start, room, &mut size) };
            if answer == 0 { Ok(size) } else { Err(super::Refused::of(answer, size)) }
        }

        /// The canonical encoding of the value.
        pub fn to_bytes(&self, order: super::Order) -> Result<Vec<u8>, super::Refused> {
            let mut bytes = Vec::new();
            super::append(&mut bytes, |buffer| self.write_to(buffer, order))?;
            Ok(bytes)
        }
    }
}

/// A message. Its texts and bytes lie in what it is read from.
pub mod message {
    /// Says whether bytes begin with an encoding of a `Message`, and of how many bytes it is.
    pub fn check(bytes: &[u8], order: super::Order) -> Result<usize, super::Refused> {
        let (start, length) = (bytes.as_ptr(), bytes.len());
        let mut size = 0;
        // SAFETY: so many bytes are there, they are only read, and nothing keeps a pointer.
        let answer = unsafe { super::protocol_message_check(start, length, order as u32, &mut size) };
        if answer == 0 { Ok(size) } else { Err(super::Refused::of(answer, size)) }
    }

    /// A value.
    #[derive(Debug, Clone, Copy, PartialEq)]
    pub enum Message<'a> {
        Ping,
        Hello { name: &'a str, mail: Option<&'a str> },
        Readings { sensor: u16, list: super::List<'a, super::reading::Reading> },
        Blob { t0: &'a [u8] },
        Failure { code: u32, text: &'a str },
        Bye,
    }

    /// Reads the value that the bytes begin with, and says of how many bytes it is.
    pub fn read<'a>(
        bytes: &'a [u8],
        order: super::Order,
    ) -> Result<(Message<'a>, usize), super::Refused> {
        let mut raw = std::mem::MaybeUninit::<super::RawMessage>::uninit();
        let mut size = 0;
        // SAFETY: so many bytes are there, they are only read, and what is written is not read before.
        let answer = unsafe {
            super::protocol_message_read(bytes.as_ptr(), bytes.len(), order as u32, raw.as_mut_ptr(), &mut size)
        };
        if answer != 0 {
            return Err(super::Refused::of(answer, size));
        }
        // SAFETY: the view is set, and shows bytes of those that were read.
        Ok((unsafe { super::message_of(raw.assume_init()) }, size))
    }

    /// The values that stand one after another, up to the end of the bytes or to the first that is refused, `at` where
    /// it begins.
    pub fn walk<'a>(
        bytes: &'a [u8],
        order: super::Order,
    ) -> impl Iterator<Item = Result<Message<'a>, super::Refused>> + 'a {
        let mut at = 0;
        std::iter::from_fn(move || {
            let left = bytes.get(at..).filter(|left| !left.is_empty())?;
            match read(left, order) {
                Ok((_, 0)) => None,
                Ok((value, size)) => {
                    at += size;
                    Some(Ok(value))
                }
                Err(refused) => {
                    let refused = super::Refused { at, ..refused };
                    at = bytes.len();
                    Some(Err(refused))
                }
            }
        })
    }

    impl Message<'_> {
        /// Writes the value to the front of the buffer, in its canonical encoding, and says how many bytes that takes.
        /// Where the buffer is shorter, `at` of the error says how many are needed.
        pub fn write_to(&self, buffer: &mut [u8], order: super::Order) -> Result<usize, super::Refused> {
            let raw = super::message_raw(*self);
            let (start, room) = (buffer.as_mut_ptr(), buffer.len());
            let mut size = 0;
            // SAFETY: what the view shows stays while `self` is borrowed, so many bytes can be written, and nothing
            // keeps a pointer.
            let answer = unsafe { super::protocol_message_write(&raw, order as u32, start, room, &mut size) };
            if answer == 0 { Ok(size) } else { Err(super::Refused::of(answer, size)) }
        }

        /// The canonical encoding of the value.
        pub fn to_bytes(&self, order: super::Order) -> Result<Vec<u8>, super::Refused> {
            let mut bytes = Vec::new();
            super::append(&mut bytes, |buffer| self.write_to(buffer, order))?;
            Ok(bytes)
        }
    }
}

/// A message behind the number of its bytes, for callers in other languages.
pub mod framed_message {
    /// Says whether bytes begin with an encoding of a `FramedMessage`, and of how many bytes it is.
    pub fn check(bytes: &[u8], order: super::Order) -> Result<usize, super::Refused> {
        let (start, length) = (bytes.as_ptr(), bytes.len());
        let mut size = 0;
        // SAFETY: so many bytes are there, they are only read, and nothing keeps a pointer.
        let answer = unsafe { super::protocol_framed_message_check(start, length, order as u32, &mut size) };
        if answer == 0 { Ok(size) } else { Err(super::Refused::of(answer, size)) }
    }

    /// A value.
    #[derive(Debug, Clone, Copy, PartialEq)]
    pub struct FramedMessage<'a> {
        pub size: u16,
        pub message: super::message::Message<'a>,
    }

    /// Reads the value that the bytes begin with, and says of how many bytes it is.
    pub fn read<'a>(
        bytes: &'a [u8],
        order: super::Order,
    ) -> Result<(FramedMessage<'a>, usize), super::Refused> {
        let mut raw = std::mem::MaybeUninit::<super::RawFramedMessage>::uninit();
        let mut size = 0;
        // SAFETY: so many bytes are there, they are only read, and what is written is not read before.
        let answer = unsafe {
            super::protocol_framed_message_read(bytes.as_ptr(), bytes.len(), order as u32, raw.as_mut_ptr(), &mut size)
        };
        if answer != 0 {
            return Err(super::Refused::of(answer, size));
        }
        // SAFETY: the view is set, and shows bytes of those that were read.
        Ok((unsafe { super::framed_message_of(raw.assume_init()) }, size))
    }

    /// The values that stand one after another, up to the end of the bytes or to the first that is refused, `at` where
    /// it begins.
    pub fn walk<'a>(
        bytes: &'a [u8],
        order: super::Order,
    ) -> impl Iterator<Item = Result<FramedMessage<'a>, super::Refused>> + 'a {
        let mut at = 0;
        std::iter::from_fn(move || {
            let left = bytes.get(at..).filter(|left| !left.is_empty())?;
            match read(left, order) {
                Ok((_, 0)) => None,
                Ok((value, size)) => {
                    at += size;
                    Some(Ok(value))
                }
                Err(refused) => {
                    let refused = super::Refused { at, ..refused };
                    at = bytes.len();
                    Some(Err(refused))
                }
            }
        })
    }

    impl FramedMessage<'_> {
        /// Writes the value to the front of the buffer, in its canonical encoding, and says how many bytes that takes.
        /// Where the buffer is shorter, `at` of the error says how many are needed.
        pub fn write_to(&self, buffer: &mut [u8], order: super::Order) -> Result<usize, super::Refused> {
            let raw = super::framed_message_raw(*self);
            let (start, room) = (buffer.as_mut_ptr(), buffer.len());
            let mut size = 0;
            // SAFETY: what the view shows stays while `self` is borrowed, so many bytes can be written, and nothing
            // keeps a pointer.
            let answer = unsafe { super::protocol_framed_message_write(&raw, order as u32, start, room, &mut size) };
            if answer == 0 { Ok(size) } else { Err(super::Refused::of(answer, size)) }
        }

        /// The canonical encoding of the value.
        pub fn to_bytes(&self, order: super::Order) -> Result<Vec<u8>, super::Refused> {
            let mut bytes = Vec::new();
            super::append(&mut bytes, |buffer| self.write_to(buffer, order))?;
            Ok(bytes)
        }
    }
}

/// A frame with whatever stands in it.
pub mod framed_bytes {
    /// Says whether bytes begin with an encoding of a `FramedBytes`, and of how many bytes it is.
    pub fn check(bytes: &[u8], order: super::Order) -> Result<usize, super::Refused> {
        let (start, length) = (bytes.as_ptr(), bytes.len());
        let mut size = 0;
        // SAFETY: so many bytes are there, they are only read, and nothing keeps a pointer.
        let answer = unsafe { super::protocol_framed_bytes_check(start, length, order as u32, &mut size) };
        if answer == 0 { Ok(size) } else { Err(super::Refused::of(answer, size)) }
    }

    /// A value.
    #[derive(Debug, Clone, Copy, PartialEq)]
    pub struct FramedBytes<'a> {
        pub bytes: &'a [u8],
    }

    /// Reads the value that the bytes begin with, and says of how many bytes it is.
    pub fn read<'a>(
        bytes: &'a [u8],
        order: super::Order,
    ) -> Result<(FramedBytes<'a>, usize), super::Refused> {
        let mut raw = std::mem::MaybeUninit::<super::RawFramedBytes>::uninit();
        let mut size = 0;
        // SAFETY: so many bytes are there, they are only read, and what is written is not read before.
        let answer = unsafe {
            super::protocol_framed_bytes_read(bytes.as_ptr(), bytes.len(), order as u32, raw.as_mut_ptr(), &mut size)
        };
        if answer != 0 {
            return Err(super::Refused::of(answer, size));
        }
        // SAFETY: the view is set, and shows bytes of those that were read.
        Ok((unsafe { super::framed_bytes_of(raw.assume_init()) }, size))
    }

    /// The values that stand one after another, up to the end of the bytes or to the first that is refused, `at` where
    /// it begins.
    pub fn walk<'a>(
        bytes: &'a [u8],
        order: super::Order,
    ) -> impl Iterator<Item = Result<FramedBytes<'a>, super::Refused>> + 'a {
        let mut at = 0;
        std::iter::from_fn(move || {
            let left = bytes.get(at..).filter(|left| !left.is_empty())?;
            match read(left, order) {
                Ok((_, 0)) => None,
                Ok((value, size)) => {
                    at += size;
                    Some(Ok(value))
                }
                Err(refused) => {
                    let refused = super::Refused { at, ..refused };
                    at = bytes.len();
                    Some(Err(refused))
                }
            }
        })
    }

    impl FramedBytes<'_> {
        /// Writes the value to the front of the buffer, in its canonical encoding, and says how many bytes that takes.
        /// Where the buffer is shorter, `at` of the error says how many are needed.
        pub fn write_to(&self, buffer: &mut [u8], order: super::Order) -> Result<usize, super::Refused> {
            let raw = super::framed_bytes_raw(*self);
            let (start, room) = (buffer.as_mut_ptr(), buffer.len());
            let mut size = 0;
            // SAFETY: what the view shows stays while `self` is borrowed, so many bytes can be written, and nothing
            // keeps a pointer.
            let answer = unsafe { super::protocol_framed_bytes_write(&raw, order as u32, start, room, &mut size) };
            if answer == 0 { Ok(size) } else { Err(super::Refused::of(answer, size)) }
        }

        /// The canonical encoding of the value.
        pub fn to_bytes(&self, order: super::Order) -> Result<Vec<u8>, super::Refused> {
            let mut bytes = Vec::new();
            super::append(&mut bytes, |buffer| self.write_to(buffer, order))?;
            Ok(bytes)
        }
    }
}
