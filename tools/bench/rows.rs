//! Rows: an operation on a case in one order, by either side, and how its time is taken.

use crate::ports::{Ported, ReadFn, StreamFn};
use crate::rounds::{endianness, read_rounds, stream_rounds, write_rounds};
use speedy::{Endianness, Readable, Writable};
use std::hint::black_box as bb;
use std::time::Instant;

/// One side of a row: what runs so many rounds in a call, how many a stretch has, and the least
/// nanoseconds, of a stretch until `finish`, and then of a round.
pub struct Side {
    run: Box<dyn FnMut(usize) -> usize>,
    count: usize,
    pub best: f64,
    /// Where a call reads a value first, the least nanoseconds of a call without rounds, which are
    /// then taken off.
    zero: Option<f64>,
}

impl Side {
    pub fn new(run: impl FnMut(usize) -> usize + 'static) -> Side {
        Side {
            run: Box::new(run),
            count: 1,
            best: f64::MAX,
            zero: None,
        }
    }

    /// A side whose calls read a value first, as those of the port do that write.
    pub fn reading_first(run: impl FnMut(usize) -> usize + 'static) -> Side {
        Side {
            zero: Some(f64::MAX),
            ..Side::new(run)
        }
    }

    /// Returns what a call of so many rounds answers.
    pub fn answer(&mut self, rounds: usize) -> usize {
        (self.run)(rounds)
    }

    /// Returns the nanoseconds of a call.
    pub fn time(&mut self, rounds: usize) -> f64 {
        let start = Instant::now();
        bb((self.run)(rounds));
        start.elapsed().as_nanos() as f64
    }

    /// Finds how many rounds take a millisecond, and where the call reads a value first as long as
    /// that besides.
    fn find_count(&mut self) {
        self.time(1);
        loop {
            let zero = self.time(0);
            let nanoseconds = self.time(self.count) - zero;
            let wanted = 1_000_000.0 + self.zero.map_or(0.0, |_| zero);
            if nanoseconds > wanted || self.count > 1 << 20 {
                break;
            }
            self.count *= 2;
        }
        self.count = self.count.max(4);
    }

    fn run(&mut self) {
        if let Some(least) = self.zero {
            let zero = (0..3).map(|_| self.time(0)).fold(least, f64::min);
            self.zero = Some(zero);
        }
        self.best = self.best.min(self.time(self.count));
    }

    fn finish(&mut self) {
        self.best = (self.best - self.zero.unwrap_or(0.0)) / self.count as f64;
    }
}

/// A side that encodes a value to a vector again and again, written out for a crate.
macro_rules! encoder {
    ($value:ident, $encode:expr) => {
        Side::new(move |rounds| {
            let mut sum = 0;
            for _ in 0..rounds {
                let made = $encode(bb($value));
                bb(made.as_ptr());
                sum += made.len();
            }
            sum
        })
    };
}
pub(crate) use encoder;

/// Times sides that are compared, in turns: none is always first.
pub fn measure_together(sides: &mut [&mut Side], reps: usize) {
    for side in sides.iter_mut() {
        side.find_count();
    }
    for rep in 0..reps {
        let first = rep % sides.len();
        for at in 0..sides.len() {
            sides[(first + at) % sides.len()].run();
        }
    }
    for side in sides {
        side.finish();
    }
}

/// Returns the sides of what is called so in a case, each with a name by its way.
pub fn named_sides<const N: usize>(
    case: &'static str,
    name: &'static str,
    ways: [(&'static str, Option<Side>); N],
) -> impl Iterator<Item = (String, Side)> {
    let named =
        move |(way, side): (&str, Option<Side>)| Some((format!("{case} | {name} | {way}"), side?));
    ways.into_iter().filter_map(named)
}

/// An operation on a case in one order.
pub struct Row {
    pub input: Input,
    pub op: &'static str,
    pub original: Side,
    pub port: Side,
}

impl Row {
    fn find_counts(&mut self) {
        self.original.find_count();
        self.port.find_count();
    }

    fn run(&mut self, port_first: bool) {
        if port_first {
            self.port.run();
            self.original.run();
        } else {
            self.original.run();
            self.port.run();
        }
    }

    fn finish(&mut self) {
        self.original.finish();
        self.port.finish();
    }

    pub fn ratio(&self) -> f64 {
        self.port.best / self.original.best
    }

    pub fn json(&self) -> String {
        let Input {
            case, items, bytes, ..
        } = self.input;
        format!(
            "{{\"case\": \"{case}\", \"order\": \"{}\", \"op\": \"{}\", \"items\": {items}, \
             \"bytes\": {}, \"original_ns\": {:.2}, \"port_ns\": {:.2}}}",
            self.input.order(),
            self.op,
            bytes.len(),
            self.original.best,
            self.port.best
        )
    }
}

pub fn measure(rows: &mut [Row], reps: usize) {
    for row in rows.iter_mut() {
        row.find_counts();
    }
    for rep in 0..reps {
        for row in rows.iter_mut() {
            row.run(rep % 2 == 1);
        }
    }
    for row in rows {
        row.finish();
    }
}

/// A case in one order: the encoding of a value.
#[derive(Clone, Copy)]
pub struct Input {
    pub case: &'static str,
    pub items: usize,
    pub big: bool,
    pub bytes: &'static [u8],
}

/// The operations that `stream_rounds` and `write_rounds` number.
const STREAM_OPS: [&str; 2] = ["read_unbuffered", "read_buffered"];
pub const WRITE_OPS: [&str; 4] = [
    "write_to_buffer",
    "write_to_vec",
    "bytes_needed",
    "write_to_stream",
];

impl Input {
    pub fn new<T>(case: &'static str, items: usize, big: bool, value: &T) -> Input
    where
        T: Writable<Endianness>,
    {
        let bytes = value.write_to_vec_with_ctx(endianness(big)).unwrap();
        Input {
            case,
            items,
            big,
            bytes: Box::leak(bytes.into_boxed_slice()),
        }
    }

    pub fn order(&self) -> &'static str {
        if self.big {
            "be"
        } else {
            "le"
        }
    }

    fn row(self, op: &'static str, original: Side, port: Side) -> Row {
        Row {
            input: self,
            op,
            original,
            port,
        }
    }

    pub fn read<T: Readable<'static, Endianness>>(self, op: &'static str, read: ReadFn) -> Row {
        let Input { bytes, big, .. } = self;
        let original = Side::new(move |k| read_rounds::<T>(bb(bytes), bb(big), k));
        let port = Side::new(move |k| unsafe { read(bb(bytes).as_ptr(), bytes.len(), bb(big), k) });
        self.row(op, original, port)
    }

    pub fn stream<T: Readable<'static, Endianness>>(self, how: u8, stream: StreamFn) -> Row {
        let Input { bytes, big, .. } = self;
        let original = Side::new(move |k| stream_rounds::<T>(bb(bytes), bb(big), how, k));
        let port =
            Side::new(move |k| unsafe { stream(bb(bytes).as_ptr(), bytes.len(), bb(big), how, k) });
        self.row(STREAM_OPS[how as usize], original, port)
    }

    pub fn write<T: Ported>(
        self,
        op: &'static str,
        how: u8,
        value: &'static T,
        buffer: Buffer,
    ) -> Row {
        let Input { bytes, big, .. } = self;
        let original = Side::new(move |k| {
            write_rounds(bb(value), unsafe { buffer.as_slice() }, bb(big), how, k)
        });
        let port = Side::reading_first(move |k| unsafe {
            let at = bb(bytes).as_ptr();
            (T::PORT.write)(at, bytes.len(), buffer.at, buffer.length, bb(big), how, k)
        });
        self.row(op, original, port)
    }

    /// Looks whether the port reads this encoding and writes the same, but for the order of keys of
    /// a `HashMap`, and returns a line with the sums of what either side wrote.
    pub fn compared<T: Ported>(self, buffer: Buffer) -> String {
        let Input {
            case, bytes, big, ..
        } = self;
        let (at, length) = (bytes.as_ptr(), bytes.len());
        let write =
            |how| unsafe { (T::PORT.write)(at, length, buffer.at, buffer.length, big, how, 1) };
        unsafe { (T::PORT.read)(at, length, big, 1) };
        assert_eq!(write(0), 1, "{case}");
        let written = unsafe { buffer.as_slice() }.to_vec();
        assert!(
            written == bytes || case.starts_with("Hash"),
            "{case}: other bytes"
        );
        assert_eq!([write(1), write(2)], [length; 2], "{case}");
        let [original, port] = [bytes, &written].map(fnv);
        let order = self.order();
        format!("{case} {order}: {length} bytes, original {original:016x}, port {port:016x}")
    }
}

fn fnv(bytes: &[u8]) -> u64 {
    let start = 0xcbf2_9ce4_8422_2325;
    bytes.iter().fold(start, |hash, byte| {
        (hash ^ u64::from(*byte)).wrapping_mul(0x100_0000_01b3)
    })
}

/// Where both sides write.
#[derive(Clone, Copy)]
pub struct Buffer {
    at: *mut u8,
    length: usize,
}

impl Buffer {
    pub fn new(length: usize) -> Buffer {
        Buffer {
            at: Box::leak(vec![0; length].into_boxed_slice()).as_mut_ptr(),
            length,
        }
    }

    /// # Safety
    ///
    /// What was returned before is used no more.
    unsafe fn as_slice(self) -> &'static mut [u8] {
        std::slice::from_raw_parts_mut(self.at, self.length)
    }
}
