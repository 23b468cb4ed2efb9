//! Formats that others define: a zone, a table of symbols, and packets of a stream, by the types of
//! crates/speedy_formats.

use crate::documents::nanoseconds;
use crate::format_peers;
use crate::ports::{
    port_format_packets, port_format_symbols, port_format_zone, port_format_zone_written,
    FormatFn,
};
use crate::rounds::front_of;
use crate::rows::{measure_together, Side};
use crate::values::Rng;
use speedy::{BigEndian, Context, LittleEndian, Readable, Reader, Writable, Writer};
use std::borrow::Cow;
use std::hint::black_box as bb;

/// Structs, with the impls as the original's derive writes them, and the least size of each.
macro_rules! structs {
    ($($name:ident, $least:literal { $($field:ident: $type:ty,)* })*) => { $(
        pub struct $name {
            $(pub $field: $type,)*
        }

        impl<'a, C: Context> Readable<'a, C> for $name {
            #[inline]
            fn read_from<R: Reader<'a, C>>(reader: &mut R) -> Result<Self, C::Error> {
                Ok($name { $($field: reader.read_value()?,)* })
            }

            #[inline]
            fn minimum_bytes_needed() -> usize {
                $least
            }
        }

        impl<C: Context> Writable<C> for $name {
            #[inline]
            fn write_to<W: ?Sized + Writer<C>>(&self, writer: &mut W) -> Result<(), C::Error> {
                $(writer.write_value(&self.$field)?;)*
                Ok(())
            }
        }
    )* };
}

structs! {
    LocalType, 6 { offset: i32, is_daylight: u8, name: u8, }
    Symbol, 24 { name: u32, info: u8, visibility: u8, section: u16, value: u64, size: u64, }
    Captured, 24 { magic: u32, major: u16, minor: u16, reserved: [u8; 8], longest: u32, link: u32, }
}

/// The counts that a block begins with, as they stand there.
struct Counts {
    version: u8,
    unused: [u8; 15],
    counts: [u32; 6],
}

/// A block of a zone, without leap seconds.
struct Block<T> {
    counts: Counts,
    times: Vec<T>,
    kinds: Vec<u8>,
    types: Vec<LocalType>,
    names: Vec<u8>,
    standard: Vec<u8>,
    universal: Vec<u8>,
}

struct Zone {
    old: Block<i32>,
    new: Block<i64>,
    footer: Vec<u8>,
}

const MAGIC: &[u8; 4] = b"TZif";

fn expected<'a, C: Context, R: Reader<'a, C>>(
    reader: &mut R,
    constant: &'static [u8],
) -> Result<(), C::Error> {
    let mut read = [0; 4];
    let read = &mut read[..constant.len()];
    reader.read_bytes(read)?;
    if read == constant {
        return Ok(());
    }
    Err(speedy::Error::custom("another constant").into())
}

impl<'a, C: Context, T: Readable<'a, C>> Readable<'a, C> for Block<T> {
    #[inline]
    fn read_from<R: Reader<'a, C>>(reader: &mut R) -> Result<Self, C::Error> {
        expected(reader, MAGIC)?;
        let counts = Counts {
            version: reader.read_value()?,
            unused: reader.read_value()?,
            counts: reader.read_value()?,
        };
        let [universal, standard, _, times, types, names] = counts.counts.map(|it| it as usize);
        Ok(Block {
            times: reader.read_vec(times)?,
            kinds: reader.read_vec(times)?,
            types: reader.read_vec(types)?,
            names: reader.read_vec(names)?,
            standard: reader.read_vec(standard)?,
            universal: reader.read_vec(universal)?,
            counts,
        })
    }
}

impl<C: Context, T: Writable<C>> Writable<C> for Block<T> {
    #[inline]
    fn write_to<W: ?Sized + Writer<C>>(&self, writer: &mut W) -> Result<(), C::Error> {
        writer.write_bytes(MAGIC)?;
        writer.write_value(&self.counts.version)?;
        writer.write_value(&self.counts.unused)?;
        writer.write_value(&self.counts.counts)?;
        writer.write_slice(&self.times)?;
        writer.write_slice(&self.kinds)?;
        writer.write_slice(&self.types)?;
        writer.write_slice(&self.names)?;
        writer.write_slice(&self.standard)?;
        writer.write_slice(&self.universal)
    }
}

impl<'a, C: Context> Readable<'a, C> for Zone {
    #[inline]
    fn read_from<R: Reader<'a, C>>(reader: &mut R) -> Result<Self, C::Error> {
        let (old, new) = (reader.read_value()?, reader.read_value()?);
        expected(reader, b"\n")?;
        let footer = reader.read_vec_until_eof()?;
        Ok(Zone { old, new, footer })
    }
}

impl<C: Context> Writable<C> for Zone {
    #[inline]
    fn write_to<W: ?Sized + Writer<C>>(&self, writer: &mut W) -> Result<(), C::Error> {
        writer.write_value(&self.old)?;
        writer.write_value(&self.new)?;
        writer.write_bytes(b"\n")?;
        writer.write_slice(&self.footer)
    }
}

/// A table of symbols, to its end.
struct Symbols(Vec<Symbol>);

impl<'a, C: Context> Readable<'a, C> for Symbols {
    #[inline]
    fn read_from<R: Reader<'a, C>>(reader: &mut R) -> Result<Self, C::Error> {
        Ok(Symbols(reader.read_vec_until_eof()?))
    }
}

struct Packet<'a> {
    #[allow(unused)]
    told: [u32; 4],
    bytes: Cow<'a, [u8]>,
}

impl<'a, C: Context> Readable<'a, C> for Packet<'a> {
    #[inline]
    fn read_from<R: Reader<'a, C>>(reader: &mut R) -> Result<Self, C::Error> {
        let told = [
            reader.read_value()?,
            reader.read_value()?,
            reader.read_value()?,
            reader.read_value()?,
        ];
        let bytes = reader.read_cow(told[2] as usize)?;
        Ok(Packet { told, bytes })
    }
}

/// How many bytes the packets of a file have, of which one at a time is in memory.
struct PacketBytes(usize);

impl<'a, C: Context> Readable<'a, C> for PacketBytes {
    fn read_from<R: Reader<'a, C>>(reader: &mut R) -> Result<Self, C::Error> {
        let _: Captured = reader.read_value()?;
        let mut sum = 0;
        while reader.peek_u8().is_ok() {
            let packet: Packet<'a> = reader.read_value()?;
            sum += bb(packet).bytes.len();
        }
        Ok(PacketBytes(sum))
    }
}

// ---- the bytes

/// A zone as that of New York was: 236 changes, in 3,552 bytes.
fn zone_bytes(rng: &mut Rng) -> Vec<u8> {
    let mut out = Vec::new();
    for width in [4, 8] {
        out.extend_from_slice(b"TZif2");
        out.extend_from_slice(&[0; 15]);
        for count in [6u32, 6, 0, 236, 6, 20] {
            out.extend_from_slice(&count.to_be_bytes());
        }
        for at in 0..236i64 {
            let time = at * 15_000_000 - 2_000_000_000;
            out.extend_from_slice(&time.to_be_bytes()[8 - width..]);
        }
        out.extend((0..236).map(|_| (rng.next() % 6) as u8));
        for name in [0, 4, 8, 12, 16, 16] {
            out.extend_from_slice(&(-18_000i32).to_be_bytes());
            out.extend_from_slice(&[0, name]);
        }
        out.extend_from_slice(b"LMT\0EDT\0EST\0EWT\0EPT\0");
        out.extend_from_slice(&[0; 12]);
    }
    out.extend_from_slice(b"\nEST5EDT,M3.2.0,M11.1.0\n");
    out
}

/// 10,000 symbols.
fn symbol_bytes(rng: &mut Rng) -> Vec<u8> {
    let mut out = Vec::new();
    for _ in 0..10_000 {
        let [name, value, size] = [0; 3].map(|_: u32| rng.next());
        out.extend_from_slice(&(name as u32).to_le_bytes());
        out.extend_from_slice(&[0x12, 0, 14, 0]);
        out.extend_from_slice(&(value >> 16).to_le_bytes());
        out.extend_from_slice(&(size >> 52).to_le_bytes());
    }
    out
}

/// A file of about so many bytes, of packets of 60 to 1,500 bytes.
fn capture_bytes(rng: &mut Rng, length: usize) -> Vec<u8> {
    let mut out = vec![0xd4, 0xc3, 0xb2, 0xa1, 2, 0, 4, 0];
    out.extend_from_slice(&[0, 0, 0, 0, 0, 0, 0, 0, 0, 0, 4, 0, 1, 0, 0, 0]);
    while out.len() < length {
        let size = 60 + (rng.next() % 1_441) as u32;
        for told in [1_700_000_000, 0, size, size] {
            out.extend_from_slice(&told.to_le_bytes());
        }
        out.resize(out.len() + size as usize, size as u8);
    }
    out
}

// ---- the rows

/// What reads or writes a format, by name, the port's first.
struct Format {
    case: &'static str,
    bytes: usize,
    sides: Vec<(&'static str, Side)>,
}

/// A side that calls this for the bytes again and again, and adds up what is answered.
pub fn side_of(bytes: &'static [u8], call: impl Fn(&'static [u8]) -> usize + 'static) -> Side {
    Side::new(move |rounds| {
        let mut sum = 0usize;
        for _ in 0..rounds {
            sum = sum.wrapping_add(call(front_of(bb(bytes)).unwrap()));
        }
        sum
    })
}

impl Format {
    fn new(
        case: &'static str,
        bytes: &'static [u8],
        port: FormatFn,
        original: impl Fn(&'static [u8]) -> usize + 'static,
        peers: Vec<(&'static str, Side)>,
    ) -> Format {
        let port = Side::new(move |k| unsafe { port(bb(bytes).as_ptr(), bytes.len(), k) });
        let mut sides = vec![
            ("this crate", port),
            ("the original", side_of(bytes, original)),
        ];
        sides.extend(peers);
        Format {
            case,
            bytes: bytes.len(),
            sides,
        }
    }

    fn measure(&mut self, reps: usize) {
        let answers: Vec<_> = self.sides.iter_mut().map(|it| it.1.answer(1)).collect();
        assert!(
            answers[0] > 0 && answers.iter().all(|it| *it == answers[0]),
            "{}: {answers:?}",
            self.case
        );
        let mut sides: Vec<_> = self.sides.iter_mut().map(|it| &mut it.1).collect();
        measure_together(&mut sides, reps);
    }

    fn print(&self) {
        let port = self.sides[0].1.best;
        for (name, side) in &self.sides {
            println!(
                "| {} | {name} | {} | {} | {:.2} |",
                self.case,
                self.bytes,
                nanoseconds(side.best),
                port / side.best
            );
        }
    }
}

fn zones(bytes: &'static [u8]) -> [Format; 2] {
    let zone: &'static Zone = Box::leak(Box::new(
        Zone::read_from_buffer_with_ctx(BigEndian {}, bytes).unwrap(),
    ));
    assert_eq!(zone.write_to_vec_with_ctx(BigEndian {}).unwrap(), bytes);
    let read = |front| {
        let zone = Zone::read_from_buffer_with_ctx(BigEndian {}, front).unwrap();
        bb(&zone).new.times.len() ^ zone.footer.len()
    };
    let write = move |_| bb(bb(zone).write_to_vec_with_ctx(BigEndian {}).unwrap()).len();
    [
        Format::new("zone, read", bytes, port_format_zone, read, Vec::new()),
        Format::new(
            "zone, written",
            bytes,
            port_format_zone_written,
            write,
            Vec::new(),
        ),
    ]
}

fn formats(rng: &mut Rng, capture: usize) -> Vec<Format> {
    let leaked = |bytes: Vec<u8>| -> &'static [u8] { Box::leak(bytes.into_boxed_slice()) };
    let [zone, symbols, capture] =
        [zone_bytes(rng), symbol_bytes(rng), capture_bytes(rng, capture)].map(leaked);
    let read_symbols = |front| {
        let symbols = Symbols::read_from_buffer_with_ctx(LittleEndian {}, front).unwrap();
        let values = symbols.0.iter().map(|it| it.value as usize);
        values.fold(0, usize::wrapping_add)
    };
    let read_packets = |front| {
        let read = PacketBytes::read_from_stream_buffered_with_ctx(LittleEndian {}, front);
        read.unwrap().0
    };
    let mut all: Vec<Format> = zones(zone).into_iter().collect();
    all.push(Format::new(
        "10,000 symbols",
        symbols,
        port_format_symbols,
        read_symbols,
        format_peers::readers_of_symbols(symbols),
    ));
    all.push(Format::new(
        "packets of a stream",
        capture,
        port_format_packets,
        read_packets,
        format_peers::readers_of_packets(capture),
    ));
    all
}

/// Times the formats.
pub fn run_formats(rng: &mut Rng, reps: usize) {
    println!("| format | by | bytes | ns | ours to it |");
    println!("|---|---|---|---|---|");
    for mut format in formats(rng, 100_000_000) {
        format.measure(reps);
        format.print();
    }
}

/// Returns each side of the formats, with its name. The stream of packets is a hundredth of what is timed.
pub fn sides_of_formats(rng: &mut Rng) -> impl Iterator<Item = (String, Side)> {
    formats(rng, 1_000_000).into_iter().flat_map(|it| {
        let case = it.case;
        let named = move |(name, side)| (format!("{case} | {name}"), side);
        it.sides.into_iter().map(named)
    })
}
