//! Times the calls of the library of calls.rs beside the original's read and write of the same bytes, in one process.
//! usage: callers [REPS]
use speedy::{Context, Readable, Reader, Writable, Writer};
use std::hint::black_box;
use std::time::Instant;

/// Room for a view: no call here sees its fields.
#[repr(C, align(8))]
struct View([u8; 256]);

unsafe extern "C" {
    fn calls_message_check(bytes: *const u8, length: usize, order: u32, size: *mut usize) -> u32;
    fn calls_header_check(bytes: *const u8, length: usize, order: u32, size: *mut usize) -> u32;
    fn calls_records_check(bytes: *const u8, length: usize, order: u32, size: *mut usize) -> u32;
    fn calls_message_read(bytes: *const u8, length: usize, order: u32, view: *mut View, size: *mut usize) -> u32;
    fn calls_message_write(view: *const View, order: u32, buffer: *mut u8, room: usize, size: *mut usize) -> u32;
}

type Check = unsafe extern "C" fn(*const u8, usize, u32, *mut usize) -> u32;

/// The types of calls.rs, with the impls as the original's derive writes them.
macro_rules! structs {
    ($($name:ident $(<$life:lifetime>)?, $read:lifetime, $least:literal { $($field:ident: $type:ty,)* })*) => { $(
        struct $name $(<$life>)? {
            $($field: $type,)*
        }

        impl<$read, C: Context> Readable<$read, C> for $name $(<$life>)? {
            #[inline]
            fn read_from<R: Reader<$read, C>>(reader: &mut R) -> Result<Self, C::Error> {
                Ok($name { $($field: reader.read_value()?,)* })
            }

            #[inline]
            fn minimum_bytes_needed() -> usize {
                $least
            }
        }

        impl<$($life,)? C: Context> Writable<C> for $name $(<$life>)? {
            #[inline]
            fn write_to<W: ?Sized + Writer<C>>(&self, writer: &mut W) -> Result<(), C::Error> {
                $(writer.write_value(&self.$field)?;)*
                Ok(())
            }
        }
    )* };
}

structs! {
    Message<'a>, 'a, 41 { number: u64, text: &'a str, content: &'a [u8], places: [i64; 3], level: u8, }
    Entry, 'a, 12 { hash: u32, offset: u32, length: u16, flags: u16, }
    Header, 'a, 12 { magic: u32, version: u16, flags: u16, entries: Vec<Entry>, }
    Record, 'a, 21 { number: u64, text: String, content: Vec<u8>, places: Vec<i64>, level: u8, }
    Records, 'a, 4 { list: Vec<Record>, }
}

/// The least time of a call in nanoseconds.
fn least(reps: usize, rounds: usize, mut call: impl FnMut()) -> f64 {
    let mut found = f64::MAX;
    for _ in 0..reps {
        let start = Instant::now();
        for _ in 0..rounds {
            call();
        }
        found = found.min(start.elapsed().as_nanos() as f64 / rounds as f64);
    }
    found
}

fn print(what: &str, ours: f64, original: f64) {
    println!("| {what} | {ours:.1} | {original:.1} | {:.2} |", ours / original);
}

/// Times a check beside the original's read.
fn checks<'a, T>(what: &str, call: Check, bytes: &'a [u8], reps: usize, rounds: usize)
where
    T: Readable<'a, speedy::LittleEndian>,
{
    let mut size = 0;
    let ours = least(reps, rounds, || {
        let answer = unsafe { call(black_box(bytes.as_ptr()), bytes.len(), 0, &mut size) };
        assert!(answer == 0 && size == bytes.len());
    });
    let original = least(reps, rounds, || {
        black_box(T::read_from_buffer(black_box(bytes)).expect("a value"));
    });
    print(what, ours, original);
}

fn main() {
    let reps = std::env::args().nth(1).map_or(15, |it| it.parse().expect("a number"));
    let message = Message {
        number: 1 << 40,
        text: "a sensor at the porch",
        content: b"twelve bytes",
        places: [-1, 2, 3],
        level: 7,
    };
    let entries = (0..64).map(|at| Entry { hash: at * 77, offset: at * 1000, length: at as u16, flags: 3 }).collect();
    let header = Header { magic: 7, version: 2, flags: 1, entries };
    let record = |at: u64| Record {
        number: at << 20,
        text: "a sensor at ".to_string() + &"porch"[..(at % 6) as usize],
        content: vec![7; (at % 9) as usize],
        places: vec![at as i64; 3],
        level: at as u8,
    };
    let records = Records { list: (0..10_000).map(record).collect() };
    let (message_bytes, header_bytes) = (message.write_to_vec().expect("bytes"), header.write_to_vec().expect("bytes"));
    let record_bytes = records.write_to_vec().expect("bytes");
    assert!(message_bytes.len() == 74);

    println!("| Call, little endian | nanoseconds | of the original | ratio |\n|---|---|---|---|");
    checks::<Message>("check of a message of 74 bytes", calls_message_check, &message_bytes, reps, 200_000);
    let (mut view, mut size) = (View([0; 256]), 0);
    let read = least(reps, 200_000, || {
        let bytes = black_box(&message_bytes);
        let answer = unsafe { calls_message_read(bytes.as_ptr(), bytes.len(), 0, &mut view, &mut size) };
        assert!(answer == 0 && size == 74);
        black_box(&view);
    });
    let original = least(reps, 200_000, || {
        black_box(Message::read_from_buffer(black_box(&message_bytes)).expect("a value"));
    });
    print("read of it", read, original);
    let mut buffer = [0; 80];
    let write = least(reps, 200_000, || {
        let (start, room) = (buffer.as_mut_ptr(), buffer.len());
        let answer = unsafe { calls_message_write(black_box(&view), 0, start, room, &mut size) };
        assert!(answer == 0 && size == 74);
        black_box(&buffer);
    });
    assert!(buffer[..74] == message_bytes[..]);
    let original = least(reps, 200_000, || {
        black_box(&message).write_to_buffer(black_box(&mut buffer)).expect("room");
    });
    print("write of it", write, original);
    checks::<Header>("check of a header of 64 entries", calls_header_check, &header_bytes, reps, 100_000);
    checks::<Records>("check of 10,000 records", calls_records_check, &record_bytes, reps, 20);
}
