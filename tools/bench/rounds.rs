//! The original's loops, in the shape of rounds.rt. Each is written out: where a closure or a function
//! stood between, the compiler put other calls in line.

use crate::ports::{bench_keep, bench_length, bench_order};
use speedy::{Endianness, Readable, Writable};
use std::hint::black_box as bb;

pub fn endianness(big: bool) -> Endianness {
    if big {
        Endianness::BigEndian
    } else {
        Endianness::LittleEndian
    }
}

fn order_of(big: bool) -> Endianness {
    endianness(unsafe { bench_order(big) })
}

pub fn front_of(bytes: &[u8]) -> Option<&[u8]> {
    bytes.get(..unsafe { bench_length(bytes.len()) })
}

#[inline(never)]
pub fn read_rounds<'a, T: Readable<'a, Endianness>>(
    bytes: &'a [u8],
    big: bool,
    rounds: usize,
) -> usize {
    let mut good = 0;
    for _ in 0..rounds {
        let order = order_of(big);
        let Some(front) = front_of(bytes) else {
            return 0;
        };
        match T::read_from_buffer_with_ctx(order, front) {
            Ok(value) => {
                bb(&value);
                good += 1;
            }
            Err(_) => return 0,
        }
    }
    good
}

#[inline(never)]
pub fn stream_rounds<'a, T: Readable<'a, Endianness>>(
    bytes: &[u8],
    big: bool,
    how: u8,
    rounds: usize,
) -> usize {
    let mut good = 0;
    for _ in 0..rounds {
        let order = order_of(big);
        let Some(front) = front_of(bytes) else {
            return 0;
        };
        let read = if how == 0 {
            T::read_from_stream_unbuffered_with_ctx(order, front)
        } else {
            T::read_from_stream_buffered_with_ctx(order, front)
        };
        match read {
            Ok(value) => {
                bb(&value);
                good += 1;
            }
            Err(_) => return 0,
        }
    }
    good
}

#[inline(never)]
pub fn write_rounds<T: Writable<Endianness>>(
    value: &T,
    buffer: &mut [u8],
    big: bool,
    how: u8,
    rounds: usize,
) -> usize {
    match how {
        0 => to_buffer(value, buffer, big, rounds),
        1 => to_vec(value, big, rounds),
        3 => to_sink(value, big, rounds),
        _ => needed(value, big, rounds),
    }
}

#[inline(always)]
fn to_buffer<T: Writable<Endianness>>(
    value: &T,
    buffer: &mut [u8],
    big: bool,
    rounds: usize,
) -> usize {
    let mut sum = 0;
    for _ in 0..rounds {
        match value.write_to_buffer_with_ctx(order_of(big), buffer) {
            Ok(()) => sum += 1,
            Err(_) => return 0,
        }
        unsafe { bench_keep(buffer.as_mut_ptr(), buffer.len()) };
    }
    sum
}

#[inline(always)]
fn to_vec<T: Writable<Endianness>>(value: &T, big: bool, rounds: usize) -> usize {
    let mut sum = 0;
    for _ in 0..rounds {
        match value.write_to_vec_with_ctx(order_of(big)) {
            Ok(made) => {
                bb(made.as_ptr());
                sum += made.len();
            }
            Err(_) => return 0,
        }
    }
    sum
}

#[inline(always)]
fn to_sink<T: Writable<Endianness>>(value: &T, big: bool, rounds: usize) -> usize {
    let mut sum = 0;
    for _ in 0..rounds {
        let mut sink = Vec::new();
        match value.write_to_stream_with_ctx(order_of(big), &mut sink) {
            Ok(()) => {
                bb(sink.as_ptr());
                sum += sink.len();
            }
            Err(_) => return 0,
        }
    }
    sum
}

/// Asks for the length as `Writable::bytes_needed` does, under a context.
#[inline(always)]
fn needed<T: Writable<Endianness>>(value: &T, big: bool, rounds: usize) -> usize {
    let mut sum = 0;
    for _ in 0..rounds {
        match Writable::<Endianness>::bytes_needed(value) {
            Ok(count) => sum += count,
            Err(_) => return 0,
        }
        let _ = order_of(big);
    }
    sum
}
