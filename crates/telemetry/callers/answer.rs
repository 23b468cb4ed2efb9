//! Answers lines `TYPE ORDER BYTES`, as run-examples says, by telemetry.rs. Made by `tools/derive --library`.
use std::io::{self, BufRead};

mod telemetry;

use telemetry::{Kind, Order, Refused};

/// What a check of a type answers.
fn check(kind: &str, bytes: &[u8], order: Order) -> Result<usize, Refused> {
    match kind {
        "reading" => telemetry::reading::check(bytes, order),
        "message" => telemetry::message::check(bytes, order),
        "line" => telemetry::line::check_whole(bytes, order).map(|()| 0),
        _ => panic!("there is no type {kind}"),
    }
}

/// Reads what was checked, and prints it. It has to be of the same size.
#[allow(unused_variables)]
fn show(kind: &str, bytes: &[u8], order: Order, size: usize) -> String {
    match kind {
        "reading" => {
            let (value, read) = telemetry::reading::read(bytes, order).expect("a value");
            let walked = telemetry::reading::walk(bytes, order).next();
            assert!(read == size);
            let again = if size == 0 { value } else { walked.expect("one").expect("the same") };
            say_reading(&again) + &say_reading(&value)
                + &written(value.to_bytes(order), |buffer| value.write_to(buffer, order))
        }
        "message" => {
            let (value, read) = telemetry::message::read(bytes, order).expect("a value");
            let walked = telemetry::message::walk(bytes, order).next();
            assert!(read == size);
            let again = if size == 0 { value } else { walked.expect("one").expect("the same") };
            say_message(&again) + &say_message(&value)
                + &written(value.to_bytes(order), |buffer| value.write_to(buffer, order))
        }
        _ => String::new(),
    }
}

/// Bytes in hex, or `-`.
fn hex(bytes: &[u8]) -> String {
    let digits: String = bytes.iter().map(|it| format!("{it:02x}")).collect();
    if digits.is_empty() { " -".to_string() } else { format!(" {digits}") }
}

/// What is written of a value. A buffer of one byte less is too short.
fn written(
    bytes: Result<Vec<u8>, Refused>,
    write: impl Fn(&mut [u8]) -> Result<usize, Refused>,
) -> String {
    let bytes = bytes.expect("bytes");
    if let Some(less) = bytes.len().checked_sub(1) {
        let short = write(&mut vec![0; less]).expect_err("too short");
        assert!(short.kind == Kind::OutputBufferIsTooSmall && short.at == bytes.len());
    }
    format!(" ={}", hex(&bytes))
}

fn say_reading(it: &telemetry::reading::Reading) -> String {
    [
        format!(" {}", it.second),
        format!(" {}", it.value),
        format!(" {}", it.is_exact as u8),
    ]
    .concat()
}

fn say_message(it: &telemetry::message::Message<'_>) -> String {
    match *it {
        telemetry::message::Message::Ping => [
            " Ping".to_string(),
        ]
        .concat(),
        telemetry::message::Message::Hello { name, version, mail } => [
            " Hello".to_string(),
            hex(name.as_bytes()),
            hex(&version),
            match mail { Some(it) => " some".to_string() + &hex(it.as_bytes()), None => " none".into() },
        ]
        .concat(),
        telemetry::message::Message::Measured { sensor, reading } => [
            " Measured".to_string(),
            format!(" {}", sensor),
            say_reading(&reading),
        ]
        .concat(),
        telemetry::message::Message::Blob { t0 } => [
            " Blob".to_string(),
            hex(t0),
        ]
        .concat(),
        telemetry::message::Message::Measurements { sensor, readings } => [
            " Measurements".to_string(),
            format!(" {}", sensor),
            format!(" {}", readings.len()) + &readings.iter().map(|it| say_reading(&it)).collect::<String>(),
        ]
        .concat(),
    }
}

/// The number of a kind.
fn number(kind: Kind) -> u32 {
    match kind {
        Kind::InvalidChar => 1,
        Kind::InvalidEnumVariant => 2,
        Kind::InvalidUtf8 => 3,
        Kind::InvalidSystemTime => 4,
        Kind::ZeroNonZero => 5,
        Kind::OutOfRangeLength => 6,
        Kind::OutOfRangeUsize => 7,
        Kind::UnexpectedEndOfInput => 8,
        Kind::UnexpectedEndOfOutputBuffer => 9,
        Kind::InputBufferIsTooSmall => 10,
        Kind::OutputBufferIsTooSmall => 11,
        Kind::LengthIsNotTheSameAsLengthAttribute => 12,
        Kind::ExpectedConstant => 13,
        Kind::Unsized => 14,
        Kind::EndiannessMismatch => 15,
        Kind::NotWrittenForm => 16,
        Kind::IoError => 17,
        Kind::OutOfMemory => 18,
        Kind::Custom => 19,
        Kind::UnknownOrder => 100,
        Kind::Other(number) => number,
    }
}

/// The bytes of a line.
fn bytes_of(hex: &str) -> Vec<u8> {
    let digits = if hex == "-" { "" } else { hex };
    (0..digits.len() / 2).map(|at| u8::from_str_radix(&digits[2 * at..2 * at + 2], 16).expect("hex")).collect()
}

fn main() {
    assert!(telemetry::fits());
    for line in io::stdin().lock().lines() {
        let line = line.expect("a line");
        let words: Vec<&str> = line.split(' ').collect();
        let order = match words[1] {
            "0" => Order::LittleEndian,
            "1" => Order::BigEndian,
            _ => {
                // The module takes no other order.
                println!("100 0");
                continue;
            }
        };
        let bytes = bytes_of(words[2]);
        match check(words[0], &bytes, order) {
            Ok(size) => println!("0 {size}{}", show(words[0], &bytes, order, size)),
            Err(refused) => println!("{} {}", number(refused.kind), refused.at),
        }
    }
}
