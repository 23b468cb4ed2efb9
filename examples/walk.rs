//! The same walk in Rust, by the module that the generator makes.
#[path = "../crates/telemetry/callers/telemetry.rs"]
mod telemetry;

use telemetry::Order;
use telemetry::message::{Message, walk};

fn main() {
    let received = b"\x02\x05\0\0\0porch\x01\x04\x02\0\x03\x07\0\x3c\0\0\0\xf6\xff\xff\xff\x01\x04\x09\0";
    for message in walk(received, Order::LittleEndian) {
        match message {
            Ok(Message::Hello { name, .. }) => println!("hello {name}"),
            Ok(Message::Measured { sensor, reading }) => println!("sensor {sensor}: {}", reading.value),
            Ok(_) => {}
            Err(refused) => {
                let why = if refused.ends_too_soon() { "cut short" } else { "broken" };
                println!("{} bytes left, {why}", received.len() - refused.at);
            }
        }
    }
}
