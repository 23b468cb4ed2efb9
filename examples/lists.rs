//! The same list in Rust, by the module that the generator makes.
#[path = "../crates/telemetry/callers/telemetry.rs"]
mod telemetry;

use telemetry::message::{Message, read};
use telemetry::reading::Reading;
use telemetry::{List, Order, Refused};

fn main() -> Result<(), Refused> {
    let measured = [
        Reading { second: 0, value: 21, is_exact: true },
        Reading { second: 60, value: -10, is_exact: false },
    ];
    let mut room = Vec::new();
    let message = Message::Measurements { sensor: 7, readings: List::of(&measured, &mut room)? };
    let bytes = message.to_bytes(Order::LittleEndian)?;

    if let (Message::Measurements { readings, .. }, size) = read(&bytes, Order::LittleEndian)? {
        println!("{} readings in {size} bytes", readings.len());
        for reading in readings {
            println!("second {}: {}", reading.second, reading.value);
        }
    }
    Ok(())
}
