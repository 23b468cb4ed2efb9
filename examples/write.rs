//! The same message in Rust, by the module that the generator makes.
#[path = "../crates/telemetry/callers/telemetry.rs"]
mod telemetry;

use telemetry::Order;
use telemetry::message::Message;

fn main() {
    let message = Message::Hello { name: "porch", version: [1, 0, 0], mail: None };
    match message.to_bytes(Order::LittleEndian) {
        Ok(bytes) => println!("{}", bytes.iter().map(|byte| format!("{byte:02x}")).collect::<String>()),
        Err(refused) => println!("{refused}"),
    }
}
