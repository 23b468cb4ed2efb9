//! The same walk in Rust: a service can have the proved parser at its edge, and all else as it is.
#[path = "../crates/protocol/callers/protocol.rs"]
mod protocol;

use protocol::message::Message;
use protocol::{Order, framed_bytes, framed_message};

fn main() {
    let received = b"\x16\0\x05\x94\x01\0\0\x0d\0\0\0no such thing\x01\0\x63\x0e\0\x05";
    let mut left = received.as_slice();
    while !left.is_empty() {
        let size = match framed_message::read(left, Order::LittleEndian) {
            Ok((frame, size)) => {
                if let Message::Failure { text, .. } = frame.message {
                    println!("tag 5: {text}");
                }
                size
            }
            Err(refused) if refused.ends_too_soon() => {
                println!("{} bytes wait for more", left.len());
                return;
            }
            Err(_) => {
                let size = framed_bytes::check(left, Order::LittleEndian).expect("a whole frame");
                println!("a broken message of {size} bytes");
                size
            }
        };
        left = &left[size..];
    }
}
