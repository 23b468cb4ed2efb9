//! The values of the cases, which are the same in each run.

use crate::ports::{Account, Entry, Event, Header, LogLine, Own, Record, Slot};
use std::collections::BTreeMap;
use std::net::{IpAddr, Ipv4Addr, Ipv6Addr};

pub struct Rng(pub u64);

impl Rng {
    pub fn next(&mut self) -> u64 {
        self.0 = self.0.wrapping_add(0x9e37_79b9_7f4a_7c15);
        let mut z = self.0;
        z = (z ^ z >> 30).wrapping_mul(0xbf58_476d_1ce4_e5b9);
        z = (z ^ z >> 27).wrapping_mul(0x94d0_49bb_1331_11eb);
        z ^ z >> 31
    }

    pub fn pair(&mut self) -> (u64, u64) {
        (self.next(), self.next())
    }

    pub fn wide(&mut self) -> u128 {
        (self.next() as u128) << 64 | self.next() as u128
    }

    pub fn ascii(&mut self, length: usize) -> String {
        (0..length)
            .map(|_| (b'a' + (self.next() % 26) as u8) as char)
            .collect()
    }

    pub fn short_text(&mut self) -> String {
        let length = (self.next() % 16) as usize;
        self.ascii(length)
    }

    pub fn array(&mut self) -> [u16; 4] {
        let number = self.next();
        [0, 16, 32, 48].map(|by| (number >> by) as u16)
    }

    pub fn option(&mut self) -> Option<u32> {
        if self.next() % 2 == 0 {
            None
        } else {
            Some(self.next() as u32)
        }
    }

    pub fn address(&mut self) -> IpAddr {
        if self.next() % 2 == 0 {
            IpAddr::V4(Ipv4Addr::from(self.next() as u32))
        } else {
            IpAddr::V6(Ipv6Addr::from(self.wide()))
        }
    }

    pub fn record(&mut self) -> Record {
        (
            self.next(),
            "A totally pointless string".into(),
            vec![1, 2, 3],
            vec![4, -5, 6],
            3,
        )
    }

    pub fn own(&mut self) -> Own {
        let (number, text, bytes, numbers, level) = self.record();
        Own {
            number,
            text,
            bytes,
            numbers,
            level,
        }
    }

    pub fn event(&mut self) -> Event {
        let number = self.next();
        match number % 10 {
            0 => Event::Started,
            1 => Event::Stopped,
            2 => Event::Moved(number as u32, (number >> 32) as u32),
            3 => Event::Resized {
                width: (number >> 8) as u16,
                height: (number >> 32) as u16,
            },
            4 => Event::Named(self.short_text()),
            5 => Event::Key((number >> 16) as u32),
            6 => Event::Data(vec![1, 2, 3]),
            7 => Event::Scores(vec![400, 500, 600]),
            8 => Event::Level((number >> 24) as u8),
            _ => Event::Paid {
                amount: number >> 20,
                to: self.short_text(),
            },
        }
    }

    pub fn log_line(&mut self) -> LogLine {
        LogLine {
            time: self.next() >> 20,
            level: 2,
            target: "store::journal".into(),
            message: format!(
                "compacted segment {} in {} ms",
                self.next() % 10_000,
                self.next() % 500
            ),
            line: 214,
        }
    }

    pub fn header(&mut self) -> Header {
        let entry = |at: u32| Entry {
            offset: at * 4_096,
            length: (self.next() % 4_096) as u32,
            kind: (self.next() % 8) as u16,
            flags: 0,
        };
        Header {
            magic: 0x3143_4552,
            version: 3,
            flags: 1,
            entries: (0..64).map(entry).collect(),
        }
    }

    pub fn slot(&mut self) -> Slot {
        let number = self.next();
        (self.next(), number as u32, (number >> 32) as u32)
    }

    pub fn account(&mut self) -> Account {
        Account {
            name: format!("account {}", self.next() % 100_000),
            balance: self.next() >> 30,
            groups: (0..self.next() % 5).map(|group| group as u16).collect(),
        }
    }

    pub fn snapshot(&mut self) -> BTreeMap<u32, Account> {
        (0..10_000).map(|at| (at * 3, self.account())).collect()
    }
}
