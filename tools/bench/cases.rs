//! The cases.

use crate::ports::{port_read_slices, port_read_vec_str, Ported, ReadFn};
use crate::rows::{Buffer, Input, Row, WRITE_OPS};
use crate::values::Rng;
use speedy::private::VarInt64;
use speedy::{Endianness, Readable, Writable};
use std::collections::{BTreeMap, BTreeSet, HashMap};
use std::time::Duration;

/// The rows, and of each case in each order the line of `Input::compared`.
pub struct Bench {
    pub rng: Rng,
    /// The one case that is added, or all of them.
    pub only: Option<String>,
    pub rows: Vec<Row>,
    pub sums: Vec<String>,
}

impl Bench {
    /// Adds all rows of a case.
    pub fn add<T: Ported>(&mut self, case: &'static str, items: usize, value: T) {
        if !self.is_added(case) {
            return;
        }
        let value: &'static T = Box::leak(Box::new(value));
        for big in [false, true] {
            let input = Input::new(case, items, big, value);
            let buffer = Buffer::new(input.bytes.len());
            self.sums.push(input.compared::<T>(buffer));
            self.add_reads::<T>(input);
            self.rows.extend(
                (0u8..)
                    .zip(WRITE_OPS)
                    .map(|(how, op)| input.write(op, how, value, buffer)),
            );
        }
    }

    fn is_added(&self, case: &str) -> bool {
        self.only.as_ref().is_none_or(|it| it == case)
    }

    fn add_reads<T: Ported>(&mut self, input: Input) {
        self.rows
            .push(input.read::<T>("read_from_buffer", T::PORT.read));
        self.rows
            .extend([0, 1].map(|how| input.stream::<T>(how, T::PORT.stream)));
    }

    /// Adds a case of one value.
    fn one<T: Ported>(&mut self, case: &'static str, make: impl FnOnce(&mut Rng) -> T) {
        let value = make(&mut self.rng);
        self.add(case, 1, value);
    }

    /// Adds a case of what so many items make.
    fn many<T, I>(&mut self, case: &'static str, items: usize, mut make: impl FnMut(&mut Rng) -> I)
    where
        T: Ported + FromIterator<I>,
    {
        let value = (0..items).map(|_| make(&mut self.rng)).collect::<T>();
        self.add(case, items, value);
    }

    /// Adds a case of a vector of so many items.
    pub fn vec<I>(&mut self, case: &'static str, items: usize, make: impl FnMut(&mut Rng) -> I)
    where
        Vec<I>: Ported,
    {
        self.many::<Vec<I>, I>(case, items, make);
    }

    /// Adds texts, read as what borrows from the buffer.
    fn add_lent<T>(&mut self, case: &'static str, texts: &Vec<String>, read: ReadFn)
    where
        T: Readable<'static, Endianness>,
    {
        if !self.is_added(case) {
            return;
        }
        for big in [false, true] {
            let input = Input::new(case, texts.len(), big, texts);
            let counted = unsafe { read(input.bytes.as_ptr(), input.bytes.len(), big, 1) };
            assert_eq!(counted, texts.len(), "{case}");
            self.rows.push(input.read::<T>("read_from_buffer", read));
        }
    }

    /// Adds a list of keys in any order, read into a collection.
    pub fn add_keys<T: Ported>(
        &mut self,
        case: &'static str,
        items: &Vec<impl Writable<Endianness>>,
    ) {
        for big in [false, true] {
            self.add_reads::<T>(Input::new(case, items.len(), big, items));
        }
    }

    pub fn add_all(&mut self) {
        self.add_records();
        self.add_lists_of_numbers();
        self.add_texts();
        self.add_other_lists();
        self.add_maps();
        self.add_documents();
        self.add_all_lent();
    }

    fn add_records(&mut self) {
        self.one("u16", |_| 0x1234u16);
        self.one("(u64, u64)", Rng::pair);
        self.one("record", Rng::record);
        self.vec("Vec<record> 1k", 1_000, Rng::record);
        self.one("struct", Rng::own);
        self.vec("Vec<struct> 1k", 1_000, Rng::own);
        self.vec("Vec<enum> 10k", 10_000, Rng::event);
    }

    fn add_lists_of_numbers(&mut self) {
        self.vec("Vec<u8> 1M", 1_000_000, |rng| rng.next() as u8);
        self.vec("Vec<u16> 1k", 1_000, |rng| rng.next() as u16);
        self.vec("Vec<u16> 100k", 100_000, |rng| rng.next() as u16);
        self.vec("Vec<u32> 10k", 10_000, |rng| rng.next() as u32);
        self.vec("Vec<u64> 1M", 1_000_000, Rng::next);
        self.vec("Vec<u128> 10k", 10_000, Rng::wide);
        self.vec("Vec<(u64, u64)> 10k", 10_000, Rng::pair);
    }

    fn add_texts(&mut self) {
        let wide = |rng: &mut Rng| char::from_u32(0x4e00 + (rng.next() % 0x5000) as u32).unwrap();
        self.vec("Vec<String> 10k", 10_000, Rng::short_text);
        let text = self.rng.ascii(1_000_000);
        self.add("String 1M ASCII", 1_000_000, text);
        self.many::<String, char>("String 1M, 3-byte chars", 333_333, wide);
    }

    fn add_other_lists(&mut self) {
        let below_surrogates =
            |rng: &mut Rng| char::from_u32((rng.next() % 0xd800) as u32).unwrap();
        let duration =
            |rng: &mut Rng| Duration::new(rng.next() >> 20, (rng.next() % 1_000_000_000) as u32);
        let small = |rng: &mut Rng| VarInt64::from(rng.next() % 100);
        let mixed = |rng: &mut Rng| VarInt64::from(rng.next() >> (rng.next() % 64));
        self.vec("Vec<Option<u32>> 100k", 100_000, Rng::option);
        self.vec("Vec<char> 100k", 100_000, below_surrogates);
        self.vec("Vec<VarInt64> 100k small", 100_000, small);
        self.vec("Vec<VarInt64> 100k mixed", 100_000, mixed);
        self.vec("Vec<[u16; 4]> 10k", 10_000, Rng::array);
        self.vec("Vec<Duration> 10k", 10_000, duration);
        self.vec("Vec<IpAddr> 10k", 10_000, Rng::address);
        self.vec("Vec<bool> 100k", 100_000, |rng| rng.next() % 2 == 0);
    }

    fn add_maps(&mut self) {
        self.many::<BTreeMap<_, _>, _>("BTreeMap<u64, u64> 100k", 100_000, Rng::pair);
        self.many::<HashMap<_, _>, _>("HashMap<u64, u64> 100k", 100_000, Rng::pair);
        let mut at = 0u32..;
        let text = |rng: &mut Rng| {
            let at = at.next().unwrap();
            (format!("key {} {at}", rng.next() % 1000), at)
        };
        self.many::<BTreeMap<_, _>, _>("BTreeMap<String, u32> 10k", 10_000, text);
        let set = (0..100_000u32).map(|at| at * 7).collect::<BTreeSet<u32>>();
        self.add("BTreeSet<u32> 100k", 100_000, set);
    }

    fn add_documents(&mut self) {
        self.one("log line", Rng::log_line);
        self.one("header, 64 entries", Rng::header);
        let snapshot = self.rng.snapshot();
        self.add("snapshot, 10k accounts", 10_000, snapshot);
    }

    fn add_all_lent(&mut self) {
        let texts: Vec<String> = (0..10_000).map(|_| self.rng.short_text()).collect();
        self.add_lent::<Vec<&str>>("Vec<&str> 10k", &texts, port_read_vec_str);
        self.add_lent::<Vec<&[u8]>>("Vec<&[u8]> 10k", &texts, port_read_slices);
    }
}
