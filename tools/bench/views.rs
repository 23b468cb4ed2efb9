//! Lists of which one item, all, or a part of each is looked at: where the bytes lie, or decoded first.

use crate::documents::nanoseconds;
use crate::in_place;
use crate::ports::{self, bench_length, LookFn, Ported, Slot};
use crate::rounds::front_of;
use crate::rows::{measure_together, named_sides, Buffer, Input, Side};
use crate::values::Rng;
use speedy::{LittleEndian, Readable};
use std::hint::black_box as bb;

/// Numbers of an item, the same on either side.
pub trait Digest {
    /// One that needs all of it.
    fn digest(&self) -> usize;

    /// Its first part, or all of it.
    fn first(&self) -> usize;
}

impl Digest for Slot {
    #[inline(always)]
    fn digest(&self) -> usize {
        (self.0 as usize) ^ (self.1 as usize) ^ (self.2 as usize)
    }

    #[inline(always)]
    fn first(&self) -> usize {
        self.0 as usize
    }
}

impl Digest for u32 {
    #[inline(always)]
    fn digest(&self) -> usize {
        *self as usize
    }

    #[inline(always)]
    fn first(&self) -> usize {
        *self as usize
    }
}

/// A way to look at a list: how many bytes the list takes, and the calls that find it in them, look
/// at one item, at all or at the first part of each, and that write it to a vector, where it is not
/// written as by the viewer before.
pub struct Viewer {
    name: &'static str,
    bytes: usize,
    one: Side,
    all: Side,
    firsts: Side,
    write: Option<Side>,
}

/// A side that finds the list by `open`, and adds up a number of each item.
fn adding_up<S: AsRef<[I]>, I: Digest + 'static>(
    bytes: &'static [u8],
    open: impl Fn(&'static [u8]) -> S + Copy + 'static,
    number_of: impl Fn(&I) -> usize + Copy + 'static,
) -> Side {
    Side::new(move |rounds| {
        let mut sum = 0usize;
        for _ in 0..rounds {
            let list = open(front_of(bytes).unwrap());
            let items = list.as_ref().iter();
            let numbers = items.fold(0usize, |sum, item| sum.wrapping_add(number_of(item)));
            sum = sum.wrapping_add(numbers);
        }
        sum
    })
}

impl Viewer {
    /// A viewer that finds the list by `open` and looks at the item `at`.
    pub fn new<S: AsRef<[I]>, I: Digest + 'static>(
        name: &'static str,
        bytes: &'static [u8],
        at: usize,
        open: impl Fn(&'static [u8]) -> S + Copy + 'static,
        write: Option<Side>,
    ) -> Viewer {
        let one = Side::new(move |rounds| {
            let mut sum = 0usize;
            for _ in 0..rounds {
                let list = open(front_of(bytes).unwrap());
                let at = unsafe { bench_length(at) };
                sum = sum.wrapping_add(list.as_ref()[at].digest());
            }
            sum
        });
        Viewer {
            name,
            bytes: bytes.len(),
            one,
            all: adding_up(bytes, open, I::digest),
            firsts: adding_up(bytes, open, I::first),
            write,
        }
    }

    /// A viewer of the port.
    fn of_port(
        name: &'static str,
        bytes: &'static [u8],
        at: usize,
        look: LookFn,
        write: Option<Side>,
    ) -> Viewer {
        let side = |what| {
            Side::new(move |k| unsafe { look(bb(bytes).as_ptr(), bytes.len(), what, at, k) })
        };
        Viewer {
            name,
            bytes: bytes.len(),
            one: side(0),
            all: side(1),
            firsts: side(2),
            write,
        }
    }
}

/// The viewers of a list.
struct List {
    case: &'static str,
    viewers: Vec<Viewer>,
}

impl List {
    fn numbers(case: &'static str, numbers: Vec<u32>) -> List {
        let numbers: &'static Vec<u32> = Box::leak(Box::new(numbers));
        let at = numbers.len() / 2;
        let (bytes, port, original) = written(case, numbers);
        let cast = |front| <&[u32]>::read_from_buffer_with_ctx(LittleEndian {}, front).unwrap();
        let port_of = |name, look, write| Viewer::of_port(name, bytes, at, look, write);
        let mut viewers = vec![
            port_of("this crate, `SliceView`", ports::port_look_view, port),
            port_of("this crate, decoded", ports::port_look_numbers, None),
            Viewer::new("the original, cast", bytes, at, cast, original),
        ];
        viewers.extend(in_place::viewers_of_numbers(numbers, at));
        List { case, viewers }
    }

    fn slots(case: &'static str, slots: Vec<Slot>) -> List {
        let slots: &'static Vec<Slot> = Box::leak(Box::new(slots));
        let at = slots.len() / 2;
        let (bytes, port, original) = written(case, slots);
        let decoded =
            |front| Vec::<Slot>::read_from_buffer_with_ctx(LittleEndian {}, front).unwrap();
        let by_part = Input::new(case, 1, false, &columns_of(slots)).bytes;
        let look = ports::port_look_columns;
        let port_of = |name, look, write| Viewer::of_port(name, bytes, at, look, write);
        let mut viewers = vec![
            Viewer::of_port("this crate, a `SliceView` a part", by_part, at, look, None),
            port_of("this crate, one by one", ports::port_look_walk, port),
            port_of("this crate, decoded", ports::port_look_slots, None),
            Viewer::new("the original, decoded", bytes, at, decoded, original),
        ];
        viewers.extend(in_place::viewers_of_slots(slots, at));
        List { case, viewers }
    }

    /// Looks whether all see the same.
    fn compare(&mut self) {
        let mut seen = self
            .viewers
            .iter_mut()
            .map(|it| [&mut it.one, &mut it.all, &mut it.firsts].map(|side| side.answer(1)));
        let first = seen.next().unwrap();
        assert!(
            first.iter().all(|sum| *sum > 0) && seen.all(|it| it == first),
            "{}",
            self.case
        );
    }

    fn measure(&mut self, reps: usize) {
        let [mut ones, mut alls, mut firsts, mut writes] = [(); 4].map(|_| Vec::new());
        for it in &mut self.viewers {
            ones.push(&mut it.one);
            alls.push(&mut it.all);
            firsts.push(&mut it.firsts);
            writes.extend(&mut it.write);
        }
        for mut sides in [ones, alls, firsts, writes] {
            measure_together(&mut sides, reps);
        }
    }

    fn print(&self) {
        for it in &self.viewers {
            let [one, all, firsts] =
                [&it.one, &it.all, &it.firsts].map(|side| nanoseconds(side.best));
            let written = it
                .write
                .as_ref()
                .map_or("–".into(), |side| nanoseconds(side.best));
            println!(
                "| {} | {} | {} | {one} | {all} | {firsts} | {written} |",
                self.case, it.name, it.bytes
            );
        }
    }

    fn sides(self) -> impl Iterator<Item = (String, Side)> {
        let case = self.case;
        self.viewers.into_iter().flat_map(move |it| {
            let ways = [
                ("one", Some(it.one)),
                ("all", Some(it.all)),
                ("first parts", Some(it.firsts)),
                ("written", it.write),
            ];
            named_sides(case, it.name, ways)
        })
    }
}

/// Returns a list of each part.
fn columns_of(slots: &[Slot]) -> (Vec<u64>, Vec<u32>, Vec<u32>) {
    let keys = slots.iter().map(|it| it.0).collect();
    let offsets = slots.iter().map(|it| it.1).collect();
    (keys, offsets, slots.iter().map(|it| it.2).collect())
}

/// Returns the encoding of a list, at an address at which its items may be cast, and the sides of the
/// port and the original that write it.
fn written<T: Ported>(
    case: &'static str,
    list: &'static T,
) -> (&'static [u8], Option<Side>, Option<Side>) {
    let input = Input::new(case, 1, false, list);
    let write = input.write("write", 1, list, Buffer::new(0));
    assert_eq!(
        input.bytes.as_ptr() as usize % std::mem::align_of::<u32>(),
        0
    );
    (input.bytes, Some(write.port), Some(write.original))
}

fn lists(rng: &mut Rng) -> [List; 3] {
    let numbers = (0..10_000).map(|_| rng.next() as u32).collect();
    let mut slots = |count| (0..count).map(|_| rng.slot()).collect();
    let (some, many) = (slots(10_000), slots(1_000_000));
    [
        List::numbers("10,000 `u32`", numbers),
        List::slots("10,000 records", some),
        List::slots("1,000,000 records", many),
    ]
}

/// Times the lists.
pub fn run_views(rng: &mut Rng, reps: usize) {
    println!(
        "| list | looked at by | bytes | one item, ns | all, ns | first parts, ns | written, ns |"
    );
    println!("|---|---|---|---|---|---|---|");
    for mut list in lists(rng) {
        list.compare();
        list.measure(reps);
        list.print();
    }
}

/// Returns each side of the lists, with its name.
pub fn sides_of_views(rng: &mut Rng) -> impl Iterator<Item = (String, Side)> {
    lists(rng).into_iter().flat_map(List::sides)
}
