//! Documents as users have them, each encoded and decoded by the original, by this crate, by the
//! peers where they are installed, and as JSON.

use crate::ports::{port_lent_log_line, port_lent_snapshot, LentFn, PortedJson};
use crate::rows::{measure_together, named_sides, Buffer, Input, Side};
use crate::values::Rng;
use crate::{in_place, peers, protobuf};
use std::hint::black_box as bb;

/// What encodes a document: how many bytes it takes for it, and its calls, from a slice and to a
/// vector, where it is not written as by the coder before.
pub struct Coder {
    pub name: &'static str,
    pub bytes: usize,
    pub read: Side,
    pub write: Option<Side>,
}

/// A coder of the loops of rounds.rs, written out for a crate. Its bytes lie as its encoder laid
/// them.
macro_rules! coder {
    ($name:literal, $value:ident, $encode:expr, $decode:expr) => {{
        let bytes: &'static [u8] = Box::leak(Box::new($encode($value).ok().unwrap()));
        crate::documents::Coder {
            name: $name,
            bytes: bytes.len(),
            read: Side::new(move |rounds| {
                let mut good = 0;
                for _ in 0..rounds {
                    let front = &bb(bytes)[..unsafe { bench_length(bytes.len()) }];
                    let made = $decode(front).ok().unwrap();
                    bb(&made);
                    good += 1;
                }
                good
            }),
            write: Some(crate::rows::encoder!($value, |it| $encode(it)
                .ok()
                .unwrap())),
        }
    }};
}
pub(crate) use coder;

const ORIGINAL: &str = "the original";
const PORT: &str = "this crate";
const LENT: &str = "this crate, borrowing";

/// The document's coders, the port's second. All is in the little order.
struct Document {
    case: &'static str,
    coders: Vec<Coder>,
}

impl Document {
    fn new<T>(case: &'static str, value: T, lent: Option<LentFn>) -> Document
    where
        T: PortedJson + peers::Peered + in_place::Peered + protobuf::Peered,
    {
        let value: &'static T = Box::leak(Box::new(value));
        let input = Input::new(case, 1, false, value);
        let read = input.read::<T>("read", T::PORT.read);
        let write = input.write("write", 1, value, Buffer::new(0));
        let coder = |name, read, write| Coder {
            name,
            bytes: input.bytes.len(),
            read,
            write,
        };
        let mut coders = vec![
            coder(ORIGINAL, read.original, Some(write.original)),
            coder(PORT, read.port, Some(write.port)),
        ];
        coders.extend(lent.map(|lent| coder(LENT, lent_side(input.bytes, lent), None)));
        coders.extend(peers::coders_of(value));
        coders.extend(protobuf::coders_of(value));
        coders.extend(in_place::coders_of(value));
        coders.push(json_coder::<T>(input));
        Document { case, coders }
    }

    fn measure(&mut self, reps: usize) {
        let (mut reads, mut writes) = (Vec::new(), Vec::new());
        for coder in &mut self.coders {
            reads.push(&mut coder.read);
            writes.extend(&mut coder.write);
        }
        measure_together(&mut reads, reps);
        measure_together(&mut writes, reps);
    }

    fn print(&self) {
        let port = &self.coders[1];
        for it in &self.coders {
            let read = timed(Some(&port.read), Some(&it.read));
            let written = timed(port.write.as_ref(), it.write.as_ref());
            println!(
                "| {} | {} | {} | {read} | {written} |",
                self.case, it.name, it.bytes
            );
        }
    }

    /// Returns the rows that tools/bench/draw.py draws: the port beside each other coder.
    fn json(&self) -> Vec<String> {
        let port = &self.coders[1];
        let others = self.coders.iter().filter(|it| it.name != PORT);
        let row = |other: &Coder, way: &str, theirs: f64, ours: f64| {
            format!(
                "{{\"case\": \"{}, {way}\", \"order\": \"le\", \"op\": \"documents beside {}\", \
                 \"items\": 1, \"bytes\": {}, \"original_ns\": {theirs:.2}, \"port_ns\": {ours:.2}}}",
                self.case, other.name, other.bytes
            )
        };
        let mut rows = Vec::new();
        for it in others {
            rows.push(row(it, "read", it.read.best, port.read.best));
            if let (Some(theirs), Some(ours)) = (&it.write, &port.write) {
                rows.push(row(it, "written", theirs.best, ours.best));
            }
        }
        rows
    }

    fn sides(self) -> impl Iterator<Item = (String, Side)> {
        let case = self.case;
        self.coders.into_iter().flat_map(move |it| {
            named_sides(
                case,
                it.name,
                [("read", Some(it.read)), ("written", it.write)],
            )
        })
    }
}

/// Returns the cells of a side: its nanoseconds, and the port's to it.
fn timed(port: Option<&Side>, it: Option<&Side>) -> String {
    let (Some(port), Some(it)) = (port, it) else {
        return "– | –".into();
    };
    format!("{} | {:.2}", nanoseconds(it.best), port.best / it.best)
}

pub fn nanoseconds(best: f64) -> String {
    let digits = usize::from(best < 100.0);
    format!("{best:.digits$}")
}

/// The port, which reads the same bytes as what borrows from them.
fn lent_side(bytes: &'static [u8], lent: LentFn) -> Side {
    Side::new(move |k| unsafe { lent(bb(bytes).as_ptr(), bytes.len(), k) })
}

/// The kit's serde_json, which stands on the port's side.
fn json_coder<T: PortedJson>(input: Input) -> Coder {
    let bytes = input.bytes;
    let json = json_of::<T>(input);
    Coder {
        name: "JSON",
        bytes: json.len(),
        read: Side::new(move |k| unsafe { (T::JSON.read)(bb(json).as_ptr(), json.len(), k) }),
        write: Some(Side::reading_first(move |k| unsafe {
            (T::JSON.write)(bb(bytes).as_ptr(), bytes.len(), k)
        })),
    }
}

fn json_of<T: PortedJson>(input: Input) -> &'static [u8] {
    let Input { case, bytes, .. } = input;
    let mut json = vec![0u8; 20 * bytes.len()];
    let length =
        unsafe { (T::JSON.make)(bytes.as_ptr(), bytes.len(), json.as_mut_ptr(), json.len()) };
    assert!(length > 0, "{case}: no JSON");
    json.truncate(length);
    Box::leak(json.into_boxed_slice())
}

fn documents(rng: &mut Rng) -> [Document; 3] {
    [
        Document::new("log line", rng.log_line(), Some(port_lent_log_line)),
        Document::new("header, 64 entries", rng.header(), None),
        Document::new(
            "snapshot, 10k accounts",
            rng.snapshot(),
            Some(port_lent_snapshot),
        ),
    ]
}

/// Returns each side of the documents, with its name.
pub fn sides_of_documents(rng: &mut Rng) -> impl Iterator<Item = (String, Side)> {
    documents(rng).into_iter().flat_map(Document::sides)
}

/// Times the documents, and keeps the figures in a file.
pub fn run_documents(rng: &mut Rng, reps: usize, file: Option<&str>) {
    let mut documents = documents(rng);
    println!(
        "| document | encoded by | bytes | read, ns | ours to it | written, ns | ours to it |"
    );
    println!("|---|---|---|---|---|---|---|");
    for document in &mut documents {
        document.measure(reps);
        document.print();
    }
    if let Some(file) = file {
        let all: Vec<String> = documents.iter().flat_map(Document::json).collect();
        std::fs::write(file, format!("[\n{}\n]\n", all.join(",\n"))).unwrap();
    }
}
