//! Crates that show values where their bytes lie: rkyv and zerocopy.

use crate::documents::{coder, Coder};
use crate::ports::{bench_length, Slot};
use crate::rows::{encoder, Side};
use crate::views::{Digest, Viewer};
use peer_crates::bytecheck::{self, CheckBytes};
use peer_crates::rkyv::de::deserializers::SharedDeserializeMap;
use peer_crates::rkyv::ser::serializers::AllocSerializer;
use peer_crates::rkyv::validation::validators::DefaultValidator;
use peer_crates::rkyv::{self, check_archived_root, Archive, Deserialize, Serialize};
use peer_crates::zerocopy::byteorder::{LittleEndian, U32, U64};
use peer_crates::zerocopy::{self, AsBytes, FromBytes, LayoutVerified, Unaligned};
use std::hint::black_box as bb;

// The bytes that rkyv has at hand before it asks for memory to work in, as its own pages show it.
const SCRATCH: usize = 256;

type Archiver = AllocSerializer<SCRATCH>;

/// What rkyv shows after a look at each of its bytes, and decodes.
pub trait Peered:
    Serialize<Archiver>
    + Archive<
        Archived: CheckBytes<DefaultValidator<'static>>
                      + Deserialize<Self, SharedDeserializeMap>
                      + 'static,
    > + Sized
    + 'static
{
}

impl<T> Peered for T
where
    T: Serialize<Archiver> + Archive + 'static,
    T::Archived:
        CheckBytes<DefaultValidator<'static>> + Deserialize<T, SharedDeserializeMap> + 'static,
{
}

/// rkyv twice: what it shows is all that is read, or it is decoded too.
pub fn coders_of<T: Peered>(value: &'static T) -> Vec<Coder> {
    let encode = rkyv::to_bytes::<T, SCRATCH>;
    vec![
        coder!("rkyv, in place", value, encode, check_archived_root::<T>),
        Coder {
            write: None,
            ..coder!("rkyv, decoded", value, encode, rkyv::from_bytes::<T>)
        },
    ]
}

/// A slot as it lies in memory, in the order of the machine.
#[derive(Archive, Serialize, Deserialize, FromBytes, AsBytes, Clone)]
#[archive(crate = "peer_crates::rkyv")]
#[archive_attr(derive(bytecheck::CheckBytes))]
#[repr(C)]
pub struct Place {
    key: u64,
    offset: u32,
    length: u32,
}

/// A slot at any address, in the little order.
#[derive(FromBytes, AsBytes, Unaligned)]
#[repr(C)]
struct Little {
    key: U64<LittleEndian>,
    offset: U32<LittleEndian>,
    length: U32<LittleEndian>,
}

impl Digest for Place {
    #[inline(always)]
    fn digest(&self) -> usize {
        (self.key, self.offset, self.length).digest()
    }

    #[inline(always)]
    fn first(&self) -> usize {
        self.key as usize
    }
}

impl Digest for ArchivedPlace {
    #[inline(always)]
    fn digest(&self) -> usize {
        (self.key, self.offset, self.length).digest()
    }

    #[inline(always)]
    fn first(&self) -> usize {
        self.key as usize
    }
}

impl Digest for Little {
    #[inline(always)]
    fn digest(&self) -> usize {
        (self.key.get(), self.offset.get(), self.length.get()).digest()
    }

    #[inline(always)]
    fn first(&self) -> usize {
        self.key.get() as usize
    }
}

impl Digest for U32<LittleEndian> {
    #[inline(always)]
    fn digest(&self) -> usize {
        self.get() as usize
    }

    #[inline(always)]
    fn first(&self) -> usize {
        self.digest()
    }
}

fn rkyv_viewer<T: Peered>(list: &'static Vec<T>, at: usize) -> Viewer
where
    Vec<T>: Peered + Archive<Archived = rkyv::vec::ArchivedVec<T::Archived>>,
    T::Archived: Digest,
{
    let encode = |list| rkyv::to_bytes::<Vec<T>, SCRATCH>(list).ok().unwrap();
    let bytes: &'static [u8] = Box::leak(Box::new(encode(list)));
    let open = |front| {
        check_archived_root::<Vec<T>>(front)
            .ok()
            .unwrap()
            .as_slice()
    };
    Viewer::new("rkyv", bytes, at, open, Some(encoder!(list, encode)))
}

/// zerocopy over the items in the order and at the addresses of the machine, which are checked, and
/// over those that may lie anywhere, in the little order. It writes a copy of the bytes.
fn zerocopy_viewers<C, L>(cast: Vec<C>, little: Vec<L>, at: usize) -> Vec<Viewer>
where
    C: FromBytes + AsBytes + Digest + 'static,
    L: FromBytes + AsBytes + Unaligned + Digest + 'static,
{
    let cast: &'static [C] = cast.leak();
    let little: &'static [L] = little.leak();
    let open = |front| {
        LayoutVerified::<_, [C]>::new_slice(front)
            .unwrap()
            .into_slice()
    };
    let open_little = |front| {
        let list = LayoutVerified::<_, [L]>::new_slice_unaligned(front);
        list.unwrap().into_slice()
    };
    vec![
        Viewer::new(
            "zerocopy, cast",
            cast.as_bytes(),
            at,
            open,
            Some(encoder!(cast, |list: &[C]| list.as_bytes().to_vec())),
        ),
        Viewer::new(
            "zerocopy, any address",
            little.as_bytes(),
            at,
            open_little,
            None,
        ),
    ]
}

pub fn viewers_of_numbers(numbers: &'static Vec<u32>, at: usize) -> Vec<Viewer> {
    let little = numbers
        .iter()
        .map(|it| U32::new(*it))
        .collect::<Vec<U32<LittleEndian>>>();
    let mut viewers = vec![rkyv_viewer(numbers, at)];
    viewers.extend(zerocopy_viewers(numbers.clone(), little, at));
    viewers
}

pub fn viewers_of_slots(slots: &'static Vec<Slot>, at: usize) -> Vec<Viewer> {
    let place = |&(key, offset, length): &Slot| Place {
        key,
        offset,
        length,
    };
    let little = |&(key, offset, length): &Slot| Little {
        key: U64::new(key),
        offset: U32::new(offset),
        length: U32::new(length),
    };
    let places: &'static Vec<Place> = Box::leak(Box::new(slots.iter().map(place).collect()));
    let mut viewers = vec![rkyv_viewer(places, at)];
    let little = slots.iter().map(little).collect();
    viewers.extend(zerocopy_viewers(places.clone(), little, at));
    viewers
}
