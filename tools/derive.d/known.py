"""The types that are read and written, by the paths that Rust has them at."""
from dataclasses import dataclass

# What an argument of a type has to be: a part that is read, an item of a list, a key that is compared or hashed, what
# makes hashers, and what has a value of its own, with which the room of a `SmallVec` is filled.
PART, ITEM, ORDERED, HASHED, HASHER, MADE = "part", "item", "ordered", "hashed", "hasher", "made"


@dataclass(frozen=True)
class Known:
    """A type of Rattle: its name, the module that it is imported from, and what its arguments are."""
    name: str
    module: object = None
    arguments: tuple = ()


PRIMITIVES = ("u8", "u16", "u32", "u64", "u128", "usize", "i8", "i16", "i32", "i64", "i128", "bool", "char")
# Those that are filled in place, and lent by views.
NUMBERS = ("u8", "u16", "u32", "u64", "u128", "i8", "i16", "i32", "i64", "i128", "F32", "F64", "U24")
# What floats become, which holds their bits.
FLOATS = {"f32": "F32", "f64": "F64"}
# What a library has in place of a list: one that lies where it was read, which no source names. What such lists hold
# beside types of the file, texts and bytes.
ENCODED_LIST = ("speedy", "encoded", "EncodedList")
# And in place of an array of bytes, in what such a list holds.
IN_PLACE_BYTES = ("speedy", "in_place_bytes", "InPlaceBytes")
LISTED = ("u16", "u32", "u64", "i8", "i16", "i32", "i64", "f32", "f64", "bool", "char")
# Bytes that mean nothing, so many as a number says.
BLANKS = ("Padding", "Zeros")
# And so many as other fields tell.
TOLD_BLANKS = ("PaddingBytes", "ZeroBytes")
# The types of the numbers in a list that a mark ends.
MARKING = ("u8", "u16", "u32", "u64", "VarInt64")
# What a number is held in that lies in one byte order, with that order.
ONE_ORDER = {"Big": "big", "Little": "little"}

KNOWN = {
    "std::string::String": Known("String"),
    "std::vec::Vec": Known("Vec", None, ((ITEM,),)),
    "std::option::Option": Known("Option", None, ((PART,),)),
    "std::result::Result": Known("Result", None, ((PART,), (PART,))),
    "std::boxed::Box": Known("Box", None, ((PART,),)),
    "std::borrow::Cow": Known("Cow", "std::borrow", ((PART,),)),
    "std::collections::BTreeMap": Known("BTreeMap", "std::collections", ((PART, ORDERED), (PART,))),
    "std::collections::BTreeSet": Known("BTreeSet", "std::collections", ((ITEM, ORDERED),)),
    "std::collections::HashMap": Known("HashMap", "std::collections", ((PART, HASHED), (PART,), (HASHER,))),
    "std::collections::HashSet": Known("HashSet", "std::collections", ((ITEM, HASHED), (HASHER,))),
    "std::ops::Range": Known("Range", "std::ops", ((PART,),)),
    "std::ops::RangeInclusive": Known("RangeInclusive", "std::ops", ((PART,),)),
    "std::net::Ipv4Addr": Known("Ipv4Addr", "std::net"),
    "std::net::Ipv6Addr": Known("Ipv6Addr", "std::net"),
    "std::net::IpAddr": Known("IpAddr", "std::net"),
    "std::time::Duration": Known("Duration", "std::time"),
    "uuid::Uuid": Known("Uuid", "speedy::ext"),
    "indexmap::IndexMap": Known("IndexMap", "speedy::ext", ((PART, HASHED), (PART,), (HASHER,))),
    "indexmap::IndexSet": Known("IndexSet", "speedy::ext", ((ITEM, HASHED), (HASHER,))),
    "smallvec::SmallVec": Known("SmallVec", "speedy::ext", ((ITEM, MADE),)),
    "speedy::Endianness": Known("Endianness", "speedy"),
    "speedy::U24": Known("U24", "speedy"),
    "speedy::CText": Known("CText", "speedy", ((PART,),)),
    "speedy::ListUntil": Known("ListUntil", "speedy", ((), (PART,))),
    "speedy::private::VarInt64": Known("VarInt64", "speedy::varint"),
}
for blank in (*BLANKS, *TOLD_BLANKS):
    KNOWN[f"speedy::{blank}"] = Known(blank, "speedy")
for holder in ONE_ORDER:
    KNOWN[f"speedy::{holder}"] = Known(holder, "speedy", ((PART,),))
for bits in (8, 16, 32, 64):
    for sign in ("U", "I"):
        KNOWN[f"std::num::NonZero{sign}{bits}"] = Known(f"NonZero{sign}{bits}", "std::num")
for kind in ("HashMap", "HashSet"):
    KNOWN[f"std::collections::{'hash_map' if kind == 'HashMap' else 'hash_set'}::{kind}"] = \
        KNOWN[f"std::collections::{kind}"]
for kind in ("BTreeMap", "BTreeSet"):
    KNOWN[f"std::collections::{'btree_map' if kind == 'BTreeMap' else 'btree_set'}::{kind}"] = \
        KNOWN[f"std::collections::{kind}"]

# What is in scope without an import.
PRELUDE = {"String": "std::string::String", "Vec": "std::vec::Vec", "Option": "std::option::Option",
           "Result": "std::result::Result", "Box": "std::boxed::Box"}

# Traits that mean in a bound what they mean in Rust.
BOUNDS = {
    "std::hash::Hash": ("Hash", "std::hash"), "std::fmt::Debug": ("Debug", "std::fmt"), "std::cmp::Eq": ("Eq", None),
    "std::cmp::PartialEq": ("PartialEq", None), "std::cmp::Ord": ("Ord", None),
    "std::cmp::PartialOrd": ("PartialOrd", None), "std::marker::Copy": ("Copy", None),
    "std::clone::Clone": ("Clone", None), "std::hash::BuildHasher": ("BuildHasher", "std::hash"),
    "std::default::Default": ("Default", None),
}
# Where the names of the prelude stand.
PRELUDE_MODULES = {"String": "std::string", "Vec": "std::vec", "Option": "std::option", "Result": "std::result",
                   "Box": "std::boxed", "Drop": "std::ops", "Default": "std::default", "Clone": "std::clone",
                   "Copy": "std::marker", "PartialEq": "std::cmp", "Eq": "std::cmp", "PartialOrd": "std::cmp",
                   "Ord": "std::cmp"}
PRELUDE_BOUNDS = {"Eq": "std::cmp::Eq", "PartialEq": "std::cmp::PartialEq", "Ord": "std::cmp::Ord",
                  "PartialOrd": "std::cmp::PartialOrd", "Copy": "std::marker::Copy",
                  "Default": "std::default::Default", "Clone": "std::clone::Clone"}

# Why a type is neither read nor written, and what to take.
NONE_OF_OURS = {
    "isize": "`isize` is neither read nor written: take an `i64`",
    "str": "`str` has no size: take `String`, `Box<str>`, `Cow<'a, str>` or `&'a str`",
    "std::time::SystemTime": "`SystemTime` is not taken: hold the `Duration` since the epoch, of the same bytes",
    "std::time::Instant": "an `Instant` is neither read nor written",
    "std::marker::PhantomData": "`PhantomData` is neither read nor written: set `skip`, or leave the field out",
    "std::rc::Rc": "`Rc` is neither read nor written: hold the value, or a `Box`",
    "std::sync::Arc": "`Arc` is neither read nor written: hold the value, or a `Box`",
    "std::collections::VecDeque": "`VecDeque` is neither read nor written: take a `Vec`",
    "std::cell::Cell": "a cell is neither read nor written: hold its value",
    "std::cell::RefCell": "a cell is neither read nor written: hold its value",
}
