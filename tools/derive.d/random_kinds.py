"""Random types of parts: each listed type at any depth, with what Rust derives for it."""
from dataclasses import dataclass, replace

# What Rust derives, or implements, for a type.
EVERY = frozenset("Debug Clone Copy PartialEq Eq PartialOrd Ord Hash Default".split())
OWNED = EVERY - {"Copy"}
FLOAT = frozenset("Debug Clone Copy PartialEq PartialOrd Default".split())
RANGE = frozenset("Debug Clone PartialEq Eq Hash Default".split())
HASHED = frozenset("Debug Clone PartialEq Eq Default".split())

# Types without parts: a weight, the module, the name, and what Rust has for it.
LEAVES = {
    "u8": (10, "", "u8", EVERY), "u16": (8, "", "u16", EVERY), "u32": (10, "", "u32", EVERY),
    "u64": (6, "", "u64", EVERY), "u128": (2, "", "u128", EVERY), "usize": (3, "", "usize", EVERY),
    "i8": (3, "", "i8", EVERY), "i16": (3, "", "i16", EVERY), "i32": (4, "", "i32", EVERY),
    "i64": (3, "", "i64", EVERY), "i128": (1, "", "i128", EVERY), "bool": (5, "", "bool", EVERY),
    "char": (3, "", "char", EVERY), "f32": (3, "", "f32", FLOAT), "f64": (3, "", "f64", FLOAT),
    "unit": (1, "", "()", EVERY), "string": (9, "std::string", "String", OWNED),
    "ipv4": (1.5, "std::net", "Ipv4Addr", EVERY - {"Default"}),
    "ipv6": (1, "std::net", "Ipv6Addr", EVERY - {"Default"}), "ip": (1, "std::net", "IpAddr", EVERY - {"Default"}),
    "duration": (2, "std::time", "Duration", EVERY), "uuid": (2, "uuid", "Uuid", EVERY),
    "endianness": (1, "speedy", "Endianness", frozenset("Debug Clone Copy PartialEq Eq".split())),
    "system_time": (0.2, "std::time", "SystemTime", EVERY - {"Default"}),
    "atomic": (0.2, "std::sync::atomic", "AtomicU32", frozenset(["Debug", "Default"])),
} | {f"nonzero_{sign}{bits}".lower(): (0.4, "std::num", f"NonZero{sign}{bits}", EVERY - {"Default"})
     for sign in "UI" for bits in (8, 16, 32, 64)}
LEAF_WEIGHTS = {name: row[0] for name, row in LEAVES.items()}
# Types with parts, and other mentions: a weight each.
FORMS = {
    "vec": 8, "option": 7, "result": 3, "box": 3, "box_str": 2, "box_slice": 2, "array": 7, "tuple": 5,
    "tuple_one": 0.5,
    "range": 2, "range_inclusive": 0.7, "btree_map": 3, "hash_map": 3, "btree_set": 2, "hash_set": 2, "index_map": 1,
    "index_set": 0.7, "small_vec": 1.5, "own": 8, "parameter": 8, "alias": 3, "cow_str": 3, "cow_slice": 3,
    "cow_value": 1, "cow_map": 0.7, "str_loan": 3, "bytes_loan": 3, "array_loan": 1.5,
}
LOANS = ("cow_str", "cow_slice", "cow_value", "cow_map", "str_loan", "bytes_loan", "array_loan")
STATIC = "'static"


def prefixed(prefix, table):
    """The same weights, for productions of their own: `vec` behind a length is another one than `vec`."""
    return {f"{prefix}_{name}": weight for name, weight in table.items()}


# What may be a key, or an item of a set: types without parts, and others.
LEAF_KEYS = prefixed("key",
                     {"u8": 4, "u16": 4, "u32": 5, "u64": 3, "i32": 1, "i64": 1, "usize": 1, "u128": 0.5, "bool": 1,
                             "char": 1, "string": 6, "ipv4": 1, "ip": 0.5, "uuid": 1, "nonzero_u32": 0.5})
KEYS = LEAF_KEYS | {"key_tuple": 2, "key_array": 1, "key_option": 1, "key_vec": 0.7, "key_box": 0.5, "key_unit": 0.2,
                    "key_loan": 1, "key_own": 4, "key_parameter": 3}
# What may stand behind a length of another width, or behind one that is told.
MAPS = {"btree_map": 2, "hash_map": 2, "btree_set": 1, "hash_set": 1}
COUNTED = prefixed("counted", {"vec": 6, "string": 6, "box_str": 1, "box_slice": 1, "small_vec": 1, "index_map": 0.5,
                               "index_set": 0.5} | MAPS)
COUNTED_LOANS = prefixed("counted", {"str_loan": 3, "bytes_loan": 3, "cow_str": 3, "cow_slice": 3, "cow_map": 1})
TOLD = prefixed("told",
                {"vec": 6, "string": 4, "box_str": 1, "box_slice": 1, "cow_str": 2, "cow_slice": 2, "str_loan": 2,
                         "bytes_loan": 2})
TOLD_MAPS = prefixed("told", MAPS)
# What is skipped, beside what may be a part.
SKIPPED = prefixed("skip",
                   {"string": 3, "vec": 3, "option": 4, "box": 1, "btree_map": 1, "hash_map": 1, "u32": 2, "bool": 2,
                            "tuple": 1, "isize": 1, "arc": 0.7, "cell": 0.7, "parameter": 2, "own": 1, "f64": 1,
                            "box_str": 1,
                            "cow_str": 0.5, "array": 1, "range": 0.5})
# How a type holds values of itself. In a box alone there is always one more.
HELD = {"held_vec": 4, "held_option": 3, "held_box": 3, "held_pairs": 2, "held_lists": 1}


@dataclass(frozen=True)
class Kind:
    """A type: its text, what Rust derives for it, whether it borrows, and the parameters that it names."""
    text: str
    traits: frozenset = EVERY
    loans: bool = False
    names: frozenset = frozenset()


class Kinds:
    """Draws types of the parts of one item, which has a lifetime or none, and parameters."""

    def __init__(self, source, lifetime=None, parameters=()):
        self.source = source
        self.random = source.random
        self.lifetime = lifetime
        self.parameters = parameters

    def joined(self, text, parts, traits):
        """A type of others."""
        for part in parts:
            traits = traits & (part.traits | ({"Default"} & traits))
        return Kind(text, traits, any(it.loans for it in parts), frozenset().union(*(it.names for it in parts)))

    def holding(self, text, parts, traits):
        """A type that holds others, and so has a default only where they have one."""
        kind = self.joined(text, parts, traits)
        return replace(kind, traits=kind.traits.intersection(*(it.traits for it in parts)))

    def kind(self, depth):
        """A type of a part."""
        if depth <= 0 or self.random.random() < 0.45:
            return self.of(self.source.one_of(LEAF_WEIGHTS), depth)
        return self.of(self.source.one_of(FORMS, self.unusable()), depth)

    def unusable(self):
        """The forms that have nothing to name here."""
        found = []
        if not self.lifetime:
            of_loans = [f"{prefix}{name}" for prefix in ("", "counted_", "told_", "skip_") for name in LOANS]
            found += ["key_loan", *of_loans]
        if not self.plain_parameters():
            found += ["parameter", "skip_parameter"]
        if not self.source.aliases:
            found += ["alias"]
        if not self.own_types():
            found += ["own", "skip_own"]
        if not any(it.keyed for it in self.source.types):
            found += ["key_own"]
        return found

    def plain_parameters(self):
        """The parameters that are types of parts."""
        return [it for it in self.parameters if it.role in ("", "plain")]

    def own_types(self):
        """The types of the file that may be named here."""
        return [it for it in self.source.types if not it.whole and (self.lifetime or not it.loans)]

    def of(self, name, depth=0):
        """The type of a production."""
        if name in LEAVES:
            _, module, plain, traits = LEAVES[name]
            return Kind(self.source.path(module, plain) if module else plain, traits)
        return getattr(self, f"make_{name}")(depth)

    def named(self, module, name, parts, traits, holds=False, front=()):
        """A type by its path, applied to others."""
        arguments = ", ".join([*front, *(it.text for it in parts)])
        text = f"{self.source.path(module, name)}<{arguments}>"
        return self.holding(text, parts, traits) if holds else self.joined(text, parts, traits)

    # Lists, options and boxes.

    def make_vec(self, depth):
        """A list."""
        return self.named("std::vec", "Vec", [self.kind(depth - 1)], OWNED)

    def make_option(self, depth):
        """An option."""
        return self.named("std::option", "Option", [self.kind(depth - 1)], EVERY)

    def make_result(self, depth):
        """A result."""
        parts = [self.kind(depth - 1), self.kind(depth - 2)]
        return self.named("std::result", "Result", parts, EVERY - {"Default"})

    def make_box(self, depth):
        """A box."""
        return self.named("std::boxed", "Box", [self.kind(depth - 1)], OWNED, holds=True)

    def make_box_str(self, _):
        """A text in a box."""
        return Kind(f"{self.source.path('std::boxed', 'Box')}<str>", OWNED)

    def make_box_slice(self, depth):
        """A list in a box."""
        item = self.kind(depth - 1)
        return self.joined(f"{self.source.path('std::boxed', 'Box')}<[{item.text}]>", [item], OWNED)

    def make_small_vec(self, depth):
        """A list that begins in place."""
        item, count = self.kind(depth - 1), self.random.choice([1, 2, 4, 8])
        return self.joined(f"{self.source.path('smallvec', 'SmallVec')}<[{item.text}; {count}]>", [item], OWNED)

    def make_array(self, depth):
        """An array."""
        item = self.kind(depth - 1 if self.random.random() < 0.4 else 0)
        constant = next((it for it in self.parameters if it.role == "const"), None)
        if constant and self.source.draws("array_parameter"):
            kind = self.holding(f"[{item.text}; {constant.name}]", [item], EVERY - {"Default"})
            return replace(kind, names=kind.names | {constant.name})
        length, count = self.array_length()
        return self.holding(f"[{item.text}; {length}]", [item], EVERY if count <= 32 else EVERY - {"Default"})

    def array_length(self):
        """A length of an array, and its value."""
        if self.source.constants and self.source.draws("array_constant"):
            return self.random.choice(list(self.source.constants.items()))
        if self.source.constants and self.source.draws("array_sum"):
            name, value = self.random.choice(list(self.source.constants.items()))
            return f"{name} * 2", value * 2
        if self.source.draws("long_arrays"):
            return self.random.choice([("33", 33), ("64", 64), ("0x100", 256), ("1_000", 1000), ("0", 0)])
        count = self.random.choice([1, 2, 3, 4, 4, 6, 8, 12, 15, 16, 20, 32])
        return str(count), count

    def make_tuple(self, depth):
        """A tuple."""
        count = self.random.choice([2, 2, 2, 3, 3, 4, 5, 11])
        parts = [self.kind(depth - 1 if count < 5 else 0) for _ in range(count)]
        return self.holding(f"({', '.join(it.text for it in parts)})", parts, EVERY)

    def make_tuple_one(self, depth):
        """A tuple of one part."""
        part = self.kind(depth - 1)
        return self.holding(f"({part.text},)", [part], EVERY)

    def make_range(self, depth):
        """A range, mostly of numbers."""
        return self.named("std::ops", "Range", [self.kind(depth - 2)], RANGE, holds=True)

    def make_range_inclusive(self, _):
        """A range with its end."""
        return self.named("std::ops", "RangeInclusive", [self.kind(0)], RANGE - {"Default"})

    # What holds the item itself.

    def held(self, name, ends):
        """What holds values of the item of this name: none at times, where it `ends`."""
        itself = Kind(self.random.choice([name, name, "Self"]), OWNED - {"Default"})
        return getattr(self, f"make_{self.source.one_of(HELD, ('held_box',) * ends)}")(itself)

    def make_held_vec(self, itself):
        """A list of itself."""
        return self.named("std::vec", "Vec", [itself], OWNED)

    def make_held_box(self, itself):
        """Itself in a box."""
        return self.named("std::boxed", "Box", [itself], OWNED, holds=True)

    def make_held_option(self, itself):
        """Itself in a box, or nothing."""
        return self.named("std::option", "Option", [self.make_held_box(itself)], EVERY)

    def make_held_pairs(self, itself):
        """A list of itself with other parts."""
        part = self.of(self.source.one_of(LEAF_WEIGHTS))
        return self.make_held_vec(self.holding(f"({part.text}, {itself.text})", [part, itself], EVERY))

    def make_held_lists(self, itself):
        """Lists of lists of itself."""
        return self.make_held_vec(self.make_held_vec(itself))

    # Maps and sets.

    def make_btree_map(self, depth):
        """An ordered map."""
        return self.named("std::collections", "BTreeMap", [self.key("ordered"), self.kind(depth - 1)], OWNED)

    def make_btree_set(self, _):
        """An ordered set."""
        return self.named("std::collections", "BTreeSet", [self.key("ordered")], OWNED)

    def make_hash_map(self, depth):
        """A map by hashes."""
        return self.hashed("std::collections", "HashMap", [self.key("hashed"), self.kind(depth - 1)])

    def make_hash_set(self, _):
        """A set by hashes."""
        return self.hashed("std::collections", "HashSet", [self.key("hashed")])

    def make_index_map(self, depth):
        """A map in the order of insertion."""
        return self.hashed("indexmap", "IndexMap", [self.key("hashed"), self.kind(depth - 1)])

    def make_index_set(self, _):
        """A set in the order of insertion."""
        return self.hashed("indexmap", "IndexSet", [self.key("hashed")])

    def hashed(self, module, name, parts):
        """A map or a set by hashes, with a hasher of another crate at times."""
        kind = self.named(module, name, parts, HASHED)
        bare = any(it.name in parts[0].names and not it.bounded for it in self.parameters)
        if bare:
            kind = replace(kind, traits=kind.traits - {"PartialEq", "Eq"})
        if not self.source.draws("hashers"):
            return kind
        hasher = self.source.path("std::collections::hash_map", "RandomState")
        return replace(kind, text=f"{kind.text[:-1]}, {hasher}>")

    def key(self, role):
        """A type of keys."""
        unusable = self.unusable() + ([] if self.key_parameters(role) else ["key_parameter"])
        name = self.source.one_of(KEYS, unusable)
        return self.leaf_key(name) if name in LEAF_KEYS else getattr(self, f"make_{name}")(role)

    def leaf_key(self, name=None):
        """A type without parts as a key."""
        return self.of((name or self.source.one_of(LEAF_KEYS)).removeprefix("key_"))

    def key_parameters(self, role):
        """The parameters that may be keys."""
        return [it for it in self.parameters if it.role in ("", role)]

    def make_key_parameter(self, role):
        """A parameter as a key."""
        found = self.random.choice(self.key_parameters(role))
        found.become(role, self.source.draws("bounds"))
        return Kind(found.name, EVERY, False, frozenset([found.name]))

    def make_key_own(self, _):
        """A type of one's own as a key."""
        return Kind(self.random.choice([it for it in self.source.types if it.keyed]).name, OWNED)

    def make_key_tuple(self, role):
        """A pair of keys."""
        parts = [self.leaf_key() for _ in range(2)]
        return self.holding(f"({parts[0].text}, {parts[1].text})", parts, EVERY)

    def make_key_array(self, _):
        """An array of keys."""
        return Kind(self.random.choice(["[u8; 16]", "[u16; 2]", "[char; 3]"]), EVERY)

    def make_key_option(self, _):
        """An option of a key."""
        return self.named("std::option", "Option", [self.leaf_key()], EVERY)

    def make_key_vec(self, _):
        """A list of keys."""
        return self.named("std::vec", "Vec", [self.leaf_key()], OWNED)

    def make_key_box(self, _):
        """A key in a box."""
        return self.named("std::boxed", "Box", [self.leaf_key()], OWNED)

    def make_key_unit(self, _):
        """Nothing as a key."""
        return Kind("()", EVERY)

    def make_key_loan(self, _):
        """A text that is lent, as a key."""
        return self.make_str_loan(0)

    # What the file declares.

    def make_own(self, depth):
        """A type of the file."""
        own = self.random.choice(self.own_types())
        arguments, parts = ([self.lifetime] if own.loans else []), []
        constant = next((it for it in self.parameters if it.role == "const"), None)
        for parameter in own.parameters:
            if parameter.role == "const":
                use = constant and self.random.random() < 0.5
                arguments.append(constant.name if use else self.random.choice(["2", "4", "0x10"]))
                parts += [Kind("", EVERY, False, frozenset([constant.name]))] if use else []
                continue
            if parameter.default and self.random.random() < 0.5:
                break
            part = self.argument(parameter, depth)
            arguments.append(part.text)
            parts.append(part)
        text = f"{own.name}<{', '.join(arguments)}>" if arguments else own.name
        kind = self.holding(text, parts, own.traits) if parts else Kind(text, own.traits)
        return replace(kind, loans=kind.loans or own.loans)

    def argument(self, parameter, depth):
        """What a parameter of another type is applied to."""
        if parameter.role in ("ordered", "hashed") or parameter.bounded:
            return self.of(self.source.one_of({"u8": 1, "u16": 1}))
        return self.kind(depth - 2)

    def make_alias(self, _):
        """An alias of the file."""
        return self.random.choice(self.source.aliases)

    def make_parameter(self, _):
        """A parameter of the item."""
        found = self.random.choice(self.plain_parameters())
        found.become("plain", False)
        return Kind(found.name, EVERY, False, frozenset([found.name]))

    # What borrows.

    def lent(self, target, traits):
        """What is lent: for a lifetime of the item, or for ever."""
        is_static = self.source.draws("static_loan")
        return Kind(f"&{STATIC if is_static else self.lifetime} {target}", traits, not is_static)

    def cow(self, inner, part=None):
        """A cow."""
        text = f"{self.source.path('std::borrow', 'Cow')}<{self.lifetime}, {inner}>"
        return replace(self.joined(text, [part] if part else [], OWNED), loans=True)

    def make_cow_str(self, _):
        """A text that may be lent."""
        return self.cow("str")

    def make_cow_slice(self, depth):
        """A list that may be lent, of what can be cloned."""
        item = self.cloned(depth - 1)
        return self.cow(f"[{item.text}]", item)

    def make_cow_value(self, depth):
        """A value that may be lent."""
        item = self.cloned(depth - 1)
        kind = self.cow(item.text, item)
        return replace(kind, traits=kind.traits & (item.traits | (EVERY - {"Default"})))

    def make_cow_map(self, depth):
        """A map that may be lent."""
        kind = Kinds(self.source, self.lifetime).of(self.random.choice(list(MAPS)), 0)
        return self.cow(kind.text, kind)

    def cloned(self, depth):
        """A type that can be cloned: of none of the file's parameters, which have no such bound."""
        inner = Kinds(self.source)
        for _ in range(20):
            kind = inner.kind(depth)
            if "Clone" in kind.traits:
                return kind
        return Kind("u8")

    def make_str_loan(self, _):
        """A text that is lent."""
        return self.lent("str", EVERY)

    def make_bytes_loan(self, _):
        """Bytes that are lent."""
        return self.lent("[u8]", EVERY)

    def make_array_loan(self, _):
        """Bytes of a fixed number that are lent."""
        return self.lent(f"[u8; {self.array_length()[0]}]", EVERY - {"Default"})

    # What is skipped alone.

    def make_isize(self, _):
        """A number that has no encoding."""
        return Kind("isize")

    def make_arc(self, _):
        """A count of references."""
        return Kind(f"{self.source.path('std::sync', 'Arc')}<u8>", OWNED)

    def make_cell(self, _):
        """A cell."""
        return Kind(f"{self.source.path('std::cell', 'RefCell')}<u8>", OWNED - {"Hash"})
