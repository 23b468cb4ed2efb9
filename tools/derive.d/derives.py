"""Which traits the kit derives for a type, by what that holds."""
import syntax
from rattle import Foreign, Listed, Own, Variable, is_listed, parts_of, type_text

# The traits that are derived. Any other name (`Serialize`, `Error`) is no macro here: it is left out.
DERIVED = ("Debug", "Clone", "Copy", "PartialEq", "Eq", "PartialOrd", "Ord", "Hash", "Default", "Drop")
# What a trait asks for beside it: a derive that lacks one of these is refused, so it is left out with it.
BESIDE = {"Copy": ("Clone",), "Eq": ("PartialEq",), "PartialOrd": ("PartialEq",),
          "Ord": ("PartialEq", "Eq", "PartialOrd"), "Hash": ("PartialEq", "Eq")}

COMPARISONS = ("PartialOrd", "Ord", "Hash")
MAPS_BY_HASH = ("HashMap", "HashSet", "IndexMap", "IndexSet")
RANGES = ("Range", "RangeInclusive")
VIEWS = ("SliceView", "ArrayView")
CELLS = ("Cell", "RefCell")
# What a library has in place of a list. Nothing there compares what was read.
ENCODED = "EncodedList"
# And in place of bytes by value, which go without a default there.
BYTES = "InPlaceBytes"
NON_ZERO = tuple(f"NonZero{sign}{bits}" for sign in "UI" for bits in (8, 16, 32, 64))
OWNING = ("String", "BoxedStr", "CowStr", "Vec", "BoxedSlice", "CowSlice", "Box", "BTreeMap", "BTreeSet",
          *MAPS_BY_HASH, "ListUntil",
          "SmallVec", "VecDeque", "Rc", "Arc")

# Which types lack a trait, whatever they hold. All others have it where what they hold has it.
LACKING = {
    "Debug": (), "Clone": (), "Drop": (),
    "Copy": (*OWNING, "Cow", *RANGES, *CELLS),
    "PartialEq": (*CELLS, ENCODED),
    "Eq": (*CELLS, "f32", "f64", ENCODED),
    "PartialOrd": ("F32", "F64", *RANGES, *MAPS_BY_HASH, *VIEWS, *CELLS, ENCODED),
    "Ord": ("F32", "F64", "f32", "f64", *RANGES, *MAPS_BY_HASH, *VIEWS, *CELLS, ENCODED),
    "Hash": ("f32", "f64", *MAPS_BY_HASH, *VIEWS, *CELLS, ENCODED),
    # What is made with an allocator, or has no value that goes without saying. (A reference has one to `str` and to
    # slices alone.)
    "Default": (*OWNING, "CowStr", "CowSlice", "Result", "RangeInclusive", "Ipv4Addr", "Ipv6Addr", "IpAddr", *NON_ZERO,
                "Endianness", "VarInt64", "SystemTime", "Instant", *VIEWS, ENCODED, BYTES),
}
# Types without a default that are made empty with an allocator.
EMPTY = ("String", "Vec", "BTreeMap", "BTreeSet", "HashMap", "HashSet", "VecDeque")
# A tuple of more parts has none of the traits.
MOST_COMPARED = 12
# Types whose argument need not have the trait.
FREE_OF_ARGUMENTS = {trait: ("PhantomData",) for trait in DERIVED}
FREE_OF_ARGUMENTS["Default"] = ("PhantomData", "Option")


def prevents(trait, kind, own):
    """The name of the type in a field's type that has not the trait, or None where the field may have it. `own` says of
    the name of a type of the file which traits it derives; a parameter is asked for it by the derive itself."""
    if isinstance(kind, syntax.Tuple) and len(kind.parts) > MOST_COMPARED and trait != "Drop":
        return f"a tuple of {len(kind.parts)} parts"
    if isinstance(kind, Own) and trait not in own.get(kind.name, ()):
        return kind.name
    if isinstance(kind, syntax.Reference):
        return reference_prevents(trait, kind, own)
    if isinstance(kind, Listed):
        if kind.name in LACKING[trait]:
            return kind.name
        if trait == "Clone" and kind.name == "SmallVec" and prevents_empty(kind.arguments[0], own):
            return type_text(kind)
        if kind.name in FREE_OF_ARGUMENTS[trait]:
            return None
    held = (it for it in parts_of(kind) if isinstance(it, (Listed, Own, Foreign, Variable, syntax.Tuple, syntax.Array,
                                                           syntax.Slice, syntax.Reference)))
    return next((found for found in (prevents(trait, it, own) for it in held) if found), None)


def prevents_empty(kind, own):
    """The name of the type that has no value of its own, with an allocator or without one, or None where there is
    such a value."""
    if is_listed(kind, "SmallVec"):
        return prevents_empty(kind.arguments[0], own)
    return None if is_listed(kind, *EMPTY) else prevents("Default", kind, own)


def reference_prevents(trait, kind, own):
    """The same of a reference."""
    if trait == "Drop" or (trait in ("Clone", "Copy") and not kind.mutable):
        return None
    if kind.mutable and trait in ("Clone", "Copy", "Default"):
        return "&mut"
    if trait == "Default":
        return None if isinstance(kind.target, syntax.Slice) or is_listed(kind.target, "str") else "&"
    return prevents(trait, kind.target, own)


class Derives:
    """Which derives of the types of a file the kit has."""

    def __init__(self, scope):
        self.scope = scope
        # The traits that are left of each type that is made already, by its name.
        self.kept = {}
        # The names of types that lack some for a list in a library, of which no note says so.
        self.unsaid = {ENCODED, BYTES}

    def keep(self, item, kinds):
        """The derives of a type that holds these; the others are left out, with a note."""
        for line, name in item.left_out:
            self.scope.notes.append((line, f"`{name}` of `{item.name}` is left out: Rattle derives none"))
        kept = dict.fromkeys(item.derives)
        own = {**self.kept, item.name: (*item.derives, "Drop")}
        for name in item.derives:
            lacking = next((found for found in (prevents(name, kind, own) for kind in kinds) if found), None)
            if lacking:
                del kept[name]
                if lacking in self.unsaid:
                    self.unsaid.add(item.name)
                    continue
                self.scope.notes.append((item.line, f"`{name}` of `{item.name}` is left out: in Rattle `{lacking}` has "
                                                    "it not"))
        for name in self.without_beside(item, kept):
            del kept[name]
        self.kept[item.name] = {*kept, "Drop"}
        return list(kept)

    def without_beside(self, item, kept):
        """The derives that ask for another one which is left out, or is not in the source."""
        found = []
        for _ in BESIDE:
            for name, beside in BESIDE.items():
                missing = next((it for it in beside if it not in kept or it in found), None)
                if name in kept and name not in found and missing:
                    found.append(name)
                    self.scope.notes.append((item.line, f"`{name}` of `{item.name}` is left out: it asks for "
                                                        f"`{missing}`"))
        return found
