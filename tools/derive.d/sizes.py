"""The least sizes of types, where the generator can say them, and which types are written as they are."""
import syntax
from known import BLANKS
from rattle import Listed, Own

# So many bytes at least has an encoding of each of these.
LEAST = {"bool": 1, "char": 4, "usize": 8, "F32": 4, "F64": 8, "U24": 3, "U7": 1, "Varint": 1, "VarInt64": 1,
         "Option": 1, "Result": 1, "Ipv4Addr": 4, "Ipv6Addr": 16, "IpAddr": 5, "Duration": 12, "Uuid": 16,
         "Endianness": 1, "CText": 1, "str": 4}
LEAST |= {f"{sign}{bits}": bits // 8 for bits in (8, 16, 32, 64, 128) for sign in "ui"}
LEAST |= {f"NonZero{sign}{bits}": bits // 8 for bits in (8, 16, 32, 64) for sign in "UI"}
LEAST |= dict.fromkeys(("String", "Vec", "BoxedStr", "BoxedSlice", "CowStr", "CowSlice", "SmallVec", "BTreeMap",
                        "BTreeSet", "HashMap", "HashSet", "IndexMap", "IndexSet", "EncodedList"), 4)
# Which argument of a type has its least size.
WITHIN = {"Box": 0, "Cow": -1, "Magic": 0, "Other": 0, "Prefixed": 0, "WithLength": 1, "WithFrame": 1,
          "Big": 0, "Little": 0, "ListUntil": 0}
TWICE = ("Range", "RangeInclusive")
# Numbers and what is as small: written as they are, since each `Part` of a tuple takes longer to prove.
UNSIGNED = {f"u{bits}" for bits in (8, 16, 32, 64, 128)} | {"usize", "bool", "char", "F32", "F64", "U24"}
SIGNED = {f"i{bits}" for bits in (8, 16, 32, 64, 128)}
COPIED = UNSIGNED | SIGNED
# A greater sum is left to the code.
MOST = 1 << 16


def is_copied(kind):
    """Whether a value of this type is written as it is."""
    return isinstance(kind, Listed) and kind.name in COPIED


def least(kind, scope):
    """The least size of a type, or None where it is not known here."""
    found = size_of(kind, scope)
    return found if found is not None and found < MOST else None


def size_of(kind, scope):
    """The same, of any size."""
    if isinstance(kind, syntax.Tuple):
        sizes = [size_of(part, scope) for part in kind.parts]
        return None if None in sizes else sum(sizes)
    if isinstance(kind, syntax.Array):
        item = size_of(kind.item, scope)
        return None if item is None else times(item, kind.length)
    if isinstance(kind, syntax.Reference):
        return 4 if isinstance(kind.target, syntax.Slice) else size_of(kind.target, scope)
    if isinstance(kind, Own):
        return scope.least.get(kind.name)
    return size_of_listed(kind, scope) if isinstance(kind, Listed) else None


def is_layered(kind, scope):
    """Whether the least size of a type is made of that of one with `depth`, whose layers a search does not unfold."""
    if isinstance(kind, syntax.Tuple):
        return any(is_layered(part, scope) for part in kind.parts)
    if isinstance(kind, syntax.Array):
        return is_layered(kind.item, scope)
    if isinstance(kind, Own):
        return kind.name in scope.layered
    if isinstance(kind, Listed) and kind.name in (*WITHIN, *TWICE):
        return is_layered(kind.arguments[WITHIN.get(kind.name, 0)], scope)
    return False


def times(size, count):
    """So many bytes so many times, where the count is a literal."""
    return size * int(count.replace("_", ""), 0) if count[0].isdigit() else None


def size_of_listed(kind, scope):
    """That of a listed type: of what is made of another, as of that."""
    if kind.name in (*BLANKS, "InPlaceBytes"):
        return times(1, kind.arguments[0])
    if kind.name in WITHIN:
        return size_of(kind.arguments[WITHIN[kind.name]], scope)
    if kind.name in TWICE:
        inner = size_of(kind.arguments[0], scope)
        return None if inner is None else 2 * inner
    return LEAST.get(kind.name)
