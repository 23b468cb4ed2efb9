"""What callers in other languages are shown of values: for each type a struct with the layout of C, and how it is made.

A type has a view where it is made of numbers, flags, characters, floats, arrays of numbers, `&'a str`, `&'a [u8]`,
lists of all these but arrays and of types of the file that are so, and of options and of types of the file that are
so."""
from dataclasses import dataclass

import syntax
from known import ENCODED_LIST, IN_PLACE_BYTES
from lend import items_of
from names import Fresh, field_name
from refusal import Refusal
from words import KEYWORDS, NOWHERE, PRELUDE

# The numbers that C has, with its names of them.
NUMBERS = {"u8": "unsigned char", "u16": "unsigned short", "u32": "unsigned int", "u64": "unsigned long",
           "i8": "signed char", "i16": "short", "i32": "int", "i64": "long"}
# The most that a number of an enum of C is.
MOST_TAG = (1 << 31) - 1
# No name of a field: a word of C, of C++, of Rust or of Python.
WORDS = frozenset("""
    auto break case char const continue default do double else enum extern float for goto if inline int long register
    restrict return short signed sizeof static struct switch typedef union unsigned void volatile while
    alignas alignof and and_eq asm bitand bitor bool catch class compl concept const_cast consteval constexpr constinit
    co_await co_return co_yield decltype delete dynamic_cast explicit export false friend mutable namespace new noexcept
    not not_eq nullptr operator or or_eq private protected public reinterpret_cast requires static_assert static_cast
    template this thread_local throw true try typeid typename using virtual wchar_t xor xor_eq
    as assert async await crate def del elif except finally fn from global impl import in is lambda let loop match mod
    move mut nonlocal None pass pub raise ref self super trait True False type unsafe use where with yield dyn
    NULL EOF errno stdin stdout stderr unix linux
    """.split()) | KEYWORDS | NOWHERE
# No name of a type, beside those of Rust's prelude: what is made has it.
TAKEN = ("Iterator", "View", "Shown", "Unshown", "Walk", "Bytes", "ListView", "EncodedList", "InPlaceBytes", "Global",
         "F32", "F64")
# The functions of a class in Python.
OF_PYTHON = ("check", "read", "walk", "to_bytes")


@dataclass(frozen=True)
class Kind:
    """How a field is shown: `what` says it, and `of` is the number, the kind within or the type of the file. Bytes by
    value that stand in the items of a list are held in place."""
    what: str
    of: object = None
    count: int = 0
    is_in_place: bool = False

    @property
    def label(self):
        """A name for it, as options are named by what they hold."""
        if self.what in ("number", "own"):
            return self.of if self.what == "number" else self.of.snake
        if self.what == "array":
            return f"{self.count}_{self.of}"
        if self.what == "list":
            return f"list_of_{self.of.label}"
        return {"text": "text", "bytes": "bytes", "flag": "flag", "char": "char", "float": self.of}.get(
            self.what) or f"maybe_{self.of.label}"

    @property
    def borrows(self):
        """Whether it has places in the bytes."""
        if self.what == "own":
            return self.of.borrows
        return self.what in ("text", "bytes", "list") or self.what == "maybe" and self.of.borrows


@dataclass
class Shown:
    """A field or a variant's field: its name in a view, its name in Rattle's type, and its kind."""
    name: str
    access: str
    kind: Kind

    @property
    def python(self):
        """Its name in Python, where a class has functions too."""
        return self.name + "_" * (self.name in OF_PYTHON)

    @property
    def in_struct(self):
        """Its name in Python in a struct of C, whose class has functions too."""
        return self.name + "_" * (self.name in ("of", "value_of"))

    @property
    def in_case(self):
        """Its name in Python in the class of a variant."""
        return self.name + "_" * (self.name == "to_bytes")


@dataclass
class Case:
    """A variant: its name, as a field and as a constant, its tag and its fields."""
    name: str
    snake: str
    shape: str
    tag: int
    fields: list

    @property
    def borrows(self):
        """Whether it has places in the bytes."""
        return any(it.kind.borrows for it in self.fields)

    @property
    def in_struct(self):
        """Its name in Python in a struct of C, whose class has functions too."""
        return self.snake + "_" * (self.snake in ("of", "value_of"))


class View:
    """A view of a type of the file. `cases` is None of a struct."""

    def __init__(self, exported, item):
        self.exported, self.item = exported, item
        self.snake, self.camel = exported.snake, exported.camel
        self.fields, self.cases = [], None

    @property
    def kinds(self):
        """How its fields are shown."""
        fields = self.fields if self.cases is None else [it for case in self.cases for it in case.fields]
        return [it.kind for it in fields]

    @property
    def borrows(self):
        """Whether it has places in the bytes."""
        return any(it.borrows for it in self.kinds)


class Unshown(Exception):
    """Why a type has no view, with the line."""

    def __init__(self, line, reason):
        super().__init__(reason)
        self.line, self.reason = line, reason


class Views:
    """The views of a file's types: `by_path` has them in an order in which each stands behind those that it holds, and
    `reasons` says of the others, by their paths, why they have none, with the line."""

    def __init__(self, types, items):
        self.items, self.types = items, {it.path: it for it in types}
        self.by_path, self.reasons, self.open = {}, {}, set()
        for it in types:
            try:
                self.view(it.path, it.line)
            except Unshown as why:
                self.reasons[it.path] = (why.line, f"`{it.name}` has no call that reads it: {why.reason}")

    def __iter__(self):
        return iter(self.by_path.values())

    def view(self, path, line):
        """The view of a type."""
        if path in self.by_path:
            return self.by_path[path]
        if path not in self.types or path in self.open:
            raise Unshown(line, f"`{path[-1]}` is not `pub`, derives no `Readable`, or holds itself")
        if self.types[path].is_whole:
            raise Unshown(line, f"`{path[-1]}` ends where the bytes do")
        item = self.items[path]
        if item.name in PRELUDE or item.name in TAKEN:
            raise Unshown(item.line, f"Rust has another `{item.name}`")
        self.open.add(path)
        try:
            found = View(self.types[path], item)
            if isinstance(item, syntax.Enum):
                found.cases = [self.case(it, item, path) for it in item.variants]
                names = [it.snake for it in found.cases] + ["tag"]
                if len(set(names)) < len(names):
                    raise Refusal(item.line, f"two variants of `{item.name}` would have one name in C")
            else:
                found.fields = self.shown(item.fields, path)
        finally:
            self.open.discard(path)
        if found.cases is None and not found.fields:
            raise Unshown(item.line, "it has no fields, and C has no struct without")
        names = [f"{found.camel}View", *(f"{found.camel}{it.name}View" for it in found.cases or ())]
        clash = next((it for it in self.types.values() if it.camel in names), None)
        if clash:
            raise Refusal(clash.line, f"`{clash.camel}` is the name of a view of another type: give it another name")
        self.by_path[path] = found
        return found

    def case(self, variant, item, path):
        """A variant as a view has it."""
        from library import snake
        if variant.tag > MOST_TAG:
            raise Unshown(variant.line, f"the tag of `{variant.name}` is no `int` of C")
        name = snake(checked(variant.name, variant.line))
        # `Bool` and `Int` are names of variants, and `bool` and `int` words.
        name += "_" * (name in WORDS)
        return Case(variant.name, name, variant.shape, variant.tag, self.shown(variant.fields, path))

    def shown(self, fields, path):
        """The fields of a struct or a variant."""
        found, taken = [], Fresh()
        for at, it in enumerate(fields):
            if it.options is not None and it.options.skip:
                raise Unshown(it.line, "a field with `skip` is not in its bytes")
            name = checked(it.name, it.line) if it.name else f"t{at}"
            if not taken.is_free(name):
                raise Refusal(it.line, f"`{name}` is the name of another field, but for the case of its letters")
            taken.take(name)
            found.append(Shown(name, field_name(it.name) if it.name else str(at), self.kind(it.type, path)))
        return found

    def kind(self, kind, path):
        """How a type of the source is shown."""
        line = getattr(kind, "line", 1)
        if isinstance(kind, syntax.Reference) and not kind.mutable:
            if isinstance(kind.target, syntax.Named) and kind.target.path == ("str",):
                return Kind("text")
            if isinstance(kind.target, syntax.Slice) and self.number(kind.target.item) == "u8":
                return Kind("bytes")
        if isinstance(kind, syntax.Array) and self.number(kind.item) and isinstance(kind.length, syntax.Literal):
            if kind.length.token.value == 0:
                raise Unshown(line, "C has no array of none")
            return Kind("array", self.number(kind.item), kind.length.token.value)
        if isinstance(kind, syntax.Named) and kind.path == ENCODED_LIST:
            return Kind("list", self.kind(kind.arguments[-1], path))
        if isinstance(kind, syntax.Named) and kind.path == IN_PLACE_BYTES:
            return Kind("array", "u8", kind.arguments[0].token.value, True)
        if isinstance(kind, syntax.Named) and len(kind.path) == 1:
            found = self.named(kind, kind.path[0], path)
            if found:
                return found
        if items_of(kind) is not None:
            raise Unshown(line, "a list in a view holds numbers up to 64 bits, floats, flags, characters, texts, "
                                "bytes, or values of a `pub` type of the file that has a view, no array but of bytes, "
                                "and no field with bytes of its own; and it stands in no key and no `SmallVec`")
        raise Unshown(line, "a view has numbers up to 64 bits, flags, characters, floats, arrays of so many numbers, "
                            "`&'a str`, `&'a [u8]`, lists, options, and `pub` types of the file of these")

    def number(self, kind):
        """The number that a type of the source is, or None."""
        is_one = isinstance(kind, syntax.Named) and len(kind.path) == 1 and kind.path[0] in NUMBERS
        return kind.path[0] if is_one else None

    def named(self, kind, name, path):
        """How a type is shown that is named by one word."""
        place = (*path[:-1], name)
        if place in self.items:
            return Kind("own", self.view(place, kind.line))
        if name == "usize":
            raise Refusal(kind.line, "a `usize` is of another width in another program: take a `u64` of the same bytes")
        if name in NUMBERS:
            return Kind("number", name)
        if name in ("f32", "f64"):
            return Kind("float", name)
        if name in ("bool", "char"):
            return Kind("flag" if name == "bool" else "char")
        if name == "Option" and len(kind.arguments) == 1:
            inner = self.kind(kind.arguments[0], path)
            if inner.what == "maybe":
                raise Unshown(kind.line, "Python has no option of an option")
            return Kind("maybe", inner)
        return None


def checked(name, line):
    """A name of a field, which is no word of a language that has it."""
    if name in WORDS:
        raise Unshown(line, f"`{name}` is a word of a language that calls the library, or of Rattle: give it another "
                            "name")
    return name


def kinds_within(views, what, name=lambda kind: kind.label):
    """The kinds of fields of views that are so, also in others, each behind those that it holds, and one of each
    name."""
    found = {}

    def add(kind):
        if kind.what in ("maybe", "list"):
            add(kind.of)
        if kind.what == what:
            found.setdefault(name(kind), kind)

    for view in views:
        for kind in view.kinds:
            add(kind)
    return list(found.values())


def maybes(views):
    """The kinds of options that views hold, each behind those that it holds."""
    return kinds_within(views, "maybe")


def lists(views):
    """The kinds of lists that views hold."""
    return kinds_within(views, "list")


def listed_kinds(views):
    """The kinds of what lists hold but types of the file: each has a call of its own."""
    return [it.of for it in lists(views) if it.of.what != "own"]
