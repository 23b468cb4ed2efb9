"""The layouts of the types of a Rust file, by the generator's own reading of it: its parser, names and attributes."""
import re
from dataclasses import dataclass, field, replace
from pathlib import Path

import arithmetic
import composed
import enums
import expressions
import leaves
import lists
import parse
import rattle
import recursion
import syntax
import visibility
import whole
from declared import (Choice, FramePart, Magic, Missing, NulEnded, Part, Parts, Rest, Skipped, Struct, ToldPart,
                      Until, Variant)
from known import BLANKS, KNOWN, ONE_ORDER, TOLD_BLANKS
from lengths import is_framed
from module import Made, ModuleMaker
from refusal import Refusal
from scope import Converter
from told import Told
from tokens import cut

U8, U32 = leaves.Number("u8", 1), leaves.Number("u32", 4)
# The numbers of lengths and tags, by the names of the attributes.
WIDTHS = {"u7": leaves.U7("u7", 1), "u8": U8, "u16": leaves.Number("u16", 2), "u32": U32,
          "u64": leaves.Number("u64", 8), "u64_varint": leaves.Varint()}
# A lifetime that the type that is asked for may leave out.
LENT = "'a"


def simple_layouts():
    """The layouts without parts, by the names that the generator has for their types."""
    found = {"bool": leaves.Flag(), "char": leaves.Char(), "usize": leaves.Number("usize", 8),
             "F32": leaves.Float("f32", 4), "F64": leaves.Float("f64", 8), "U24": leaves.Number("U24", 3),
             "Endianness": leaves.ByteOrder(),
             "Ipv4Addr": leaves.Address("Ipv4Addr", 4), "Ipv6Addr": leaves.Address("Ipv6Addr", 16),
             "IpAddr": leaves.EitherAddress(), "Duration": leaves.Span(), "Uuid": leaves.Octets("Uuid", 16),
             "VarInt64": leaves.Varint("VarInt64", "VarInt64(", ")"),
             "String": lists.CountedLayout("String", U32, lists.Text()),
             "BoxedStr": lists.CountedLayout("Box<str>", U32, lists.Text())}
    for bits in (8, 16, 32, 64, 128):
        for sign in "ui":
            found[f"{sign}{bits}"] = leaves.Number(f"{sign}{bits}", bits // 8, sign == "i")
            name = f"NonZero{sign.upper()}{bits}"
            found[name] = leaves.NonZero(name, bits // 8, sign == "i")
    return found


SIMPLE = simple_layouts()


def listed(name, item):
    """A list of items behind a count."""
    content = lists.Octets() if item is SIMPLE["u8"] else lists.Items(item)
    return lists.CountedLayout(name, U32, content)


def gathered(name, family, arguments):
    """A map or a set behind a count."""
    is_map = name.endswith("Map")
    types = arguments[:2] if is_map else arguments[:1]
    item = composed.Pair(*types) if is_map else types[0]
    title = f"{name}<{', '.join(it.name for it in types)}>"
    return lists.CountedLayout(title, U32, lists.Entries(title, item, is_map, family))


# The layouts of types that are applied to others, made of the layouts of these, by the names that the generator has.
APPLIED = {
    "Vec": lambda item: listed(f"Vec<{item.name}>", item),
    "BoxedSlice": lambda item: listed(f"Box<[{item.name}]>", item),
    "CowSlice": lambda _, item: listed(f"Cow<[{item.name}]>", item),
    "SmallVec": lambda item, count: listed(f"SmallVec<[{item.name}; {count}]>", item),
    "CowStr": lambda _: lists.CountedLayout("Cow<str>", U32, lists.Text()),
    "CText": NulEnded,
    "ListUntil": lambda number, item, mark: Until(leaves.Varint("VarInt64") if isinstance(number, leaves.Varint)
                                                  else number, item, mark),
    "Cow": lambda _, inner: inner,
    "Box": lambda inner: inner,
    "Option": composed.option,
    "Result": composed.result,
    "Range": lambda inner: composed.Range("Range", inner, ".."),
    "RangeInclusive": lambda inner: composed.Range("RangeInclusive", inner, "..="),
    "PhantomData": lambda inner: leaves.Nothing(f"PhantomData<{inner.name}>", f"PhantomData<{inner.name}>"),
}
for blank in BLANKS:
    APPLIED[blank] = lambda count, blank=blank: leaves.Blank(blank, count)
for blank in TOLD_BLANKS:
    # Their length is always told: no number stands before them.
    APPLIED[blank] = lambda blank=blank: lists.CountedLayout(blank, None, lists.Blanks(blank))
for holder, byte_order in ONE_ORDER.items():
    APPLIED[holder] = lambda number, holder=holder, byte_order=byte_order: leaves.OneOrder(holder, number, byte_order)
for family, kinds in (("sorted", ("BTreeMap", "BTreeSet")), ("hashed", ("HashMap", "HashSet")),
                      ("listed", ("IndexMap", "IndexSet"))):
    for kind in kinds:
        APPLIED[kind] = lambda *arguments, kind=kind, family=family: gathered(kind, family, arguments)


@dataclass
class Making:
    """What the generator's scopes write to beside the types: none of it is asked for here."""
    notes: list = field(default_factory=list)
    answers: dict = field(default_factory=dict)
    ghosts: set = field(default_factory=set)
    ghost_paths: set = field(default_factory=set)


class Module:
    """The types of a file, or of a module in it. What is bound are the layouts and numbers of an item's parameters."""

    def __init__(self, file, place, path, whole_file):
        self.path = path
        self.whole_file = whole_file
        maker = ModuleMaker(file, Making(), place)
        self.scope = maker.scope
        self.inner = []
        for item in maker.ordered:
            if isinstance(item, syntax.Module):
                self.inner.append((item, (*path, item.name)))
                continue
            maker.set_options(item)
            if isinstance(item, syntax.Enum) and not syntax.is_plain(item):
                enums.tags_of(item, self.scope)
            if isinstance(item, syntax.Struct) and whole.ends_with_input(item):
                self.scope.ending.add(item.name)
        self.made = {}

    # Types.

    def layout(self, kind, bound):
        """The layout of a type as the generator has it."""
        if isinstance(kind, syntax.Tuple):
            parts = [(f".{place}", self.layout(it, bound)) for place, it in enumerate(kind.parts)]
            inner = ", ".join(layout.name for _, layout in parts)
            return composed.Tuple(f"({inner},)" if len(parts) == 1 else f"({inner})", parts)
        if isinstance(kind, syntax.Array):
            return lists.Array(self.layout(kind.item, bound), self.number(kind.length, bound))
        if isinstance(kind, syntax.Reference):
            return self.lent(kind.target, bound)
        if isinstance(kind, rattle.Variable):
            return bound[kind.name]
        if isinstance(kind, rattle.Own):
            return self.own(kind, bound)
        if isinstance(kind, rattle.Foreign):
            return self.whole_file.foreign(kind, self, bound)
        return self.listed(kind, bound)

    def lent(self, target, bound):
        """What a reference lends."""
        if rattle.is_listed(target, "str"):
            return lists.CountedLayout("&str", U32, lists.Text())
        if isinstance(target, syntax.Slice):
            item = self.layout(target.item, bound)
            return listed(f"&[{item.name}]", item)
        return self.layout(target, bound)

    def listed(self, kind, bound):
        """A type of the list."""
        if kind.name in SIMPLE:
            return SIMPLE[kind.name]
        if kind.name not in APPLIED:
            raise Refusal(kind.line, f"the bytes of `{kind.name}` are not known to tools/inspect")
        return APPLIED[kind.name](*(self.argument(it, bound) for it in kind.arguments))

    def argument(self, it, bound):
        """What a type is applied to: a layout, a number, or nothing of a lifetime or a hasher."""
        if isinstance(it, str):
            return self.number(it, bound)
        if isinstance(it, syntax.Lifetime):
            return None
        if isinstance(it, (rattle.Variable, rattle.Foreign)) and getattr(it, "name", None) not in bound:
            try:
                return self.layout(it, bound)
            except (KeyError, Refusal):
                return None
        return self.layout(it, bound)

    def number(self, text, bound):
        """A number in a type: a parameter, a constant of the file, or itself."""
        if text in bound:
            return bound[text]
        if text in self.scope.constants:
            return expressions.number(self.scope.constants[text], self.scope.constants)
        return cut(text)[0].value

    # Types of the file.

    def own(self, kind, bound):
        """A type that the file declares."""
        return self.applied(self.scope.items[kind.name], [self.argument(it, bound) for it in kind.arguments])

    def applied(self, item, arguments):
        """An item of the module, of these layouts and numbers."""
        key = (item.name, *arguments)
        if key not in self.made:
            bound = {it.name: value for it, value in zip(item.parameters, arguments) if it.kind != "lifetime"}
            shown = [getattr(value, "name", str(value)) for value in bound.values()]
            name = f"{item.name}<{', '.join(shown)}>" if shown else item.name
            make = self.choice if isinstance(item, syntax.Enum) else self.struct
            self.made[key] = make(item, name, bound)
        return self.made[key]

    def struct(self, item, name, bound):
        """A struct."""
        return Struct(name, item.name, item.shape, lambda: self.parts(item, item.fields, bound), item.depth,
                      whole.ends_with_input(item))

    def choice(self, item, name, bound):
        """An enum."""
        ranks = self.ranks(item)
        return Choice(name, item.name, WIDTHS[item.tag_type],
                      lambda: [Variant(it.name, it.tag, it.shape, self.parts(item, it.fields, bound), rank)
                               for it, rank in zip(item.variants, ranks)], item.depth)

    def ranks(self, item):
        """By what the variants of an enum are compared: by their discriminants, where the made enum has these."""
        if any(it.shape != "unit" for it in item.variants) or any(it.name == "repr" for it in item.attributes):
            return list(range(len(item.variants)))
        found, following = [], 0
        for it in item.variants:
            if it.discriminant is not None:
                following = expressions.number(it.discriminant, self.scope.constants)
            found.append(following)
            following += 1
        return found

    # Fields.

    def parts(self, item, fields, bound):
        """The parts of a struct or of a variant."""
        return FieldReader(self, item, fields, bound).parts()


class FieldReader:
    """Makes the parts of the fields of a struct or of a variant."""

    def __init__(self, module, item, fields, bound):
        self.module = module
        self.scope = module.scope
        self.item = item
        self.fields = fields
        self.bound = bound
        self.types = [self.scope.of_field(it, item) for it in fields]
        # The numbers that tell lengths: their types by their paths, and their paths by the labels of their fields.
        self.kinds = {}
        self.telling = {}

    def parts(self):
        """All of them."""
        found = []
        for place, (it, kind) in enumerate(zip(self.fields, self.types)):
            if it.options.constant is not None:
                found.append(Magic(it.options.constant))
            found.append(self.part(it, f".{it.name or place}", kind))
        return Parts([as_part(it) for it in found], self.telling)

    def part(self, it, label, kind):
        """That of one field."""
        options = it.options
        if options.skip:
            return Skipped(label, leaves.Nothing(rattle.type_text(kind)), default_text(kind))
        if options.varint:
            return Part(label, WIDTHS["u64_varint"])
        layout = self.holding(kind)
        if options.length_type:
            held = layout.cases[0][1] if isinstance(layout, composed.Chosen) else layout
            self.has_content(it, held, "length_type")
            return Part(label, behind(layout, WIDTHS[options.length_type]))
        if options.length is not None and is_framed(kind):
            return FramePart(label, layout, self.told(options.length))
        if options.length is not None:
            self.has_content(it, layout, "length")
            return ToldPart(label, layout, self.told(options.length))
        if options.is_rest:
            self.has_content(it, layout, "length = ..")
            return Rest(label, layout)
        if options.may_be_missing:
            return Missing(label, layout, default_text(kind))
        return Part(label, layout)

    @staticmethod
    def has_content(it, layout, setting):
        """Refuses a length of what has none."""
        if not isinstance(layout, lists.CountedLayout):
            raise Refusal(it.line, f"`{setting}` is not taken of this type: tools/derive says of which it is")

    def holding(self, kind):
        """The layout of a field. Where it holds values of its own type, lists of these test no count."""
        if not self.item.depth or not recursion.holds(kind, self.item.name):
            return self.module.layout(kind, self.bound)
        if rattle.is_listed(kind, "Vec"):
            item = self.holding(kind.arguments[0])
            return lists.CountedLayout(f"Vec<{item.name}>", U32, lists.Items(item, False))
        if rattle.is_listed(kind, "Option"):
            return composed.option(self.holding(kind.arguments[0]))
        if rattle.is_listed(kind, "Box"):
            return self.holding(kind.arguments[0])
        if isinstance(kind, syntax.Tuple):
            parts = [(f".{place}", self.holding(part)) for place, part in enumerate(kind.parts)]
            return composed.Tuple(f"({', '.join(it.name for _, it in parts)})", parts)
        return self.module.layout(kind, self.bound)

    # Lengths.

    def told(self, expression):
        """The length that an expression tells."""
        constants = {}
        for mention in expressions.mentions(expression):
            name, *path = expressions.path_of(mention)
            place = next((at for at, it in enumerate(self.fields) if (it.name or f"t{at}") == name), None)
            if place is not None:
                self.tell(name, path, place, mention.line)
            else:
                constant = self.scope.items.get(name)
                if path or not isinstance(constant, syntax.Constant):
                    raise Refusal(mention.line, f"`{name}` is neither an earlier field with bytes nor a constant")
                kind = rattle.type_text(self.scope.of_constant(constant.type))
                constants[name] = (kind, expressions.number(constant.value, self.scope.constants))
        return Told(expression, self.kinds, constants)

    def tell(self, name, path, place, line):
        """Takes a number, by its field and the fields in that."""
        full, held, item = ".".join([name, *path]), self.fields[place], self.item
        for label in path:
            item = self.scope.items.get(getattr(self.scope.of_field(held, item), "name", None))
            fields = item.fields if isinstance(item, syntax.Struct) else ()
            held = next((it for at, it in enumerate(fields) if (it.name or str(at)) == label), None)
            if held is None:
                raise Refusal(line, f"`{full}` is no field of an earlier field")
        kind = "u64" if held.options.varint else rattle.type_text(self.scope.of_field(held, item))
        if kind not in arithmetic.BITS or held.options.skip:
            raise Refusal(line, f"`{full}` tells no length: its type is none of {arithmetic.TAKEN}")
        if full not in self.kinds:
            self.kinds[full] = kind
            label = f".{self.fields[place].name or place}"
            self.telling.setdefault(label, []).append((full, [f".{it}" for it in path]))


def as_part(it):
    """A constant as a part."""
    return Part("", it) if isinstance(it, Magic) else it


def behind(layout, number):
    """What has a count, or an option of that, with one of another width."""
    if isinstance(layout, composed.Chosen):
        return composed.option(behind(layout.cases[0][1], number))
    return lists.CountedLayout(layout.name, number, layout.content)


DEFAULTS = {"bool": "false", "char": "'\\0'", "F32": "0.0", "F64": "0.0", "U24": "0", "String": '""', "BoxedStr": '""',
            "CowStr": '""', "Option": "None", "Duration": "0ns", "Vec": "[]", "BoxedSlice": "[]", "CowSlice": "[]",
            "SmallVec": "[]", "BTreeMap": "{}", "HashMap": "{}", "IndexMap": "{}", "BTreeSet": "{}", "HashSet": "{}",
            "IndexSet": "{}"} | dict.fromkeys((*arithmetic.BITS, "u128", "i128", "isize"), "0")


def default_text(kind):
    """The default of a type as `Debug` prints it, or None where it is not told here."""
    if rattle.is_listed(kind, *DEFAULTS):
        return DEFAULTS[kind.name]
    if rattle.is_listed(kind, "Box", "Cow"):
        return default_text(kind.arguments[-1])
    if isinstance(kind, syntax.Tuple):
        inner = [default_text(it) for it in kind.parts]
        return None if None in inner else f"({', '.join(inner)}{',' if len(inner) == 1 else ''})"
    return None


class Source:
    """A Rust file. Where the generator takes it not, as for a limit of Rattle's compiler, `refusal` says so; its types
    have their bytes all the same."""

    @staticmethod
    def of_file(path):
        """That of a path."""
        return Source(Path(path).read_text(encoding="utf-8"), Path(path).name)

    def __init__(self, text, name):
        place = ["this_crate", re.sub(r"\W", "_", Path(name).stem)]
        self.refusal = None
        try:
            Made(text, name, place)
        except Refusal as refusal:
            self.refusal = refusal
        file = parse.parse(text)
        visibility.raise_all(file, place, [])
        self.place = place
        self.places = {it.path: it for it in visibility.modules_of(file, ())}
        self.modules = {}
        waiting = [(file, ())]
        while waiting:
            inner, at = waiting.pop()
            module = self.modules[at] = Module(inner, [*place, *at], at, self)
            waiting += [(item.file, below) for item, below in module.inner]

    def names(self):
        """The types of the file, by their paths."""
        return ["::".join((*path, name)) for path, module in sorted(self.modules.items())
                for name, item in module.scope.items.items()
                if isinstance(item, syntax.Declared) and not syntax.is_plain(item)]

    def foreign(self, kind, module, bound):
        """A type of another module of the file."""
        path = next((f"{above}::{name}" for (above, name), local in module.scope.locals.items() if local == kind.name),
                    kind.name)
        mentions = visibility.Mentions(self.places[module.path], self.places, self.place)
        item, at = mentions.resolved(tuple(path.split("::")), self.places[module.path], visibility.MOST_STEPS)
        if item is None:
            raise Refusal(kind.line, f"`{path}` is of another file: its bytes are not told here")
        other = self.modules[at.path]
        arguments = [module.argument(it, bound) for it in kind.arguments]
        if isinstance(item, syntax.Alias):
            inner = dict(zip((it.name for it in item.parameters), arguments))
            return other.layout(other.scope.convert(item.type, item.parameters, True), inner)
        return other.applied(item, arguments)

    def layout(self, text):
        """The layout of the type that is asked for."""
        parser = parse.Parser(cut(text))
        kind = parser.type()
        if parser.token.kind != "end":
            raise Refusal(1, f"`{parser.token.text}` stands behind the type")
        module, kind = self.beginning(kind)
        kind = Asked(module.scope).filled(kind)
        lent = (syntax.Parameter(1, "lifetime", LENT),)
        converter = Converter(module.scope, lent, True, False)
        converter.framed = kind
        return module.layout(converter.convert(kind), {})

    def beginning(self, kind):
        """The module that a path leads to, and the type in that."""
        path = kind.path if isinstance(kind, syntax.Named) else ()
        front = path[:-1]
        if front and front in self.modules:
            return self.modules[front], replace(kind, path=path[-1:])
        return self.modules[()], kind


class Asked:
    """Fills in what the type that is asked for may leave out: lifetimes, and the paths of listed types."""

    def __init__(self, scope):
        self.scope = scope

    def filled(self, kind):
        """A type of the source with these."""
        lifetime = syntax.Lifetime(1, LENT)
        if isinstance(kind, syntax.Tuple):
            return replace(kind, parts=tuple(self.filled(it) for it in kind.parts))
        if isinstance(kind, (syntax.Array, syntax.Slice)):
            return replace(kind, item=self.filled(kind.item))
        if isinstance(kind, syntax.Reference):
            return replace(kind, lifetime=lifetime, target=self.filled(kind.target))
        if not isinstance(kind, syntax.Named):
            return lifetime if isinstance(kind, syntax.Lifetime) else kind
        path = self.path(kind.path)
        arguments = tuple(self.filled(it) for it in kind.arguments)
        item = self.scope.items.get(path[0])
        lent = [it for it in getattr(item, "parameters", ()) if it.kind == "lifetime"]
        is_cow = self.scope.full_path(path)[-1] == "Cow"
        if (lent or is_cow) and not any(isinstance(it, syntax.Lifetime) for it in arguments):
            arguments = (lifetime,) * max(len(lent), 1) + arguments
        return replace(kind, path=path, arguments=arguments)

    def path(self, path):
        """The path of a listed type that is named without one."""
        if len(path) > 1 or path[0] in self.scope.items or path[0] in self.scope.uses:
            return path
        found = [name for name in KNOWN if name.rpartition("::")[2] == path[0]]
        return tuple(min(found, key=len).split("::")) if found else path
