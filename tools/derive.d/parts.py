"""The parts of a struct or of a variant: how each is read, seen and written."""
from dataclasses import dataclass, field

import arrays
import asked
import defaults
import known
import lengths
import rattle
import syntax
from names import camel, quoted, variables
from rattle import Build, Call, Let, Listed, Own, is_listed, tuple_of, type_text
from refusal import Refusal
from scope import member
from sizes import SIGNED, is_copied

# The types of numbers, the first number past each, and its least size, by the names that the original has for them.
NUMBERS = {"u7": ("U7", 1 << 7, 1), "u8": ("u8", 1 << 8, 1), "u16": ("u16", 1 << 16, 2), "u32": ("u32", 1 << 32, 4),
           "u64": ("u64", 1 << 64, 8), "u64_varint": ("VarInt64", 1 << 64, 1)}
# What may stand behind a length of another width.
COUNTED = ("String", "Vec", "BoxedStr", "BoxedSlice", "CowStr", "CowSlice", "SmallVec", "BTreeMap", "HashMap",
           "IndexMap", "BTreeSet", "HashSet", "IndexSet", "EncodedList")
# So many parts stand in one tuple. More are split into tuples of so many, since else the search for proofs meets its
# step limit.
MOST_PARTS = 6
PARTS_OF_MANY = 4


@dataclass
class Access:
    """How a field is named: what it is bound to, in a clause, as a reference, as a value and in the source."""
    bound: str
    seen: str
    reference: str
    value: str
    label: str


@dataclass
class Part:
    """A part of what is read and written, and what it is bound to in reading."""
    type: object
    bound: str
    # What is seen of it, where the type of the parts says the rest, and by itself, where it has another type than the
    # field.
    seen: str = ""
    seen_alone: str = ""
    # What is written of it among others, where that is no `Part` of it, and by itself.
    written: object = None
    alone: str = ""
    # The variable that it is written by, which says its type: its name, its type and its value.
    statement: object = None
    # By what functions it is lent to be written and taken when it is read, where it is an option of what stands behind
    # a length.
    lent_by: str = ""
    taken_by: str = ""
    # The tree that it is where a length is told of it, by what stands in the tree before it.
    tree: object = None

    def is_signed(self):
        """Whether it is a signed number, which in a tuple gets no proof as it is, beside some others."""
        return is_listed(self.type, *SIGNED)

    def option_taken(self):
        """The statement that takes it when it is read."""
        return Let(self.bound, Call(self.taken_by, (self.bound,)))

    def lent(self, scope):
        """A `Part` of it."""
        return Call(scope.need("speedy", "Part"), (self.alone,))

    def among(self, scope):
        """What is written of it among others."""
        return self.lent(scope) if self.written is None else self.written

    def statements(self):
        """The variables that it is written by."""
        return self.tree.stated()[0] if self.tree is not None else [self.statement] if self.statement else []


@dataclass
class Taken:
    """The fields of a struct or of a variant, with their parts. `values` has the value of each field in reading."""
    item: object
    fields: list
    accesses: list
    parts: list = field(default_factory=list)
    values: list = field(default_factory=list)
    # The parts of the fields, and of the constants before them.
    items: list = field(default_factory=list)
    # The types of fields that are skipped, each with the parameters that need a default.
    skipped: list = field(default_factory=list)
    # The tree of tuples that the parts stand in: a part, or a list of trees.
    tree: object = None

    def is_told(self):
        """Whether what is built of the parts tells their types, so that a read of them need not."""
        return not any(part.seen_alone for part in self.parts)

    def type(self):
        """The type of the parts."""
        if not self.parts:
            return syntax.Tuple(self.item.line, ())
        return fold(self.tree, lambda it: it.type, lambda its: syntax.Tuple(self.item.line, tuple(its)))


def split(parts):
    """The parts as a tree of tuples that are short enough; a tree is a part or a list of trees."""
    trees = list(parts)
    if not trees:
        return None
    most = MOST_PARTS
    while len(trees) > most:
        most = PARTS_OF_MANY
        groups = -(-len(trees) // most)
        size, more = divmod(len(trees), groups)
        cut, at = [], 0
        for place in range(groups):
            end = at + size + (1 if place < more else 0)
            cut.append(trees[at:end] if end - at > 1 else trees[at])
            at = end
        trees = cut
    return trees[0] if len(trees) == 1 else trees


def fold(tree, leaf, node):
    """Builds something of a tree."""
    if isinstance(tree, list):
        return node([fold(it, leaf, node) for it in tree])
    return leaf(tree)


def outline(taken):
    """The items of parts, as what is seen of these has them."""
    by_part = {id(item.part): item for item in taken.items}
    return fold(taken.tree, lambda it: by_part[id(it)] if it.tree is None else it.tree.outline(), list)


def is_nested(tree):
    """Whether a tuple holds tuples."""
    return isinstance(tree, list) and any(isinstance(it, list) for it in tree)


# The parts of fields.

class PartMaker:
    """Makes the parts of the fields of a struct, or of a variant, whose path `owner` is."""

    def __init__(self, item, scope, owner):
        self.item = item
        self.scope = scope
        self.owner = owner

    def taken(self, fields, accesses):
        """The fields with their parts."""
        found = Taken(self.item, fields, accesses)
        items = found.items
        for place, (it, access) in enumerate(zip(fields, accesses)):
            kind = self.scope.of_field(it, self.item)
            asked.check(kind, self.scope, it, self.item.readable)
            arrays.check(self.item, self.scope, it, kind)
            if it.options.skip:
                value, defaulted = defaults.default(kind, self.scope, it.line) if self.item.readable else ("", ())
                if "error_out_of_memory" in value:
                    raise Refusal(it.line, "the default of this field takes memory, which no layout says that reading "
                                           "asks for: hold it in an `Option`, whose default takes none")
                found.values.append(value)
                found.skipped.append((kind, defaulted))
                continue
            if it.options.constant is not None:
                items.append(lengths.Item(self.constant(it, access)))
            part, value = self.part(it, access, kind)
            items.append(lengths.Item(part, it, access, place, value))
            found.values.append(value)
        lives = self.item.writable and any(it.kind != "const" for it in self.item.parameters)
        joined = lengths.joined(items, self.scope, self.owner, lives)
        found.parts = [it if isinstance(it, Part) else self.told(it) for it in joined]
        found.tree = split(found.parts)
        return found

    def part(self, it, access, kind):
        """The part of one field, and the value of the field in reading."""
        if it.options.varint:
            return self.varint(it, access, kind)
        if it.options.length_type:
            return self.prefixed(it, access, kind)
        if it.options.length is not None:
            lengths.check_type(it, kind, self.item, self.scope)
        elif rattle.holds_listed(kind, *known.TOLD_BLANKS):
            raise Refusal(it.line, f"`{type_text(kind)}` has a length that other fields tell: write "
                                   "`#[speedy(length = ..)]` before it, or hold `Padding<3>` or `Zeros<3>`")
        written = access.value if is_copied(kind) else None
        return Part(kind, access.bound, access.seen, "", written, access.reference), access.bound

    def told(self, tree):
        """What has a length that is told, with all that stands between it and what tells it."""
        bound = tree.item.access.bound
        return Part(tree.type, bound, "", tree.seen(lambda part: seen_of(part, self.scope)), bound, f"&{bound}",
                    tree=tree)

    def varint(self, it, access, kind):
        """A number that is written in as few bytes as it needs."""
        if not is_listed(kind, "u64"):
            raise Refusal(it.line, "`varint` is for fields of the type `u64`")
        name = self.scope.need("speedy::varints", "Varint")
        written = Call(name, (access.value,))
        part = Part(Listed(it.line, "Varint", (), name), access.bound, access.seen, access.seen, written,
                    f"&{written}")
        return part, f"{access.bound}.0"

    def prefixed(self, it, access, kind):
        """A text, a list, a map or a set behind a length of its own width, or an option of that."""
        is_option = is_listed(kind, "Option")
        held = kind.arguments[0] if is_option else kind
        if not (is_listed(held, *COUNTED) or is_lent_list(held)):
            how = f"write a `Prefixed` of `{type_text(kind)}` by hand"
            if is_listed(held, *known.NUMBERS, "usize"):
                how = "a number takes no `length_type`"
            raise Refusal(it.line, f"`length_type` is taken of texts, lists, maps, sets and options of these: {how}")
        number = number_of(self.scope, it.options.length_type, it.line)
        scope, bound = self.scope, access.bound
        name, part = scope.need("speedy::prefixed", "Prefixed"), scope.need("speedy", "Part")
        number_field = ("number", scope.need("std::marker", "PhantomData"))
        behind = Listed(it.line, "Prefixed", (number, held), name)
        before = f"{name}<{type_text(number)}, _>"
        seen = f"⟦<{type_text(kind)} as {scope.need('speedy', 'Layout')}>⟧.seen {access.seen}"
        if not is_option:
            made = Build(name, (("value", Call(part, (access.reference,))), number_field))
            return Part(behind, bound, access.seen, seen, bound, f"&{bound}", (bound, before, made)), f"{bound}.value"
        option, lend = scope.prelude("Option"), scope.need("speedy::prefixed", "lent_option")
        take = scope.need("speedy::prefixed", "option_value")
        return Part(Listed(it.line, "Option", (behind,), option), bound, access.seen, seen, bound, f"&{bound}",
                    (bound, f"{option}<{before}>", Call(lend, (access.reference,))), lend, take), bound

    def constant(self, it, access):
        """The bytes before a field, as a part of their own."""
        scope, data = self.scope, it.options.constant
        name = scope.fresh.name(f"Before{self.owner.replace('::', '')}{camel(it.name or access.bound)}")
        scope.least[name] = len(data)
        constant, magic = scope.need("speedy::magic", "Constant"), scope.need("speedy::magic", "Magic")
        scope.ghosts |= {"[]"} | ({"◌∷◌"} if data else set())
        listed = " ∷ ".join([str(byte) for byte in data] + ["[]"])
        scope.beside += [f"/// The bytes before [`{self.owner}::{access.label}`].", "#[derive(Drop)]",
                         f"{scope.helpers_shown}struct {name} {{}}",
                         f"impl {constant} for {name} {{", f"    ghost bytes = {{ {listed} }};",
                         f"    fn bytes() -> &'static [u8] {{ {byte_string(data)} }}", "}", ""]
        kind = Listed(it.line, "Magic", (Own(it.line, name),), magic)
        written = f"{magic}::<{name}>::new()"
        return Part(kind, "_", "", f"⟦<{name} as {constant}>⟧.bytes", written, f"&{written}")


def is_lent_list(kind):
    """Whether a type is that of a text or of a list that is borrowed."""
    return isinstance(kind, syntax.Reference) \
        and (isinstance(kind.target, syntax.Slice) or is_listed(kind.target, "str"))


def number_of(scope, width, line):
    """The type of numbers of a width, as the original names it."""
    name = NUMBERS[width][0]
    module = {"U7": "speedy::prefixed", "VarInt64": "speedy::varint"}.get(name)
    return Listed(line, name, (), scope.need(module, name) if module else name)


def byte_string(data):
    """The literal of some bytes."""
    return 'b"' + "".join(chr(it) if 32 <= it < 127 and chr(it) not in '"\\' else f"\\x{it:02x}" for it in data) + '"'


def accesses_of_struct(fields, scope):
    """How the fields of a struct are named."""
    found = []
    for place, (it, bound) in enumerate(zip(fields, variables(fields, scope.values()))):
        name = member(it, place)
        found.append(Access(bound, f"it.{quoted(name)}", f"&self.{name}", f"self.{name}", it.name or name))
    return found


def accesses_of_variant(fields, scope, avoided=frozenset()):
    """How the fields of a variant are named: in a clause by their place. None is bound to what is avoided."""
    return [Access(bound, f"t{place}", bound, f"*{bound}", it.name or str(place))
            for place, (it, bound) in enumerate(zip(fields, variables(fields, scope.values() | avoided)))]


# What is seen.

def seen_of(part, scope):
    """What is seen of a part by itself."""
    ends = isinstance(part.type, Own) and part.type.name in scope.ending
    trait = scope.need("speedy::whole", "Whole") if ends else scope.need("speedy", "Layout")
    return part.seen_alone or f"⟦<{type_text(part.type)} as {trait}>⟧.seen {part.seen}"


def seen_of_parts(taken, quoted, scope):
    """What is seen of parts: what stands before a tuple of clauses, and that tuple."""
    if not taken.is_told():
        return "", fold(taken.tree, lambda part: seen_of(part, scope), lengths.paired)
    return f"⟦<{quoted} as {scope.need('speedy', 'Layout')}>⟧.seen ", fold(taken.tree, lambda part: part.seen, list)


# What is read.

def read_arm(taken, built, is_variant=False):
    """The arm of a `match` that takes parts apart: its pattern inside `Ok`, and what is built of them."""
    pattern, statements = read_pattern(taken, is_variant)
    return pattern, rattle.Block(statements, built())


def read_pattern(taken, is_variant=False):
    """The pattern that takes parts apart, and the statements that do so behind it, which set the values of fields."""
    fresh = lengths.Names(access.bound for access in taken.accesses)
    told = [part for part in taken.parts if part.tree is not None]
    behind = [let for part in told for let in part.tree.taken(part.bound, fresh, taken.values)]
    behind += [part.option_taken() for part in taken.parts if part.taken_by]
    if not taken.parts:
        return "()", ()
    if is_taken_apart(taken, is_variant):
        apart = taken_apart(taken.tree, {part.bound for part in taken.parts})
        return "parts", (*apart, *behind)
    return fold(taken.tree, lambda it: it.bound, tuple_of), tuple(behind)


def moves_array(taken):
    """Whether an array stands beside another part: no pattern of a `match` moves it out of a tuple."""
    return isinstance(taken.tree, list) and any(isinstance(part.type, syntax.Array) for part in taken.parts)


def has_other_form(taken):
    """Whether what was read has another form in the result of a variant's arm, in which a search for a proof finds it.
    Several parts are then taken apart behind the pattern, since in a large struct a search finds them only so."""
    return is_nested(taken.tree) or moves_array(taken) or any(
        part.tree is not None or part.is_signed() or is_listed(part.type, "Uuid") for part in taken.parts)


def is_taken_apart(taken, is_variant):
    """Whether the parts are taken apart behind the pattern: of tuples in a tuple, and of arrays, it moves none out."""
    is_tuple = isinstance(taken.tree, list)
    return is_tuple and (is_nested(taken.tree) or moves_array(taken) or is_variant and has_other_form(taken))


def taken_apart(tree, names):
    """The statements that take a tuple apart, tuple by tuple."""
    found, waiting, count = [], [("parts", tree)], 0
    while waiting:
        name, it = waiting.pop(0)
        bound, inner = [], []
        for part in it:
            if isinstance(part, list):
                count += 1
                group = "parts" + "_" * (f"parts{count}" in names) + str(count)
                inner.append((group, part))
                bound.append(group)
            else:
                bound.append(part.bound)
        found.append(Let(tuple_of(bound), name))
        waiting = inner + waiting
    return found


def built(name, shape, taken):
    """A struct or a variant, of the values of its fields."""
    if shape == "unit":
        return name
    if shape == "tuple":
        return Call(name, tuple(taken.values))
    return Build(name, tuple((member(it, 0), value) for it, value in zip(taken.fields, taken.values)))


# What is written.

def variant_pattern(name, variant, accesses):
    """The pattern of a variant, with its fields bound."""
    if variant.shape == "unit":
        return name
    pairs = list(zip(variant.fields, accesses))
    if variant.shape == "tuple":
        return Call(name, tuple("_" if it.options.skip else access.bound for it, access in pairs))
    kept = tuple((member(it, 0), access.bound) for it, access in pairs if not it.options.skip)
    return Build(name, kept, len(kept) < len(pairs))


def write_statements(taken):
    """The variables that parts are written by."""
    return tuple(Let(name, value, kind) for part in taken.parts for name, kind, value in part.statements())


def written(taken, scope):
    """What is written of a struct or of a variant: a reference."""
    if not taken.parts:
        return "&()"
    if not isinstance(taken.tree, list):
        return taken.parts[0].alone
    return f"&{written_among(taken, scope)}"


def written_among(taken, scope):
    """The same, as a value that other parts stand beside."""
    def among(part):
        """A part among others."""
        return part.lent(scope) if part.is_signed() else part.among(scope)

    return fold(taken.tree, among, lambda its: Call("", tuple(its)))
