"""Fields with a length that earlier fields tell: which parts stand in one `WithLength`, and what it is made of."""
from dataclasses import dataclass

import expressions
import holders
import syntax
from arithmetic import BITS, TAKEN, Computed, Term, number, refused
from expressions import mentions, path_of
from known import TOLD_BLANKS
from names import Fresh, camel, parameter
from rattle import Build, Call, Foreign, Let, Listed, Own, is_listed, names_in, parts_of, tuple_of, type_text
from refusal import Refusal

TEXTS_AND_LISTS = ("String", "Vec", "BoxedStr", "BoxedSlice", "CowStr", "CowSlice")
MAPS = ("BTreeMap", "HashMap", "IndexMap", "BTreeSet", "HashSet", "IndexSet")
# So deep may the type of a `WithLength` nest. Past 30 or so the compiler's search for impls meets its limit sooner than
# `impl_search` counts.
MOST_DEEP = 20
# So many lengths are told in one tree beside other parts, and so many in one that stands alone, of what is written and
# has a lifetime or a type as a parameter: past that the search for how long these live meets the prover's limit.
MOST_TOLD_BESIDE, MOST_TOLD_ALONE = 6, 7
# What to write in place of what has parameters.
WITHOUT_PARAMETERS = "write a type for each thing that a type parameter stands for, and own what is borrowed"
# So many parts stand in one tuple.
MOST_OTHERS = 6
# The types of numbers that tell a length.
HELD = tuple(BITS)


@dataclass
class Item:
    """A part, and the field that it is of, or None where it is a constant before one; its place among the values of
    the fields, and its value."""
    part: object
    field: object = None
    access: object = None
    place: int = 0
    value: object = None

    def has_length(self):
        """Whether a length is told of it."""
        return self.field is not None and self.field.options.length is not None

    def source(self):
        """The name that an expression of the source has for it."""
        return self.field.name or f"t{self.access.label}"


def is_framed(kind):
    """Whether a type with a length is no text and no list, and so stands in a frame of so many bytes."""
    return isinstance(kind, (Own, Foreign))


def check_type(field, kind, item, scope):
    """Refuses a length of what is no text, no list, no map, no set and no struct or enum."""
    if is_framed(kind):
        if item.readable:
            check_framed(field, kind, item, scope)
        return
    lent = kind.target if isinstance(kind, syntax.Reference) else None
    is_lent = isinstance(lent, syntax.Slice) or is_listed(lent, "str")
    if not is_listed(kind, *TEXTS_AND_LISTS, *MAPS, *TOLD_BLANKS, "EncodedList") and not is_lent:
        raise Refusal(field.line, "`length` is taken of `String`, `Vec<T>`, `Box<str>`, `Box<[T]>`, `&str`, `&[u8]`, "
                                  "`Cow<str>`, `Cow<[T]>`, `PaddingBytes`, `ZeroBytes`, maps, sets, structs and enums")


def check_framed(field, kind, item, scope):
    """Refuses a value that cannot be read in a frame of a told length: it is counted as it would be written."""
    own = scope.items[kind.name] if isinstance(kind, Own) else None
    if own is not None and not own.writable:
        raise Refusal(field.line, f"`{kind.name}` has to derive `Writable`: its bytes are counted in reading too")
    if any(it.options.may_be_missing for it in getattr(own, "fields", ())):
        raise Refusal(field.line, f"`{kind.name}` is made of the parts that are read: hold it behind the number of its "
                                  "bytes by hand, as these parts in a `Framed`")
    if names_in(kind) & {it.name for it in item.parameters if it.kind == "type"}:
        raise Refusal(field.line, "a value of a told length that is generic here is not taken, since it would have to "
                                  "be written in reading too: write the impls of this type by hand")


# What stands in one `WithLength` is a tree: of numbers, structs that hold some, other parts, pairs, and what has a
# length. `taken` gives the statements that take apart what was read, where it is bound to a name, and sets the values
# of the fields in it. `outline` has the items as what is seen has them: a tuple is a list, and no item is None.

class Number:
    """A number, which may tell lengths."""

    def __init__(self, item, kind, scope):
        self.item = item
        self.kind = kind
        self.scope = scope
        self.bound = item.access.bound
        self.type = item.part.type

    def stated(self):
        """The variables that it is written by, and what is written of it then."""
        part = self.item.part
        return [], part.lent(self.scope) if part.is_signed() else part.written

    def seen(self, alone):
        """What is seen of it."""
        return self.item.part.seen

    def numbers(self):
        """The type of the numbers that it holds."""
        return self.kind

    def places(self, path):
        """Where the numbers stand, by their names."""
        return {self.item.source(): (path, self.kind, parameter(self.bound))}

    def pattern(self, used):
        """The pattern of the numbers, which names those that are used."""
        return parameter(self.bound) if self.item.source() in used else "_"

    def taken(self, name, names, values):
        """No statement."""
        values[self.item.place] = f"{name}.0" if self.item.field.options.varint else name
        return []

    def outline(self):
        """It alone."""
        return self.item


class Holder:
    """A struct that holds numbers, which may tell lengths."""

    def __init__(self, item, scope, names):
        self.item = item
        self.scope = scope
        self.bound = item.access.bound
        self.type = item.part.type
        self.holding = scope.holding[item.part.type.name]
        self.variables = holders.names_of(self.holding, item.source(), names)

    def stated(self):
        """The variables that it is written by, and what is written of it then."""
        return [], self.item.part.lent(self.scope)

    def seen(self, alone):
        """What is seen of it."""
        return alone(self.item.part)

    def numbers(self):
        """The type of the numbers that it holds."""
        return self.holding.type()

    def places(self, path):
        """Where the numbers stand, by their names."""
        return {name: (at, kind, self.variables[name])
                for name, (at, kind) in self.holding.places(self.item.source(), path).items()}

    def pattern(self, used):
        """The pattern of the numbers, which names those that are used."""
        bound = {name: variable for name, variable in self.variables.items() if name in used}
        return str(self.holding.pattern(self.item.source(), bound))

    def taken(self, name, names, values):
        """No statement."""
        values[self.item.place] = name
        return []

    def outline(self):
        """It alone."""
        return self.item


class Others:
    """Parts that hold no number."""

    def __init__(self, items, scope, line):
        self.items = items
        self.line = line
        self.scope = scope
        self.bound = bound_of(items[0]) if len(items) == 1 else None
        kinds = tuple(item.part.type for item in items)
        inner = kinds[0] if len(kinds) == 1 else syntax.Tuple(line, kinds)
        self.type = Listed(line, "Other", (inner,), scope.need("speedy::lengths", "Other"))

    def stated(self):
        """The variables that they are written by, and what is written of them then."""
        statements = [it for item in self.items for it in item.part.statements()]
        written = [item.part.lent(self.scope) if item.part.is_signed() else item.part.among(self.scope)
                   for item in self.items]
        return statements, Call(self.type.local, (tuple_of(written) if written else "()",))

    def seen(self, alone):
        """What is seen of them."""
        return paired([alone(item.part) for item in self.items] or ["tt"])

    def numbers(self):
        """The type of no numbers."""
        return "()"

    def places(self, path):
        """Of no number."""
        return {}

    def pattern(self, used):
        """The pattern of no numbers."""
        return "_"

    def taken(self, name, names, values):
        """A tuple is taken apart. An array is bound, since it is not moved out of a field; a character too, since the
        borrow checker covers no value that is made of a field that is one; and an option, which is named twice."""
        if not self.items:
            return []
        found = [Let(tuple_of([bound_of(item) for item in self.items]), f"{name}.0")]
        alone = self.items[0] if len(self.items) == 1 else None
        is_bound = alone is None or isinstance(alone.part.type, syntax.Array) or is_listed(alone.part.type, "char")
        if is_bound or alone.part.taken_by:
            return found + [item.part.option_taken() for item in self.items if item.part.taken_by]
        if alone.field is not None:
            values[alone.place] = renamed(alone, f"{name}.0")
        return []

    def outline(self):
        """The parts, or the only one."""
        return self.items[0] if len(self.items) == 1 else self.items or None


def renamed(item, name):
    """The value of a field that is bound to another name than its own."""
    value, bound = str(item.value), item.access.bound
    return name + value[len(bound):] if value.startswith(bound) else item.value


def bound_of(item):
    """What a part is bound to."""
    return "_" if item.field is None else item.access.bound


def paired(its):
    """Parts as pairs that nest to the right, as what is seen of a tuple does."""
    found = its[-1]
    for it in reversed(its[:-1]):
        found = [it, found]
    return found


class Pair:
    """Parts, and one more behind them."""

    def __init__(self, first, second):
        self.first = first
        self.second = second
        self.bound = None
        self.type = syntax.Tuple(first.type.line, (first.type, second.type))

    def stated(self):
        """The variables that they are written by, and what is written of them then."""
        (first, before), (second, behind) = self.first.stated(), self.second.stated()
        return first + second, Call("", (before, behind))

    def seen(self, alone):
        """What is seen of them."""
        return [self.first.seen(alone), self.second.seen(alone)]

    def numbers(self):
        """The type of the numbers that they hold."""
        return f"({self.first.numbers()}, {self.second.numbers()})"

    def places(self, path):
        """Where the numbers stand, by their names."""
        return self.first.places(path + ".0") | self.second.places(path + ".1")

    def pattern(self, used):
        """The pattern of the numbers, which names those that are used."""
        first, second = self.first.pattern(used), self.second.pattern(used)
        return "_" if (first, second) == ("_", "_") else f"({first}, {second})"

    def taken(self, name, names, values):
        """The two parts, each by its name."""
        first, second = (it.bound or names.fresh() for it in (self.first, self.second))
        found = [Let(Call("", (first, second)), name)]
        return found + self.first.taken(first, names, values) + self.second.taken(second, names, values)

    def outline(self):
        """The two."""
        return [self.first.outline(), self.second.outline()]


class Behind:
    """Parts, and behind them a text, a list, a map or a set of the length that their numbers tell, as the type `length`
    says; or a value that fills so many bytes."""

    def __init__(self, before, item, length, scope):
        self.before = before
        self.item = item
        self.scope = scope
        self.length = length
        self.bound = None
        self.ends = isinstance(item.part.type, Own) and item.part.type.name in scope.ending
        line, plain = item.field.line, "WithFrame" if is_framed(item.part.type) else "WithLength"
        name = scope.need("speedy::lengths", plain)
        scope.reads_lent |= {name} if plain == "WithFrame" else set()
        self.type = Listed(line, plain, (Listed(line, length), before.type, item.part.type), name)

    def stated(self):
        """The variables that it is written by, each a name, a type and a value, and the name of the last."""
        found, before = self.before.stated()
        name, phantom = self.item.access.bound, self.scope.need("std::marker", "PhantomData")
        part = self.item.part
        value = Call(self.scope.need("speedy::whole", "WholePart"), (part.alone,)) if self.ends \
            else part.among(self.scope)
        made = Build(self.type.local, (("before", before), ("value", value), ("length", phantom)))
        return found + [(name, f"{self.type.local}<{self.length}, _, _>", made)], name

    def seen(self, alone):
        """What is seen of it."""
        part = self.item.part
        if not is_listed(part.type, *MAPS, *TOLD_BLANKS):
            return [self.before.seen(alone), alone(part)]
        # What is seen of a hashed one by itself does not tell its length, and padding has no encoding by itself.
        trait = self.scope.need("speedy::lengths", "OfLength")
        return [self.before.seen(alone), f"⟦<{type_text(part.type)} as {trait}>⟧.seen {part.seen}"]

    def numbers(self):
        """The type of the numbers that the parts before it hold."""
        return self.before.numbers()

    def places(self, path):
        """Where the numbers stand, by their names."""
        return self.before.places(path)

    def pattern(self, used):
        """The pattern of the numbers, which names those that are used."""
        return self.before.pattern(used)

    def taken(self, name, names, values):
        """The parts before it, and the value."""
        bound = self.item.access.bound
        if isinstance(self.before, (Number, Holder)) or (isinstance(self.before, Others) and not self.before.items):
            # A path to a field of a field is moved out of where no tuple is on it.
            values[self.item.place] = renamed(self.item, f"{name}.value")
            return self.before.taken(f"{name}.before", names, values)
        values[self.item.place] = self.item.value
        before = names.fresh()
        found = [Let(Build(self.type.local, (("before", before), ("value", bound), ("length", "_"))), name)]
        return found + self.before.taken(before, names, values)

    def outline(self):
        """The parts before it, and the value."""
        return [self.before.outline(), self.item]


class Names:
    """Names that no field is bound to."""

    def __init__(self, taken):
        self.names = Fresh(taken)

    def fresh(self):
        """A new one."""
        return self.names.name("before")


# Which fields are joined.

def joined(items, scope, owner, is_asked_how_long):
    """The parts of a struct or of a variant, of which each is one of `items`, or a tree of some of them. Of a type with
    parameters that is written it is asked how long they live."""
    spans = spans_of([(min(numbers_of(items, place, scope) | {place}), place)
                      for place, item in enumerate(items) if item.has_length()])
    if is_asked_how_long:
        spans = few_told(spans, items, owner)
    found, at = [], 0
    for first, last in spans:
        found += [item.part for item in items[at:first]] + [tree(items[first:last + 1], scope, owner)]
        at = last + 1
    return found + [item.part for item in items[at:]]


def spans_of(spans):
    """Spans from a first to a last place, where those that meet are one."""
    found = []
    for first, last in sorted(spans):
        if found and first <= found[-1][1]:
            found[-1] = (found[-1][0], max(last, found[-1][1]))
        else:
            found.append((first, last))
    return found


def few_told(spans, items, owner):
    """The spans, or one of all the parts, where many lengths are told together. Refuses more than that has a proof."""
    for first, last in spans:
        if sum(item.has_length() for item in items[first:last + 1]) > MOST_TOLD_BESIDE:
            if last + 1 < len(items) or sum(item.has_length() for item in items) > MOST_TOLD_ALONE:
                raise Refusal(items[last].field.line, f"`{owner}` has parameters, and beside them so many lengths "
                                                      f"that are told together find no proof: {WITHOUT_PARAMETERS}")
            return [(0, last)]
    return spans


def numbers_of(items, place, scope):
    """The places of the numbers that tell the length of an item."""
    by_name = {item.source(): at for at, item in enumerate(items) if item.field is not None}
    found = set()
    for mention in mentions(items[place].field.options.length):
        name, *fields = path_of(mention)
        at = by_name.get(name)
        if at is not None and at >= place:
            raise Refusal(mention.line, f"`{name}` is no earlier field: what tells a length stands before it")
        if at is not None:
            if not fields and kind_of(items[at]) is None:
                raise Refusal(mention.line, f"`{name}` tells no length: its type is none of {TAKEN}")
            found.add(at)
        elif fields or not isinstance(scope.items.get(name), syntax.Constant):
            raise Refusal(mention.line, f"`{name}` is neither an earlier field with bytes nor a constant of this file")
    return found


def kind_of(item):
    """The type of a number, or None where an item is none."""
    if item.field is None:
        return None
    kind = "u64" if item.field.options.varint else type_text(item.part.type)
    return kind if kind in HELD else None


def tree(items, scope, owner):
    """The tree of some items, of which the last one has a length, with the types that say its lengths."""
    line = items[-1].field.line
    used = set().union(*(numbers_of(items, place, scope) for place, item in enumerate(items) if item.has_length()))
    found, others, names = [], [], Fresh(bound_of(item) for item in items)
    for place, item in enumerate(items):
        if place not in used and not item.has_length():
            others.append(item)
            continue
        found, others = found + without_number(others, scope, line), []
        if item.has_length():
            before = balanced(found or [Others([], scope, line)])
            found = [Behind(before, item, LengthType(item, before, scope, owner).name, scope)]
        else:
            kind = kind_of(item)
            found.append(Number(item, kind, scope) if kind is not None else Holder(item, scope, names))
    if depth_of(found[0].type) > MOST_DEEP:
        raise Refusal(line, "what stands between this field and the numbers that tell its length nests too deep for "
                            "Rattle's compiler: put some of it into a struct of its own")
    return found[0]


def without_number(others, scope, line):
    """Parts that hold no number, as many as one tuple has together."""
    return [Others(others[at:at + MOST_OTHERS], scope, line) for at in range(0, len(others), MOST_OTHERS)]


def balanced(parts):
    """Parts as pairs of pairs, no deeper than they have to be: the deeper, the longer the searches for proofs."""
    if len(parts) == 1:
        return parts[0]
    half = (len(parts) + 1) // 2
    return Pair(balanced(parts[:half]), balanced(parts[half:]))


def leaf_parts(parts):
    """Parts, and in place of a tree of parts those that stand in it, but for what has a length."""
    found = []
    for part in parts:
        found += [part] if part.tree is None else [item.part for leaf in leaves_of(part.tree)
                                                   for item in getattr(leaf, "items", ())]
    return found


def leaves_of(tree_of_parts):
    """The numbers and the other parts in a tree, but for what has a length."""
    if isinstance(tree_of_parts, Pair):
        return leaves_of(tree_of_parts.first) + leaves_of(tree_of_parts.second)
    return leaves_of(tree_of_parts.before) if isinstance(tree_of_parts, Behind) else [tree_of_parts]


def known_at(place, at):
    """Where what is known of a tuple or a struct says what is known of one of its parts: behind its bytes and where
    they stand, each part in a pair with those behind it."""
    return f"{place}.1.1{'.1' * at}.0"


def known_parts(part, place):
    """A part, or in place of a tree of parts those that stand in it, but for what has a length, each with where what is
    known of the whole says what is known of it."""
    return [(part, place)] if part.tree is None else known_in(part.tree, place)


def known_in(tree_of_parts, place):
    """The parts that stand in a tree, but for what has a length, each with where what is known of it says so."""
    if isinstance(tree_of_parts, Pair):
        return known_in(tree_of_parts.first, known_at(place, 0)) + known_in(tree_of_parts.second, known_at(place, 1))
    if isinstance(tree_of_parts, Behind):
        return known_in(tree_of_parts.before, known_at(place, 0))
    if not isinstance(tree_of_parts, Others):
        return [(tree_of_parts.item.part, place)]
    held, items = known_at(place, 0), tree_of_parts.items
    return [(item.part, held if len(items) == 1 else known_at(held, at)) for at, item in enumerate(items)]


def depth_of(kind):
    """How deep a type nests."""
    return 1 + max((depth_of(part) for part in parts_of(kind)), default=0)


class LengthType:
    """The type that says a length: makes it beside the type that is made now."""

    def __init__(self, item, before, scope, owner):
        self.scope = scope
        self.item = item
        self.before = before
        self.label = item.access.label
        wanted = owner.replace("::", "") + camel(item.field.name or item.access.bound) + "Length"
        self.name = scope.fresh.name(wanted)
        self.variable = "n" if isinstance(before, Number) else "it"
        self.places = before.places(self.variable)
        self.length = Computed(item.field.options.length, self.named, {it[2] for it in self.places.values()})
        scope.ghosts |= {"codes"} | self.length.ghosts
        scope.ghost_paths |= self.length.ghost_paths
        scope.beside += [f"/// The length of [`{owner}::{self.label}`].",
                         f"{scope.helpers_shown}struct {self.name} {{}}", *self.lines()]

    def named(self, mention):
        """The term of a name."""
        path = path_of(mention)
        found = None if path is None else self.places.get(".".join(path))
        if found is not None:
            return Term(found[2], found[0], found[1])
        if not isinstance(mention, syntax.Mention):
            raise refused(mention)
        constant = self.scope.items[mention.path[0]]
        kind = type_text(self.scope.of_constant(constant.type))
        return number(mention.line, constant.name, expressions.number(constant.value, self.scope.constants), kind)

    def lines(self):
        """`impl Length`."""
        trait, option = self.scope.need("speedy::lengths", "Length"), self.scope.prelude("Option")
        used = {".".join(path_of(it)) for it in mentions(self.item.field.options.length)}
        pattern, numbers, alias = self.before.pattern(used), self.before.numbers(), []
        if len(numbers) > 60:
            alias = [f"type {self.scope.fresh.name(self.name + 'Numbers')} = {numbers};"]
            numbers = alias[0].split()[1]
        pattern = "_numbers" if pattern == "_" else pattern
        body = " ".join(self.length.code)
        return [*alias, f"impl {trait}<{numbers}> for {self.name} {{", *is_told_lines(self.variable, self.length), "",
                f"    ghost told = {{ {function(self.variable, self.length.told)} }};", "",
                f"    ghost field = {{ codes \"{self.label}\" }};", "",
                f"    fn length({pattern}: {numbers}) -> {option}<usize> {{ {body} }}", "",
                f"    fn field() -> &'static str {{ \"{self.label}\" }}", "}", ""]


def is_told_lines(variable, length):
    """The clause under which there is a length, with a condition a line where they do not fit."""
    one = f"    ghost is_told = {{ {function(variable, length.is_told())} }};"
    return [one] if len(one) <= 118 else one.replace(" × ", "\n        × ").split("\n")


def function(variable, clause):
    """A clause as a function of the numbers."""
    words = clause.replace("(", " ").replace(")", " ").split()
    is_used = any(word.partition(".")[0] == variable for word in words)
    return f"λ {variable if is_used else '_'}. {clause}"
