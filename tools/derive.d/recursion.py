"""Types with `depth`, whose values hold values of their own type: how each part holds them, level by level."""
import re
from dataclasses import dataclass

import syntax
from impls import Shape
from names import Fresh
from parts import PartMaker, Taken, built, fold, read_pattern, written_among
from rattle import Block, Call, Let, Listed, Match, Own, function, impl, is_listed, parts_of, type_text
from recursive_answers import LAYERS
from refusal import Refusal

# Which definitions a proof unfolds where a part holds the type so.
UNFOLDED = {"Own": ("own_layer",), "Itself": ("its_layer",), "Boxed": ("layer_of", "owned_layer"),
            "Optional": ("option_layer",), "Listed": ("layer_of", "list_layer"), "Both": ("pair_layer",),
            "Lent": ("layer_of",)}
# The types that a value may be held by, and how the library names that.
HOLDERS = {"Box": "Boxed", "Option": "Optional", "Vec": "Listed"}
PLAIN = ("a type with `depth` takes `skip` alone at its fields: put this one into a struct of its own, without "
         "`depth`, and hold that")


def holds(kind, name):
    """Whether a type, as Rattle has it, holds a type of the file."""
    return isinstance(kind, Own) and kind.name == name or any(holds(it, name) for it in parts_of(kind))


def nested(items, node):
    """Pairs of pairs: the first item, and behind it the others."""
    return items[0] if len(items) == 1 else node(items[0], nested(items[1:], node))


def paired(items):
    """The same as tuples of code."""
    return nested(items, lambda first, rest: Call("", (first, rest)))


@dataclass
class Held:
    """A field that holds values of the type, its type as Rattle has it, and how it holds them."""
    field: object
    access: object
    kind: object
    shape: str


@dataclass
class Marker:
    """A type that names parts, and whether they are read and written."""
    name: str
    lifetime: str
    is_read: bool = False
    is_written: bool = False


class Holding:
    """How the parts of a type hold values of it: the names of the library for that, and the types that are made to
    name parts that hold none."""

    def __init__(self, item, scope):
        self.item = item
        self.scope = scope
        # The library's definitions that proofs unfold.
        self.used = set()
        self.markers = {}
        fresh = Fresh(scope.fresh.taken)
        self.lent, self.context, self.reader, self.writer = (fresh.name(it) for it in "LCRW")

    def need(self, name):
        """A name of the library's."""
        self.used.update(UNFOLDED.get(name, ()))
        return self.scope.need("speedy::levels", name)

    def shape(self, kind):
        """How a type holds values of the item, as a type."""
        if not holds(kind, self.item.name):
            return self.own(kind)
        if isinstance(kind, Own):
            return self.need("Itself")
        if isinstance(kind, Listed) and kind.name in HOLDERS:
            return f"{self.need(HOLDERS[kind.name])}<{self.shape(kind.arguments[0])}>"
        if isinstance(kind, syntax.Tuple) and len(kind.parts) == 2:
            return self.both([self.shape(it) for it in kind.parts])
        if isinstance(kind, syntax.Tuple):
            raise Refusal(kind.line, f"`{self.item.name}` is held in pairs alone: write a longer tuple as "
                                     "`(A, (B, C))`, which has the same bytes")
        raise Refusal(kind.line, f"`{self.item.name}` holds itself by `Box`, `Option`, `Vec` and pairs alone: write "
                                 "its impls by hand")

    def both(self, shapes):
        """Parts one after another."""
        return nested(shapes, lambda first, rest: f"{self.need('Both')}<{first}, {rest}>")

    def of_lent(self, shape):
        """A part that is lent."""
        return f"{self.need('Lent')}<'t, {shape}>"

    def own(self, kind):
        """Parts of this type, which hold no value of the item, and are read and written so."""
        return self.marked(type_text(kind), True, True)

    def marked(self, text, is_read, is_written, is_lent=False):
        """Parts of a type, by a type that names them. What they are read or written as is kept, for its impls."""
        if text not in self.markers:
            lent = "Lent" * is_lent
            self.markers[text] = Marker(self.scope.fresh.name(f"{self.item.name}Own{lent}"), "<'t>" * is_lent)
        marker = self.markers[text]
        marker.is_read |= is_read and self.item.readable
        marker.is_written |= is_written and self.item.writable
        return f"{self.need('Own')}<{marker.name}{marker.lifetime}>"

    def lines(self):
        """The types that name parts, with their impls."""
        found, scope = [], self.scope
        for text, it in self.markers.items():
            body = f"{{ parts: {scope.need('std::marker', 'PhantomData')}<&'t ()> }}" if it.lifetime else "{}"
            kind, lifetimes = it.name + it.lifetime, ["'t"] if it.lifetime else []
            found += [f"/// Parts of a [`{self.item.name}`] that hold no other{', lent' if lifetimes else ''}.",
                      f"struct {kind} {body}", "",
                      *impl(lifetimes, self.need("OwnParts"), kind, "", [f"    type Parts = {text};"])]
            if it.is_read:
                found += impl(lifetimes, self.need("ReadOwn"), kind, "",
                              self.reading("read_own", "", text, "reader.read_value()"))
            if it.is_written:
                found += impl(lifetimes, self.need("WriteOwn"), kind, "",
                              self.writing("write_own", f"parts: &{text}", "writer.write_value(parts)"))
        return found

    def reading(self, name, before, value, body):
        """A function that reads."""
        scope = self.scope
        front = f"{self.lent}: {scope.need('std::convert', 'AsSlice')}<u8> + {scope.prelude('Drop')}"
        bound = f"{scope.need('speedy', 'LendingReader')}<{self.lent}, {self.context}>"
        head = f"fn {name}<{front}, {self.bound()}, {self.reader}: {bound}>({before}reader: &mut {self.reader})"
        return function(head, self.result(value), body)

    def writing(self, name, before, body):
        """A function that writes."""
        bound = f"{self.scope.need('speedy', 'Writer')}<{self.context}>"
        return function(f"fn {name}<{self.bound()}, {self.writer}: {bound}>({before}, writer: &mut {self.writer})",
                        self.result("()"), body)

    def read_arguments(self):
        """The arguments of a function that reads."""
        return f"{self.lent}, {self.context}, {self.reader}"

    def write_arguments(self):
        """The arguments of a function that writes."""
        return f"{self.context}, {self.writer}"

    def bound(self):
        """The parameter that is the context."""
        return f"{self.context}: {self.scope.need('speedy', 'Context')}"

    def result(self, value):
        """A result whose error is that of the context."""
        return f"{self.scope.prelude('Result')}<{value}, {self.context}::Error>"


class Fields:
    """The fields of a struct or of a variant: runs of those that hold no value of the type, as what is taken of them,
    and those that do, as `Held`."""

    def __init__(self, holding, owner, fields, accesses):
        self.holding = holding
        self.owner = owner
        self.fields = fields
        self.accesses = accesses
        self.maker = PartMaker(holding.item, holding.scope, owner)
        self.items, run = [], []
        for it, access in zip(fields, accesses):
            self.check(it)
            kind = holding.scope.convert(it.type, (), not holding.item.readable, it.options.skip)
            if it.options.skip or not holds(kind, holding.item.name):
                run.append((it, access))
                continue
            self.end(run)
            self.items.append(Held(it, access, kind, holding.shape(kind)))
            run = []
        self.end(run)

    @staticmethod
    def check(it):
        """Refuses settings by which a part is of another type than its field."""
        options = it.options
        if options.varint or options.length_type or options.constant is not None or options.length is not None \
                or options.is_rest or options.may_be_missing:
            raise Refusal(it.line, PLAIN)

    def end(self, run):
        """A run has ended."""
        if run:
            fields, accesses = zip(*run)
            self.items.append(self.maker.taken(list(fields), list(accesses)))

    def parts(self):
        """The items that have bytes."""
        return [it for it in self.items if isinstance(it, Held) or it.parts]

    def takens(self):
        """What is taken of the fields."""
        return [it for it in self.items if isinstance(it, Taken)]

    # Types.

    def read_shape(self):
        """How the parts are read, as a type."""
        return self.holding.both([it.shape if isinstance(it, Held)
                                  else self.holding.marked(type_text(it.type()), True, False) for it in self.parts()])

    def lent_shape(self):
        """How they are written, as a type."""
        return self.holding.both([self.holding.of_lent(it.shape) if isinstance(it, Held) else self.run_lent(it)
                                  for it in self.parts()])

    def run_lent(self, taken):
        """A run of parts that are lent."""
        part = self.holding.scope.need("speedy", "Part")
        written = str(written_among(taken, self.holding.scope))

        def lent(it):
            """The type of what is written of a part."""
            text = type_text(it.type)
            return f"{part}<'t, {text}>" if f"{part}({it.alone})" in written else text

        text = fold(taken.tree, lent, lambda its: f"({', '.join(its)})")
        return self.holding.marked(text, False, True, "'t" in text)

    def least(self):
        """A type of the same least size: of what holds the type, one of nothing."""
        found = []
        for it in self.parts():
            if isinstance(it, Taken):
                found.append(it.type())
            else:
                found.append(emptied(it.kind, self.holding.item.name))
        return nested(found, lambda first, rest: syntax.Tuple(self.holding.item.line, (first, rest)))

    # Clauses and code.

    def seen(self):
        """The parts of a value, as a tuple of clauses."""
        return self.each(lambda it: it.seen)

    def each(self, of):
        """The same tuple, of what each field has."""
        found = [of(it.access) if isinstance(it, Held) else fold(it.tree, of, list) for it in self.parts()]
        return nested(found, lambda first, rest: [first, rest])

    def read(self, names, head):
        """The pattern of what was read, the statements that take it apart, and what is made of it."""
        pattern, lets = self.apart(self.parts(), names)
        return pattern, Block(tuple(lets), Call(self.holding.scope.variant("Ok"), (built(*head, self.whole()),)))

    def whole(self):
        """All that is taken of the fields, with the value of each."""
        values = []
        for it in self.items:
            values += [it.access.bound] if isinstance(it, Held) else it.values
        return Taken(self.holding.item, self.fields, self.accesses, values=values)

    def apart(self, parts, names):
        """What parts are bound to, and the statements that take that apart, pair by pair."""
        if not parts:
            return "()", []
        first, lets = parts[0], []
        if isinstance(first, Held):
            pattern = first.access.bound
        else:
            pattern, lets = read_pattern(first)
        if isinstance(pattern, Call) or str(pattern) == "parts":
            own = names.name("own")
            pattern, lets = own, [Let(pattern, own), *lets]
        if len(parts) == 1:
            return pattern, lets
        rest, behind = self.apart(parts[1:], names)
        pair = names.name("parts")
        return pair, [Let(Call("", (pattern, rest)), pair), *lets, *behind]

    def written(self):
        """What is written of a value: a tuple of what is lent."""
        return paired([it.access.reference if isinstance(it, Held) else written_among(it, self.holding.scope)
                       for it in self.parts()])


def emptied(kind, name):
    """A type of the same least size that does not hold the type."""
    if is_listed(kind, "Option", "Vec"):
        return Listed(kind.line, kind.name, (syntax.Tuple(kind.line, ()),), kind.local)
    if is_listed(kind, "Box"):
        return emptied(kind.arguments[0], name)
    if isinstance(kind, syntax.Tuple):
        return syntax.Tuple(kind.line, tuple(emptied(it, name) if holds(it, name) else it for it in kind.parts))
    raise Refusal(kind.line, f"no value of `{name}` ends: hold it in an `Option` or a `Vec`")


class LevelShape(Shape):
    """What the impls of a type with `depth` are made of. `place` is the path of the module that holds it."""

    def __init__(self, item, scope, place):
        self.place = place
        if place is None:
            raise Refusal(item.line, "clauses name a type with `depth` by the module that holds it: write the module "
                                     "into a crate, as `crates/my_crate/src/messages.rt`, or say "
                                     "`--module my_crate::messages`")
        self.holding = Holding(item, scope)
        self.level = scope.fresh.name(f"{item.name}Level")
        self.levels = scope.fresh.name(f"{upper(item.name)}_LEVELS")

    def shaped(self, all_fields, scope):
        """Takes the fields, of each variant or of the struct."""
        item = self.holding.item
        if not any(isinstance(it, Held) for fields in all_fields for it in fields.items):
            raise Refusal(item.line, f"`{item.name}` holds no value of its own type: leave `depth` out")
        super().__init__(item, scope, [taken for fields in all_fields for taken in fields.takens()])
        fresh = Fresh(access.bound for fields in all_fields for access in fields.accesses)
        self.below = fresh.name("below")

    def lines(self):
        """The impls."""
        self.shapes()
        found = self.recursive() + self.layout_by_levels()
        if self.item.readable:
            found += self.read_level()
        if self.item.writable:
            found += self.write_level()
        self.scope.answers.update(self.answers())
        return self.holding.lines() + self.level_lines() + found

    def lent_alias(self, wanted, shape):
        """A name of what lent parts are written as: what it is applied to here."""
        name = self.scope.fresh.name(wanted)
        self.scope.beside += ["/// The same of what is lent.", f"type {name}<'t> = {shape};", ""]
        return f"{name}<'_>"

    def quoted_shape(self, shape):
        """What an impl says of a shape, as a clause quotes it."""
        return f"⟦<{shape} as {self.holding.need('Shape')}<{self.item.name}>>⟧"

    # What says the levels.

    def declared(self, name, words):
        """The import of what the kit says of a type of the module."""
        crate, *modules = self.place
        return f"    ghost use Rattle.{'.'.join([crate, 'specs.declared', *modules, name])}.{{{words}}};"

    def level_lines(self):
        """The type that counts levels, and the constant that has them all."""
        scope, level, name = self.scope, self.level, self.item.name
        scope.ghosts.add("ℕ")
        scope.ghost_paths |= {f"{LAYERS}.levels_above", f"{LAYERS}.at_level"}
        return [f"/// The levels that are left for a [`{name}`].", "#[derive(Drop)]",
                f"struct {level}({scope.prelude('Option')}<&'static {level}>);", "",
                *impl([], self.holding.need("Levels"), level, "", [
                    self.declared(level, f"fold-{level}"), "",
                    f"    ghost levels = {{ fold-{level} ℕ (λ level. levels_above level.0) }};"]),
                f"/// A [`{name}`] has at most so many levels.",
                f"const {self.levels}: &{level} = {self.chain()};", ""]

    def chain(self):
        """So many levels: of the powers of two in their number, the greatest first."""
        macro, depth, found = self.scope.need("speedy", "level_chain"), self.item.depth, ""
        for power in (1 << place for place in range(depth.bit_length()) if depth >> place & 1):
            found = f"{macro}!({power}, {self.level}{', ' if found else ''}{found})"
        return found

    def recursive(self):
        """`impl Recursive`."""
        return impl([], self.holding.need("Recursive"), self.item.name, "", self.recursive_lines())

    def layout_by_levels(self):
        """`impl Layout`."""
        at = f"(at_level ⟦<{self.item.name} as {self.holding.need('Recursive')}>⟧.layer {self.item.depth})"
        return impl([], self.scope.need("speedy", "Layout"), self.item.name, "", [
            f"    ghost Seen = {{ {at}.Value }};", "", f"    ghost seen = {{ {at}.view }};", "",
            f"    ghost layout = {{ {at}.codec }};"])

    # Reading and writing.

    def read_level(self):
        """`impl ReadLevel` and `impl ReadFrom`."""
        name, trait = self.item.name, self.holding.need("ReadLevel")
        lines = self.holding.reading("read_level", "&self, ", name, f"{self.take_level()} {self.read_body()}")
        read = f"{trait}::<{name}>::read_level::<{self.holding.read_arguments()}>({self.levels}, reader)"
        return impl([], f"{trait}<{name}>", self.level, "", lines) + self.read_from(read)

    def read_below(self, shape):
        """A read of what holds the type."""
        read = f"{self.holding.need('ReadBelow')}::<{self.item.name}, {shape}>::read_below"
        return f"{read}::<{self.holding.read_arguments()}>({self.below}, reader)"

    def read_match(self, read, pattern, made):
        """A read, and what is made of what it reads."""
        ok, err = self.scope.variant("Ok"), self.scope.variant("Err")
        return Match(read, ((Call(ok, (pattern,)), made), (f"{err}(error)", f"{err}(error)")))

    def write_level(self):
        """`impl WriteLevel` and `impl Writable`."""
        name, trait = self.item.name, self.holding.need("WriteLevel")
        lines = self.holding.writing("write_level", f"&self, value: &{name}",
                                     f"{self.take_level()} {self.write_body()}")
        write = f"{trait}::<{name}>::write_level::<{self.holding.write_arguments()}>({self.levels}, self, writer)"
        return impl([], f"{trait}<{name}>", self.level, "", lines) \
            + self.writing("speedy", "Writable", self.writer("write_to", write))

    def write_below(self, shape, parts):
        """A write of what holds the type."""
        write = f"{self.holding.need('WriteBelow')}::<{self.item.name}, {shape}>::write_below"
        return f"{write}::<{self.holding.write_arguments()}>({self.below}, {parts}, writer)"

    def take_level(self):
        """The level below, or else an error."""
        some, err = self.scope.variant("Some"), self.scope.variant("Err")
        refused = self.scope.need("speedy::private", "error_out_of_range_length")
        return f"let {some}({self.below}) = &self.0 else {{ return {err}({refused}()); }};"


def upper(name):
    """`SomeName` as `SOME_NAME`."""
    return re.sub(r"(?<=[a-z0-9])(?=[A-Z])", "_", name).upper()
