"""Structs whose fields the lengths of other types name: which these are, and the impls by which they tell numbers."""
from dataclasses import dataclass

import rattle
import syntax
from arithmetic import BITS, TAKEN
from expressions import mentions, path_of
from names import parameter
from rattle import Call, Foreign, Own, clause_lines, type_text
from refusal import Refusal


# Which they are.

def find(items, scope):
    """The labels of the fields that lengths name, by the names of their structs."""
    found = {}
    for item in items:
        for variant in syntax.variants_of(item):
            by_name = {it.name or f"t{place}": it for place, it in enumerate(variant.fields)}
            for mention in (it for field in variant.fields for it in mentions(field.options.length)):
                root, *path = path_of(mention)
                if path and root in by_name and not by_name[root].options.skip:
                    follow(mention.line, [root, *path], item, by_name[root], scope, found)
    return found


def follow(line, path, owner, field, scope, found):
    """Takes the fields that a path names, of which the last one is a number."""
    for name, label in zip(path, path[1:]):
        struct = struct_of(line, name, scope.of_field(field, owner), scope)
        held = next((it for place, it in enumerate(struct.fields) if (it.name or str(place)) == label), None)
        if held is None:
            raise Refusal(line, f"`{struct.name}` has no field `{label}`")
        if held.options.skip:
            raise Refusal(line, f"`{label}` of `{struct.name}` has no bytes, and so tells no length")
        found.setdefault(struct.name, set()).add(label)
        owner, field = struct, held
    kind = "u64" if field.options.varint else type_text(scope.of_field(field, owner))
    if kind not in BITS:
        raise Refusal(line, f"`{path[-1]}` tells no length: its type is none of {TAKEN}")


def struct_of(line, name, kind, scope):
    """The struct of the file that a type is."""
    item = scope.items.get(kind.name) if isinstance(kind, Own) else None
    if isinstance(item, syntax.Struct):
        return item
    if isinstance(item, syntax.Enum):
        raise Refusal(line, f"`{name}` is an enum, whose fields tell no length of others")
    if isinstance(kind, syntax.Tuple):
        raise Refusal(line, f"`{name}` is a tuple, whose places tell no length: make a struct of it")
    if isinstance(kind, Foreign):
        raise Refusal(line, f"`{name}` is of a type of another file: a length names fields of structs of this one")
    raise Refusal(line, f"`{name}` is no struct of this file, whose fields may tell a length")


# How they hold the numbers: as a tree, of which a leaf is a field that is named, or None for what tells nothing.

@dataclass
class Leaf:
    """A field that lengths name: a number, or a struct that holds some."""
    item: object
    kind: str
    inner: object = None


class Holding:
    """The numbers that a struct holds. `tree` has its items as what is seen of it has them: a tuple is a list."""

    def __init__(self, tree, labels, scope):
        self.scope = scope
        self.labels = labels
        self.tree = self.held(tree)

    def held(self, tree):
        """The tree of what is named; a tuple without such a field tells nothing."""
        if isinstance(tree, list):
            found = [self.held(it) for it in tree]
            return found if any(it is not None for it in found) else None
        if tree is None or tree.field is None or tree.access.label not in self.labels:
            return None
        kind = tree.part.type
        return Leaf(tree, "u64" if tree.field.options.varint else type_text(kind),
                    self.scope.holding[kind.name] if isinstance(kind, Own) else None)

    def type(self):
        """The type of the numbers."""
        return str(folded(self.tree, "()", lambda it: it.inner.type() if it.inner else it.kind))

    def value(self):
        """The numbers of a value."""
        return folded(self.tree, "()",
                      lambda it: f"{it.item.access.value}.numbers()" if it.inner else it.item.access.value)

    def clause(self):
        """The numbers, of what is seen, which is bound to `it`."""
        return seen_at(self.tree, "it", lambda leaf, path: path if leaf.inner is None
                       else f"⟦<{leaf.kind} as {self.scope.need('speedy::lengths', 'Holds')}>⟧.numbers {path}")

    def places(self, name, path):
        """Where the numbers of the field `name` stand: by their paths in the source, a clause and a type."""
        found = {}
        for leaf, at in leaves(self.tree, path):
            inner = f"{name}.{leaf.item.access.label}"
            found |= leaf.inner.places(inner, at) if leaf.inner else {inner: (at, leaf.kind)}
        return found

    def pattern(self, name, bound):
        """A pattern of the numbers of the field `name`, which binds those that `bound` has a name for."""
        def leaf(it):
            inner = f"{name}.{it.item.access.label}"
            return it.inner.pattern(inner, bound) if it.inner else bound.get(inner, "_")

        found = folded(self.tree, "_", leaf)
        return found if not isinstance(found, Call) or any(it != "_" for it in found.items) else "_"


def folded(tree, nothing, leaf):
    """What a tree makes: of a tuple a tuple."""
    if isinstance(tree, list):
        return Call("", tuple(folded(it, nothing, leaf) for it in tree))
    return nothing if tree is None else leaf(tree)


def seen_at(tree, path, leaf):
    """A tree of clauses, of what is seen at a path: of a tuple that is pairs, which nest to the right."""
    if isinstance(tree, list):
        ends = [".0"] * (len(tree) - 1) + [""]
        return [seen_at(it, f"{path}{'.1' * place}{end}", leaf) for place, (it, end) in enumerate(zip(tree, ends))]
    return "tt" if tree is None else leaf(tree, path)


def leaves(tree, path):
    """The leaves of a tree of numbers, each with its clause."""
    if isinstance(tree, list):
        return [found for place, it in enumerate(tree) for found in leaves(it, f"{path}.{place}")]
    return [] if tree is None else [(tree, path)]


def names_of(holding, name, fresh):
    """The variables of the numbers of the field `name`, by their paths."""
    return {path: parameter(fresh.name(path.replace(".", "_"))) for path in holding.places(name, "it")}


# The impls.

def impls(shape, holding):
    """The impls of a struct that holds numbers."""
    scope, module = shape.scope, "speedy::lengths"
    quoted, numbers = shape.quoted(shape.self_type), holding.type()
    found = shape.laying_out(scope.need(module, "Holds"), [
        f"    type Numbers = {numbers};", "", f"    ghost Seen = {{ {quoted}.Seen }};", "",
        f"    ghost seen = {{ {quoted}.seen }};", "", f"    ghost layout = {{ {quoted}.layout }};", "",
        *clause_lines(4, "ghost numbers = { λ it. ", holding.clause(), " };"), "",
        *rattle.function("fn numbers(&self)", numbers, holding.value())])
    if shape.item.readable:
        found += shape.reading(module, "ReadHolds", [
            *shape.reader("read_parts", "", "reader.read_value()"), "", *shape.least_lines("least_size")])
    if shape.item.writable:
        found += shape.writing(module, "WriteHolds", shape.writer("write_parts", "writer.write_value(self)"))
    return found
