"""Has the types of a library borrow the texts, the bytes and the lists that those of the file own: they have the same
encodings, and can be shown where they lie. A type that holds such a type takes its lifetime."""
from dataclasses import replace

import syntax
from known import ENCODED_LIST, IN_PLACE_BYTES, LISTED

# What owns a text, bytes or a list, and where its name comes from.
OWNING, HOMES = ("String", "Vec", "Box", "Cow", "Option"), ("std", "alloc", "core")
# A field with one of these words in an attribute stays as it is: its type needs a default.
KEPT = ("skip", "default_on_eof")
# A list with this word in its `length` is the rest of the bytes, which no list is that is lent.
REST = ".."
# A field with one of these has bytes of its own, and stands in no item of a list that is lent.
OWN_BYTES = ("length", "length_type", "constant_prefix", "varint")
# What compares what it holds, or fills its room with defaults. A list that is lent has neither.
COMPARING = ("BTreeMap", "BTreeSet", "HashMap", "HashSet", "IndexMap", "IndexSet", "SmallVec")


def lend(file, kept):
    """Has the types of a file borrow, but those whose paths are `kept`. Returns the paths of those that do."""
    found, named, lent, gained = all_items(file), names_of(file), set(), set()
    if named & set(OWNING):
        return lent
    listing = Listing(found, named)
    for path, item in found.items():
        if path not in kept and is_simple(item) and any(listing.lent(it, "'a", path) for it in fields(item)):
            held = holding(path, found, named)
            if held:
                lent.add(path)
                gained |= {it for it in held if not lifetime(found[it])}
    for path in gained:
        item = found[path]
        item.parameters.insert(0, syntax.Parameter(item.line, "lifetime", "'a"))
    for path, item in found.items():
        name = lifetime(item)
        for it in fields(item):
            if path in lent:
                it.type = listing.lent(it, name, path) or it.type
                listing.mark(it.type, path)
            it.type = with_lifetimes(it.type, name, path, gained)
    for it in [it for item in found.values() if item.in_place for it in fields(item)]:
        it.type = in_place(it.type)
    return lent


def all_items(file, path=()):
    """The structs and enums of a file, by their paths."""
    found = {}
    for item in file.items:
        if isinstance(item, syntax.Module):
            found |= all_items(item.file, (*path, item.name))
        elif isinstance(item, (syntax.Struct, syntax.Enum)):
            found[*path, item.name] = item
    return found


def names_of(file):
    """The names that a `use`, an alias or a constant of a file or of its modules has, but those of std."""
    found = {it.path[-1] for it in file.uses if it.path[0] not in HOMES}
    for item in file.items:
        if isinstance(item, syntax.Module):
            found |= names_of(item.file)
        elif isinstance(item, (syntax.Alias, syntax.Constant)):
            found |= {it[-1] for it in syntax.paths_in(item.type)} - set(OWNING)
    return found


def fields(item):
    """The fields of an item."""
    return [it for variant in syntax.variants_of(item) for it in variant.fields]


def lifetime(item):
    """The lifetime that an item has, or None."""
    return next((it.name for it in item.parameters if it.kind == "lifetime"), None)


def words(attributes):
    """The words in the attributes of a field or an item."""
    return {token.text for it in attributes for token in it.tokens}


def is_simple(item):
    """Whether an item has no more parameters than a lifetime, and no levels of its own type."""
    return len(item.parameters) == (lifetime(item) is not None) and not item.wheres and "depth" not in words(
        item.attributes) and not any(words(it.attributes) & set(KEPT) for it in fields(item))


def holding(path, found, named):
    """The paths of a type and of all that hold it, or none where one of these cannot take a lifetime."""
    held, waiting = {path}, [path]
    while waiting:
        last = waiting.pop()
        for other, item in found.items():
            names = set().union(*(syntax.paths_in(it.type) for it in fields(item)))
            if any(name[-1] == last[-1] and (len(name) > 1 or other[:-1] != last[:-1]) for name in names):
                return set()
            if (last[-1],) in names and other not in held:
                held.add(other)
                waiting.append(other)
    return held if all(is_simple(found[it]) and it[-1] not in named for it in held) else set()


class Listing:
    """What the types of a file borrow: `named` are names that stand for what else the file has."""

    def __init__(self, found, named):
        self.found, self.named = found, named
        self.held = {path: held_by(path, found) for path in found}
        keys = {it for path, item in found.items() for field in fields(item) for it in compared(field.type, path)}
        self.compared = keys.union(*(self.reached(it) for it in keys if it in found))

    def reached(self, path):
        """The paths of a type and of all that it holds."""
        seen, waiting = set(), [path]
        while waiting:
            last = waiting.pop()
            if last not in seen:
                seen.add(last)
                waiting += self.held[last]
        return seen

    def lent(self, field, name, path):
        """The type that borrows of a field of the type at a path, or None."""
        takes_lists = path not in self.compared and REST not in words(field.attributes)
        return self.lent_type(field.type, name, path, takes_lists)

    def lent_type(self, kind, name, path, takes_lists):
        """The type that borrows of one that owns a text, bytes or a list, also in an option, or None."""
        if isinstance(kind, syntax.Named) and (len(kind.path) != 1 or (*path[:-1], kind.path[0]) in self.found):
            return None
        if isinstance(kind, syntax.Named) and kind.path == ("Option",) and len(kind.arguments) == 1:
            inner = self.lent_type(kind.arguments[0], name, path, takes_lists)
            return inner and replace(kind, arguments=(inner,))
        lent = lent_text(kind, name)
        items = self.listed(items_of(kind), name, path) if lent is None and takes_lists else None
        return syntax.Named(kind.line, ENCODED_LIST, (syntax.Lifetime(kind.line, name), items)) if items else lent

    def listed(self, items, name, path):
        """The type of the items of a list in the type at a path, as one that is lent holds them, or None."""
        if isinstance(items, syntax.Reference):
            return items if not items.mutable and is_unsized(items.target) else None
        is_own = isinstance(items, syntax.Named) and (*path[:-1], items.path[0]) in self.found
        lent = None if is_own else lent_text(items, name)
        return lent or (items if self.is_shown(items, path) else None)

    def is_shown(self, items, path):
        """Whether a list of such items in the type at a path may be shown: these are numbers, flags or characters, or
        of a type of the file that does not hold that one."""
        if not isinstance(items, syntax.Named) or len(items.path) != 1:
            return False
        other = (*path[:-1], items.path[0])
        if other in self.found:
            return path not in self.reached(other) and all(self.lies_in_place(it) for it in self.reached(other))
        return items.path[0] in LISTED and items.path[0] not in self.named

    def lies_in_place(self, path):
        """Whether a list may show values of a type where it lies. Arrays are read as lists are, which may take memory:
        bytes alone are held without, where nothing compares them."""
        item = self.found[path]
        return is_simple(item) and not any(
            words(it.attributes) & set(OWN_BYTES) or has_array(it.type if path in self.compared else in_place(it.type))
            for it in fields(item))

    def mark(self, kind, path):
        """Marks the types that a list holds which a field has now."""
        if isinstance(kind, syntax.Named) and kind.path == ("Option",):
            self.mark(kind.arguments[0], path)
        if isinstance(kind, syntax.Named) and kind.path == ENCODED_LIST:
            items = kind.arguments[-1]
            other = (*path[:-1], items.path[0]) if isinstance(items, syntax.Named) else None
            if other in self.found:
                self.found[other].in_list = True
                for it in self.reached(other):
                    self.found[it].in_place = True


def in_place(kind):
    """A type with bytes by value as a list holds them that lies where it was read, also in an option."""
    if isinstance(kind, syntax.Named) and kind.path == ("Option",):
        return replace(kind, arguments=tuple(map(in_place, kind.arguments)))
    is_bytes = isinstance(kind, syntax.Array) and is_byte([kind.item]) and isinstance(kind.length, syntax.Literal)
    return syntax.Named(kind.line, IN_PLACE_BYTES, (kind.length,)) if is_bytes and kind.length.token.value else kind


def has_array(kind):
    """Whether an array stands in a type."""
    inner = getattr(kind, "arguments", None) or getattr(kind, "parts", ())
    return isinstance(kind, syntax.Array) or any(map(has_array, inner))


def held_by(path, found):
    """The paths of the types of a file that a type names."""
    names = set().union(*(syntax.paths_in(it.type) for it in fields(found[path])))
    return {(*path[:-1], it[0]) for it in names if len(it) == 1} & set(found)


def compared(kind, path):
    """The paths of what stands in a type, in a map, a set or a `SmallVec`."""
    if isinstance(kind, syntax.Named) and kind.path[-1] in COMPARING:
        return {(*path[:-1], it[-1]) for it in syntax.paths_in(kind)}
    inner = getattr(kind, "arguments", None) or getattr(kind, "parts", ())
    inner = [*inner, *(getattr(kind, it) for it in ("item", "target") if hasattr(kind, it))]
    return set().union(*(compared(it, path) for it in inner))


def items_of(kind):
    """What a list holds that is owned or lent, or None, also of bytes."""
    target = kind.target if isinstance(kind, syntax.Reference) and not kind.mutable else None
    if isinstance(kind, syntax.Named) and kind.path in (("Vec",), ("Box",), ("Cow",)):
        given = [it for it in kind.arguments if not isinstance(it, syntax.Lifetime)]
        target = given[0] if len(given) == 1 else None
        if kind.path == ("Vec",) and target is not None:
            return None if is_byte([target]) else target
    return target.item if isinstance(target, syntax.Slice) and not is_byte([target.item]) else None


def lent_text(kind, name):
    """The type that borrows of one that owns a text or bytes, or None."""
    if not isinstance(kind, syntax.Named):
        return None
    given = [it for it in kind.arguments if not isinstance(it, syntax.Lifetime)]
    target = None
    if kind.path == ("String",) and not given:
        target = syntax.Named(kind.line, ("str",))
    elif kind.path == ("Vec",) and is_byte(given):
        target = syntax.Slice(kind.line, given[0])
    elif kind.path in (("Box",), ("Cow",)) and len(given) == 1 and is_unsized(given[0]):
        target = given[0]
    return target and syntax.Reference(kind.line, syntax.Lifetime(kind.line, name), False, target)


def is_byte(given):
    """The type, where it is one alone, and `u8`."""
    return given[0] if len(given) == 1 and isinstance(given[0], syntax.Named) and given[0].path == ("u8",) else None


def is_unsized(kind):
    """Whether a type is `str` or `[u8]`."""
    if isinstance(kind, syntax.Slice):
        return is_byte([kind.item]) is not None
    return isinstance(kind, syntax.Named) and kind.path == ("str",)


def with_lifetimes(kind, name, path, gained):
    """A type in which those that took a lifetime are given one."""
    if isinstance(kind, syntax.Tuple):
        return replace(kind, parts=tuple(with_lifetimes(it, name, path, gained) for it in kind.parts))
    if isinstance(kind, (syntax.Array, syntax.Slice)):
        return replace(kind, item=with_lifetimes(kind.item, name, path, gained))
    if isinstance(kind, syntax.Reference):
        return replace(kind, target=with_lifetimes(kind.target, name, path, gained))
    if not isinstance(kind, syntax.Named):
        return kind
    given = tuple(with_lifetimes(it, name, path, gained) for it in kind.arguments)
    if len(kind.path) == 1 and (*path[:-1], kind.path[0]) in gained:
        given = (syntax.Lifetime(kind.line, name), *given)
    return replace(kind, arguments=given)
