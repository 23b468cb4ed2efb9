"""How visible the types of a file are. Rattle has no type that is less visible than a field or an alias that names it,
which Rust takes with a lint: so such a type, in whatever module of the file, is made as visible as these."""
from dataclasses import dataclass

import attributes
import syntax

# From how deep a module on an item is visible: from the file's own module 0, from that above it -1; or in the whole
# crate, or in all crates.
CRATE, ALL = -2, -3
# So many imports may lead from one name to another.
MOST_STEPS = 20


@dataclass
class Place:
    """A module of the file: its path from the file's own module, its items and the paths of its imports by their names,
    and the paths of those that bring all names."""
    path: tuple
    items: dict
    uses: dict
    globs: list

    @property
    def depth(self):
        """How deep it lies."""
        return len(self.path)


def raise_all(file, place, notes):
    """Makes each type as visible as what names it. `place` is the path of the file's module, where that is known."""
    modules = {it.path: it for it in modules_of(file, ())}
    found = [it for module in modules.values() for it in Mentions(module, modules, place).all()]
    named_by, has_changed = {}, True
    while has_changed:
        has_changed = False
        for holder, field, item, depths in found:
            shown = reach(holder.visibility, depths[0])
            if field is not None:
                shown = max(shown, reach(field.visibility, depths[0]))
            if shown < reach(item.visibility, depths[1]):
                item.visibility = visibility_of(shown, depths[1])
                named_by[id(item)] = (item, holder)
                has_changed = True
    for item, holder in named_by.values():
        notes.append((item.line, f"`{item.name}` is made `{item.visibility.strip()}`: `{holder.name}` names it, and in "
                                 "Rattle a type is as visible as what names it"))


def modules_of(file, path):
    """The file's own module and those in it."""
    found = [Place(path, {it.name: it for it in file.items}, {it.name: it.path for it in file.uses},
                   [it.path for it in file.uses if it.name == "*"])]
    for item in file.items:
        if isinstance(item, syntax.Module):
            found += modules_of(item.file, (*path, item.name))
    return found


def reach(visibility, depth):
    """From how deep a module on something in a module is visible."""
    return {"": depth, "pub(super) ": depth - 1, "pub(crate) ": CRATE, "pub ": ALL}[visibility]


def visibility_of(shown, depth):
    """The visibility of an item in a module that is to be seen from so deep on."""
    if shown == ALL:
        return "pub "
    return {depth: "", depth - 1: "pub(super) "}.get(shown, "pub(crate) ")


class Mentions:
    """Finds which types of the file the items of a module name."""

    def __init__(self, module, modules, place):
        self.module = module
        self.modules = modules
        self.place = place

    def all(self):
        """Each mention: the item that names, its field that does so if the field says how visible that is, the item
        that is named, and how deep both lie."""
        found = []
        for item in self.module.items.values():
            for field, kind in kinds_of(item):
                names = {it.name for it in getattr(item, "parameters", ())}
                for named, depth in self.named(kind, names, self.module, MOST_STEPS):
                    if named is not item:
                        found.append((item, field, named, (self.module.depth, depth)))
        return found

    def named(self, kind, parameters, module, steps):
        """The types of the file that a type names, with how deep each lies: by aliases, which stand for their own."""
        found = []
        for path in syntax.paths_in(kind):
            if len(path) == 1 and path[0] in parameters:
                continue
            item, at = self.resolved(path, module, steps)
            if item is None:
                continue
            if isinstance(item, syntax.Alias) and steps > 0:
                names = {it.name for it in item.parameters}
                found += self.named(item.type, names, at, steps - 1)
            if isinstance(item, syntax.Declared) or at is not module:
                found.append((item, at.depth))
        return found

    def resolved(self, path, module, steps, with_globs=True):
        """The item that a path stands for in a module, with its module; or nothing. What one `use` brings whole is not
        looked for in others."""
        if steps == 0 or module is None or not path:
            return None, None
        first, rest = path[0], path[1:]
        if first in ("self", "super", "crate"):
            return self.resolved(*self.from_keyword(first, rest, module), steps - 1, with_globs)
        item = module.items.get(first)
        if isinstance(item, syntax.Module):
            return self.resolved(rest, self.modules[(*module.path, first)], steps - 1, with_globs)
        if item is not None:
            return (None, None) if rest or isinstance(item, syntax.Constant) else (item, module)
        if first in module.uses:
            return self.resolved((*module.uses[first], *rest), module, steps - 1, False)
        found = (self.resolved((*glob, *path), module, steps - 1, False) for glob in module.globs if with_globs)
        return next((it for it in found if it[0] is not None), (None, None))

    def from_keyword(self, word, rest, module):
        """The rest of a path behind `self`, `super` or `crate`, and the module that it goes on from, or None."""
        if word == "self":
            return rest, module
        if word == "super":
            return rest, self.modules.get(module.path[:-1]) if module.path else None
        above = tuple(self.place[1:]) if self.place else ()
        is_here = self.place is not None and rest[:len(above)] == above
        return rest[len(above):], self.modules[()] if is_here else None


def kinds_of(item):
    """The types that an item names where others see them, each with the field that says how visible it is, or None.
    The parts of a struct that may end early are named where the struct is: by what makes it of them."""
    if isinstance(item, syntax.Alias):
        return [(None, item.type)]
    if isinstance(item, syntax.Enum):
        return [(None, it.type) for variant in item.variants for it in variant.fields]
    if not isinstance(item, syntax.Struct):
        return []
    ends_early = any(attributes.has_setting(it, "default_on_eof") for it in item.fields)
    return [(None if ends_early and not attributes.is_skipped(it) else it, it.type) for it in item.fields]
