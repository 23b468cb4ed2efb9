"""Makes the module: the types as Rattle has them, and their impls."""
from dataclasses import replace

import asked
import attributes
import expressions
import holders
import rattle
import syntax
import visibility
from enums import by_discriminant, enum_lines
from generics import Generics
from lend import lend
from names import field_name
from parse import parse
from rattle import type_text
from refusal import Refusal
from scope import Scope
from structs import struct_lines
from whole import ends_early, ends_with_input


class Made:
    """A made module: its text, and notes on what was left out."""

    def __init__(self, source, name, place, kept=None):
        """Where there are `kept`, the types of the file that may borrow do, but those of these paths: `lent` has which.
        """
        self.notes = []
        try:
            self.file = parse(source)
            self.lent = set() if kept is None else lend(self.file, kept)
            self.raw = self.made(self.file, name, place)
        except RecursionError as error:
            raise Refusal(1, "a name of this file leads to others on and on: write out what it stands for") from error

    def made(self, file, name, place):
        """The text, as it is before it is laid out."""
        by = "`tools/derive --library`" if self.lent else "`tools/derive`"
        made = f"Made from `{name}` by {by}: change that, and make this again."
        docs = [f"//!{line}".rstrip() for line in file.docs]
        # Proofs by hand, by their paths below the crate's folder.
        self.answers = {}
        # What clauses import: from `Prelude`, and by the paths of others. No module in the file imports it itself.
        self.ghosts = set()
        self.ghost_paths = set()
        visibility.raise_all(file, place, self.notes)
        body = ModuleMaker(file, self, place).lines()
        if not any(isinstance(item, (syntax.Declared, syntax.Module)) for item in file.items):
            raise Refusal(1, "this file declares no type that derives `Readable` or `Writable`")
        docs += ["//!"] if docs else []
        return "\n".join([*docs, f"//! {made}", *self.ghost_lines(), *body]) + "\n"

    def ghost_lines(self):
        """The imports of clauses."""
        by_module = {}
        for path in sorted(self.ghost_paths | {f"Rattle.std.specs.Prelude.{name}" for name in self.ghosts}):
            module, _, name = path.rpartition(".")
            by_module.setdefault(module, []).append(name)
        ordered = sorted(by_module.items(), key=lambda it: not it[0].endswith(".Prelude"))
        return [f"ghost use {module}.{{{', '.join(some)}}};" for module, names in ordered
                for some in rattle.in_lines(names, rattle.CLAUSE_WIDTH - len(f"ghost use {module}.{{}};"))]

    @property
    def text(self):
        """The whole text, as the kit's formatter lays it out."""
        found = rattle.formatted(self.raw)
        if found is None:
            raise Refusal(1, "what is made of this file is no module of Rattle: please report it, with this file")
        return found


class ModuleMaker:
    """Makes the items of a file, or of a module in it, whose path `place` is. `made` has the notes and the answers."""

    def __init__(self, file, made, place):
        self.file = file
        self.made = made
        self.notes = made.notes
        self.place = place
        self.notes.extend(file.notes)
        self.scope = Scope(file, made)
        for item in file.items:
            if isinstance(item, syntax.Declared):
                attributes.of_item(item, self.scope)
                if item.depth:
                    name_itself(item)
        # Those that derive neither trait, and are made without impls, since fields that are skipped hold them.
        self.plain = plain_types(file.items)
        file.items = [item for item in file.items if self.is_made(item)]
        self.scope.take_names()
        self.ordered = in_order(file.items)

    def is_made(self, item):
        """Whether an item is made. What is not stays in the source, with a note."""
        if isinstance(item, syntax.Module):
            is_test = any(it.name == "cfg" and any(token.text == "test" for token in it.tokens)
                          for it in item.attributes)
            if is_test or not has_types(item.file):
                self.notes.append((item.line, f"the module `{item.name}` is left out of what is made"))
                del self.scope.items[item.name]
                return False
        is_plain = isinstance(item, syntax.Declared) and syntax.is_plain(item)
        if isinstance(item, syntax.Declared) and item.refusal and (not is_plain or item.name in self.plain):
            raise item.refusal
        if is_plain:
            left = "is made without impls, since a field with `skip` holds it" if item.name in self.plain else \
                "is left out of what is made: it stays in this file"
            self.notes.append((item.line, f"`{item.name}` derives neither `Readable` nor `Writable`, and {left}"))
            return item.name in self.plain
        return True

    def lines(self):
        """The imports and the items."""
        for item in self.ordered:
            self.set_options(item)
        self.scope.telling = holders.find(self.ordered, self.scope)
        made = {id(item): self.item_lines(item) for item in self.ordered}
        head = []
        for (visibility, module), names in self.scope.imports.items():
            front = f"{module}::" if module else ""
            head.append(f"{visibility}use {front}{{{', '.join(sorted(names))}}};")
        return head + [""] + [line for item in self.file.items for line in made[id(item)]]

    def item_lines(self, item):
        """An item and its impls."""
        if isinstance(item, syntax.Module):
            place = None if self.place is None else [*self.place, item.name]
            inner = ModuleMaker(item.file, self.made, place).lines()
            head = [f"//!{line}".rstrip() for line in item.file.docs]
            return [*docs(item), f"{item.visibility}mod {item.name} {{", *head, *inner, "}", ""]
        if isinstance(item, syntax.Constant):
            kind = type_text(self.scope.of_constant(item.type))
            value = expressions.without_lost_bits(item.value, self.scope.constants)
            value = expressions.written(value, self.of_cast)
            return [*docs(item), f"{item.visibility}const {item.name}: {kind} = {value};", ""]
        if isinstance(item, syntax.Alias):
            return self.alias_lines(item)
        self.scope.beside = []
        self.scope.helpers_shown = item.visibility if ends_early(item) else ""
        if isinstance(item, syntax.Struct) and ends_with_input(item):
            self.scope.ending.add(item.name)
        declared = Declaration(item, self.scope, self.of_cast).lines()
        if syntax.is_plain(item):
            asked.of_plain(item, self.scope)
            return declared + [""]
        if isinstance(item, syntax.Enum):
            made = enum_lines(item, self.scope, self.place)
        else:
            made = struct_lines(item, self.scope, self.place)
        return declared + [""] + self.scope.beside + made

    def alias_lines(self, item):
        """An alias, or nothing where it is of what is neither read nor written: a field that names it says so."""
        imported = self.scope.imported()
        try:
            kind = self.scope.convert(item.type, item.parameters, True, item.name in self.plain)
        except Refusal:
            self.scope.import_only(imported)
            self.notes.append((item.line, f"the alias `{item.name}` is left out of what is made: it stays in this "
                                          "file"))
            return []
        head = f"{item.visibility}type {item.name}{rattle.listed([self.parameter(it) for it in item.parameters])}"
        return [*docs(item), f"{head} = {type_text(kind)};", ""]

    def parameter(self, parameter):
        """A parameter of an alias."""
        if parameter.kind != "const":
            return parameter.name
        return f"const {parameter.name}: {type_text(self.scope.convert(parameter.constant_type))}"

    def of_cast(self, kind):
        """The type that a constant is cast to."""
        return "isize" if names_of(kind) == {"isize"} else type_text(self.scope.of_constant(kind))

    def set_options(self, item):
        """Reads the attributes of the fields."""
        for field in (field for variant in syntax.variants_of(item) for field in variant.fields):
            field.options = attributes.of_field(field, self.notes)


def name_itself(item):
    """Puts the name of a type in place of `Self` in its fields."""
    for variant in item.variants if isinstance(item, syntax.Enum) else [item]:
        for field in variant.fields:
            field.type = renamed(field.type, item.name)


def renamed(kind, name):
    """A type of the source with a name in place of `Self`."""
    if isinstance(kind, syntax.Tuple):
        return replace(kind, parts=tuple(renamed(it, name) for it in kind.parts))
    if isinstance(kind, (syntax.Array, syntax.Slice)):
        return replace(kind, item=renamed(kind.item, name))
    if isinstance(kind, syntax.Reference):
        return replace(kind, target=renamed(kind.target, name))
    if isinstance(kind, syntax.Named):
        path = (name,) if kind.path == ("Self",) else kind.path
        return replace(kind, path=path, arguments=tuple(renamed(it, name) for it in kind.arguments))
    return kind


def is_default(variant):
    """Whether a variant is the default one."""
    return any(it.name == "default" for it in variant.attributes)


def plain_types(items):
    """The names of those types that derive neither trait and are held by fields that are skipped, or by such types."""
    by_name = {item.name: item for item in items if isinstance(item, (syntax.Declared, syntax.Alias))}
    waiting = [name for item in items if isinstance(item, syntax.Declared) and not syntax.is_plain(item)
               for name in held_if(item, attributes.is_skipped)]
    found = set()
    while waiting:
        name = waiting.pop()
        item = by_name.get(name)
        if item is not None and name not in found and (isinstance(item, syntax.Alias) or syntax.is_plain(item)):
            found.add(name)
            waiting += held_if(item, lambda _: True)
    return found


def in_order(items):
    """The items, each behind those that it holds. Refuses types that hold themselves."""
    by_name = {item.name: item for item in items}
    holds = with_skipped(items, {item.name: {it for it in held_by(item) if it in by_name} for item in items})
    ordered, open_names = {}, set()
    for first in items:
        waiting = [first] if first.name not in ordered else []
        while waiting:
            item = waiting[-1]
            held = [by_name[it] for it in sorted(holds[item.name]) if it not in ordered
                    and not (it == item.name and getattr(item, "depth", 0))]
            if item.name in ordered or not held:
                waiting.pop()
                ordered[item.name] = item
                continue
            open_names.add(item.name)
            for it in held:
                if it.name in open_names:
                    raise holds_itself(item, it)
            waiting.append(held[0])
    return list(ordered.values())


def holds_itself(item, held):
    """The refusal of a type that an item of those that it holds holds again."""
    if item.name != held.name:
        return Refusal(held.line, f"`{held.name}` holds itself through `{item.name}`, and types that hold each other "
                                  "are not taken: put the parts of the one into the other, or write the impls by hand")
    return Refusal(held.line, f"`{held.name}` holds itself, so its values need a bound on their depth: set it at the "
                              "type, as `#[speedy(depth = 16)]`")


def has_types(file):
    """Whether a module holds a type that derives one of the two, or a module that does."""
    return any(has_types(item.file) if isinstance(item, syntax.Module)
               else isinstance(item, syntax.Declared) and any(attributes.is_ours(it) for it in item.attributes)
               for item in file.items)


def docs(item):
    """The documentation of an item or a field."""
    return [f"///{line}".rstrip() for line in item.docs]


class Declaration:
    """A struct or an enum as Rattle has it."""

    def __init__(self, item, scope, of_cast):
        self.item = item
        self.scope = scope
        self.of_cast = of_cast
        self.derived = []

    def lines(self):
        """Its lines."""
        item = self.item
        variants = item.variants if isinstance(item, syntax.Enum) else [item]
        kinds = [self.field_type(it) for variant in variants for it in variant.fields]
        item.asked = asked.of_declaration(kinds, self.scope)
        generics = Generics(item, self.scope, [])
        for name, bounds in generics.added.items():
            self.scope.notes.append((item.line, f"`{name}` of `{item.name}` is declared with `{' + '.join(bounds)}`, "
                                                "which Rattle asks for wherever such a type is named"))
        kind = "enum" if isinstance(item, syntax.Enum) else "struct"
        head = f"{item.visibility}{kind} {item.name}{generics.declared()}"
        wheres = generics.wheres_text()
        self.derived = self.derives(kinds)
        found = [*docs(item), f"#[derive({', '.join(self.derived)})]", *item.kept]
        if kind == "enum":
            return found + [f"{head}{wheres} {{", *(line for it in self.variants() for line in self.variant(it)), "}"]
        if item.shape == "named":
            return found + [f"{head}{wheres} {{", *(line for it in item.fields for line in self.field(it)), "}"]
        fields = [] if item.shape == "unit" else ["(", *(line for it in item.fields for line in self.field(it)), ")"]
        return found + [head, *fields, f"{wheres};"]

    def derives(self, kinds):
        """The derives that the kit has for a type of fields of these types."""
        item = self.item
        variants = item.variants if isinstance(item, syntax.Enum) else [item]
        if "Default" in item.derives and isinstance(item, syntax.Enum) and not any(is_default(it) for it in variants):
            raise Refusal(item.line, f"`{item.name}` derives `Default`, and no variant has `#[default]`")
        kept = self.scope.derives.keep(item, kinds)
        return kept if "Copy" in kept else [*kept, "Drop"]

    def field_type(self, field):
        """The type of a field."""
        return self.scope.of_field(field, self.item)

    def field(self, field):
        """The lines of a field."""
        name = f"{field_name(field.name)}: " if field.name else ""
        return [*docs(field), f"{field.visibility}{name}{type_text(self.field_type(field))},"]

    def variant(self, variant):
        """The lines of a variant."""
        inner = [line for it in variant.fields for line in self.field(it)]
        opening, closing = {"unit": ("", ""), "named": (" {", "}"), "tuple": ("(", ")")}[variant.shape]
        default = ["#[default]"] if "Default" in self.derived and is_default(variant) else []
        return [*docs(variant), *default, f"{variant.name}{opening}", *inner, f"{closing}{self.discriminant(variant)},"]

    def variants(self):
        """The variants, as they are declared. Rattle compares them by their order where it has no discriminants."""
        is_ordered = "PartialOrd" in self.derived and not self.has_discriminants()
        return by_discriminant(self.item, self.scope) if is_ordered else self.item.variants

    def has_discriminants(self):
        """Whether Rattle has the discriminants of the variants as Rust does."""
        return all(it.shape == "unit" for it in self.item.variants) \
            and not any(it.name == "repr" for it in self.item.attributes)

    def discriminant(self, variant):
        """The number of a variant as `as` gives it, where Rattle has it as Rust does."""
        if variant.discriminant is None or not self.has_discriminants():
            return ""
        value = expressions.without_lost_bits(variant.discriminant, self.scope.constants)
        return " = " + expressions.written(value, self.of_cast)


def with_skipped(items, holds):
    """What each item holds, by names: with the types of fields that are skipped too, unless these hold it in turn."""
    def reaches(first, last):
        """Whether a type holds another one, by whatever way."""
        seen, waiting = set(), [first]
        while waiting:
            name = waiting.pop()
            if name not in seen:
                seen.add(name)
                waiting += holds[name]
        return last in seen

    for item in items:
        for name in sorted(held_if(item, attributes.is_skipped)):
            if name in holds and name not in holds[item.name] and not reaches(name, item.name):
                holds[item.name].add(name)
    return holds


def held_by(item):
    """The names of types that an item holds, but for fields that are skipped."""
    return held_if(item, lambda field: syntax.is_plain(item) or not attributes.is_skipped(field))


def held_if(item, holds):
    """The names of types in those fields of an item for which this holds, or in an alias."""
    if isinstance(item, syntax.Alias):
        return names_of(item.type)
    variants = item.variants if isinstance(item, syntax.Enum) else [item] if isinstance(item, syntax.Struct) else []
    return set().union(*(names_of(it.type) for variant in variants for it in variant.fields if holds(it)))


def names_of(kind):
    """The names without a path in a type of the source."""
    return {path[0] for path in syntax.paths_in(kind) if len(path) == 1}
