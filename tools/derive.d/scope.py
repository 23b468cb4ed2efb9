"""What the names of a file stand for, and its types as Rattle writes them."""
import expressions
import rattle
import syntax
from derives import Derives
from known import BLANKS, BOUNDS, ENCODED_LIST, FLOATS, IN_PLACE_BYTES, KNOWN, MARKING, NONE_OF_OURS, NUMBERS, \
    ONE_ORDER, PRELUDE
from known import PRELUDE_BOUNDS, PRELUDE_MODULES, PRIMITIVES
from names import Fresh, field_name
from rattle import Foreign, Listed, Own, Variable, type_text
from refusal import Refusal

# A type that is made of more types than so many is refused, as one of aliases that double.
MOST_NODES = 2000


class Scope:
    """The names of a file or of a module in it, and what the made module imports."""

    def __init__(self, file, made):
        self.notes = made.notes
        # Proofs by hand, by their paths below the crate's folder.
        self.answers = made.answers
        self.uses, self.globs = uses_of(file)
        self.items = {}
        for item in file.items:
            if item.name in self.items:
                raise Refusal(item.line, f"`{item.name}` is declared twice")
            if item.name in self.uses:
                raise Refusal(item.line, f"`{item.name}` is both imported and declared")
            self.items[item.name] = item
        self.constants = {it.name: it.value for it in file.items if isinstance(it, syntax.Constant)}
        # By visibility and module, the names that the made module imports; by module and name, what they are here.
        self.imports = {}
        self.locals = {}
        self.fresh = Fresh()
        self.nodes = 0
        self.derives = Derives(self)
        # The names of the types of this file that end where the bytes do, which have no layout.
        self.ending = set()
        # Those of the types that are read from borrowed bytes alone, since they hold a frame.
        self.reads_lent = set()
        # The types of this file as keys, by their names.
        self.keys = {}
        # What clauses import: from `Prelude`, and by the paths of others.
        self.ghosts = made.ghosts
        self.ghost_paths = made.ghost_paths
        # The least sizes of the types of this file that are made, and of the bytes before fields, by their names.
        self.least = {}
        # Which types of this file have `depth`, or a least size that is made of that of such a type.
        self.layered = set()
        # Which types of this file hold an array whose type names a lifetime, or whose size a parameter says, and
        # whether each owns memory.
        self.with_lent_arrays = set()
        self.with_open_arrays = set()
        self.owning = {}
        # What asks of the parameters of each type of this file, by its name.
        self.asked = {}
        # The labels of the fields that lengths of others name, and how their structs hold them, by the structs' names.
        self.telling = {}
        self.holding = {}
        # The items that stand beside the type that is made now, and how visible types without values are among them.
        self.beside = []
        self.helpers_shown = ""

    def values(self):
        """The names of the source that stand for values, which no pattern may bind."""
        return {item.name for item in self.items.values() if not isinstance(item, (syntax.Enum, syntax.Alias))}

    def take_names(self):
        """Takes the names of the source, before any other is given."""
        for item in self.items.values():
            if not self.fresh.is_free(item.name):
                raise Refusal(item.line, f"Rattle tells no names apart that differ in case alone: give `{item.name}` "
                                         "another name")
            self.fresh.take(item.name)
        for item in self.items.values():
            self.fresh.take(*(it.name for it in getattr(item, "parameters", ())))
        self.fresh.take(*(name for name, use in self.uses.items() if self.is_foreign(use.path)))

    @staticmethod
    def is_foreign(path):
        """Whether a path is of another module of the user's."""
        return "::".join(path) not in KNOWN and path[0] not in ("std", "core", "alloc", "speedy")

    # Imports.

    def need(self, module, name):
        """Imports a name of the kit or of this library, and answers what it is here."""
        if (module, name) not in self.locals:
            local = name if self.fresh.is_free(name) else self.fresh.name(alias_of(module, name))
            self.import_as(module, name, local)
        return self.locals[module, name]

    def import_as(self, module, name, local, visibility=""):
        """Imports a name under another, or under its own."""
        self.fresh.take(local)
        self.locals[module, name] = local
        self.imports.setdefault((visibility, module), set()).add(name if local == name else f"{name} as {local}")

    def imported(self):
        """What is imported so far."""
        return dict(self.locals), {place: set(names) for place, names in self.imports.items()}, set(self.fresh.taken)

    def import_only(self, imported):
        """Imports no more than that."""
        self.locals, self.imports, self.fresh.taken = imported

    def prelude(self, name):
        """A name that needs no import, unless the source gives it to something else."""
        if name in self.items or not self.fresh.is_free(name):
            return self.need(PRELUDE_MODULES[name], name)
        return name

    def variant(self, name):
        """`Ok`, `Err`, `Some` or `None`."""
        if self.fresh.is_free(name):
            return name
        return f"{self.prelude('Result' if name in ('Ok', 'Err') else 'Option')}::{name}"

    # Paths.

    def full_path(self, path):
        """The path that a path of the source stands for."""
        first = path[0]
        if first in self.uses:
            path = self.uses[first].path + path[1:]
        elif len(path) == 1 and first not in self.items:
            path = self.by_glob(first) or (tuple(PRELUDE[first].split("::")) if first in PRELUDE else path)
        if path[0] in ("core", "alloc"):
            path = ("std",) + path[1:]
        return path

    def by_glob(self, name):
        """The path of a name that a `use ..::*` brings, or None."""
        for use in self.globs:
            found = tuple("std" if part in ("core", "alloc") and not place else part
                          for place, part in enumerate(use.path)) + (name,)
            if "::".join(found) in KNOWN or found == ("speedy", "Readable") or found == ("speedy", "Writable"):
                return found
        others = [use for use in self.globs if use.path[0] not in ("std", "core", "alloc", "speedy")]
        if len(others) == 1 and name not in PRELUDE and name not in PRIMITIVES and name not in FLOATS \
                and name not in NONE_OF_OURS and name not in PRELUDE_BOUNDS:
            return others[0].path + (name,)
        return None

    # Types.

    def convert(self, kind, parameters=(), written_alone=False, is_skipped=False):
        """A type as Rattle has it. References to anything are taken where it is only written; of a field that is
        skipped any type is."""
        self.nodes = 0
        return Converter(self, parameters, written_alone, is_skipped).convert(kind)

    def of_field(self, field, item):
        """The type of a field of an item. One whose length is told may end where its bytes do."""
        self.nodes = 0
        is_skipped = field.options.skip or syntax.is_plain(item)
        converter = Converter(self, item.parameters, not item.readable, is_skipped)
        converter.framed = field.type if field.options.length is not None else None
        return converter.convert(field.type)

    def of_constant(self, kind):
        """The type of a constant, as Rattle writes it: here a float is one."""
        if isinstance(kind, syntax.Named) and kind.path[0] in FLOATS and kind.path[0] not in self.uses:
            return Listed(kind.line, kind.path[0])
        if isinstance(kind, syntax.Reference):
            return syntax.Reference(kind.line, syntax.Lifetime(kind.line, "'static"), False,
                                    self.of_constant(kind.target))
        if isinstance(kind, syntax.Named) and kind.path == ("str",):
            return Listed(kind.line, "str")
        return self.convert(kind, (), True)

    # Bounds.

    def bound(self, bound):
        """A bound as Rattle writes it."""
        if isinstance(bound, syntax.Lifetime):
            return bound.name
        if isinstance(bound, syntax.Unsized):
            raise Refusal(bound.line, "Rattle's types have a size: leave `?Sized` out, and write `Cow<'a, str>`, "
                                      "`&'a str` and the like as types of their own")
        path = self.full_path(bound.path)
        if len(path) == 1 and path[0] in PRELUDE_BOUNDS:
            path = tuple(PRELUDE_BOUNDS[path[0]].split("::"))
        name = "::".join(path)
        if name in BOUNDS:
            plain, module = BOUNDS[name]
            return self.need(module, plain) if module else self.prelude(plain)
        if len(path) < 2 or path[0] in ("std", "speedy") or bound.arguments:
            raise Refusal(bound.line, f"the bound `{name}` is not taken: leave it out, since impls get those that "
                                      "they need, or write the impls of this type by hand")
        return self.foreign(bound, path)

    def foreign(self, kind, full):
        """Imports a name of another module as the source does, or by the path that it is named by."""
        module = "::".join(full[:-1])
        if (module, full[-1]) in self.locals:
            return self.locals[module, full[-1]]
        use = self.uses.get(kind.path[0])
        if use is not None and len(kind.path) == 1:
            self.import_as(module, full[-1], use.name, use.visibility)
            return use.name
        return self.need(module, full[-1])


def uses_of(file):
    """The imports of a file by the names that they bring, and those that bring all names."""
    found, globs = {}, []
    for use in file.uses:
        if use.name == "*":
            globs.append(use)
            continue
        if use.name in found and found[use.name].path != use.path:
            raise Refusal(use.line, f"`{use.name}` is imported twice")
        found[use.name] = use
    return found, globs


def alias_of(module, name):
    """Another name for what is imported."""
    front = module.split("::")[0]
    return f"{front}_{name}" if name[0].islower() else f"{front.capitalize()}{name}"


class Converter:
    """Makes types of Rattle of those of the source."""

    def __init__(self, scope, parameters, written_alone, is_skipped, bound=None):
        self.scope = scope
        # What stands for the parameters, where the type is that of an alias.
        self.bound = bound or {}
        self.parameters = parameters
        self.written_alone = written_alone
        self.is_skipped = is_skipped
        # The type that stands in a frame, or None.
        self.framed = None

    def convert(self, kind):
        """A type as Rattle has it."""
        self.scope.nodes += 1
        if self.scope.nodes > MOST_NODES:
            raise Refusal(kind.line, f"this type is made of more than {MOST_NODES} types: declare types of its parts")
        if isinstance(kind, syntax.Tuple):
            if len(kind.parts) > 11:
                raise Refusal(kind.line, "a tuple has up to 11 parts: make a struct of them, or nest tuples")
            return syntax.Tuple(kind.line, tuple(self.convert(part) for part in kind.parts))
        if isinstance(kind, syntax.Array):
            return syntax.Array(kind.line, self.convert(kind.item), self.constant(kind.line, kind.length))
        if isinstance(kind, syntax.Slice):
            raise Refusal(kind.line, "a slice has no size: take `Vec<T>`, `Box<[T]>` or `Cow<'a, [T]>`")
        if isinstance(kind, syntax.Reference):
            return self.reference(kind)
        if not isinstance(kind, syntax.Named):
            raise Refusal(kind.line, "here stands no type")
        return self.named(kind)

    def constant(self, line, value):
        """A number in a type: a literal, a constant of the file or a parameter, or what they make."""
        if isinstance(value, syntax.Named) and not value.arguments:
            value = syntax.Mention(value.line, value.path)
        if isinstance(value, syntax.Literal) and value.token.kind == "integer":
            if value.token.suffix not in ("", None, "usize"):
                raise Refusal(line, f"here stands a `usize`, and `{value.token.text}` is a `{value.token.suffix}`")
            text = value.token.text.removesuffix("usize").removesuffix("_")
            return str(value.token.value) if text.isdigit() and text.startswith("0") else text
        if isinstance(value, syntax.Mention) and len(value.path) == 1:
            name = value.path[0]
            if name in self.bound:
                return self.bound[name]
            if name in self.scope.constants or any(it.name == name and it.kind == "const" for it in self.parameters):
                return name
        try:
            return str(expressions.number(value, self.scope.constants))
        except Refusal as refusal:
            raise Refusal(line, "Rattle has no array of so many: write a number, or name a constant of this file or a "
                                "parameter") from refusal

    def lifetime(self, lifetime, line):
        """A lifetime that the type declares; where it is only written, `'static` too."""
        if lifetime is not None and lifetime.name in self.bound:
            return self.bound[lifetime.name]
        if lifetime is None or lifetime.name == "'_":
            raise Refusal(line, "this reference needs a lifetime, as in Rust: name one of the type")
        if lifetime.name == "'static":
            if not self.written_alone:
                raise Refusal(line, "what is read lives as long as what it is read from: name a lifetime of the type")
        elif all(it.name != lifetime.name for it in self.parameters):
            raise Refusal(line, f"the lifetime `{lifetime.name}` is not declared: write it behind the type's name")
        return lifetime

    def reference(self, kind):
        """`&'a str`, `&'a [u8]`, `&'a [u8; N]`; where it is only written, any other one too."""
        target = kind.target
        lifetime = self.lifetime(kind.lifetime, kind.line)
        if isinstance(target, syntax.Named) and target.path == ("str",):
            inner = Listed(target.line, "str")
        elif isinstance(target, syntax.Slice):
            inner = syntax.Slice(target.line, self.convert(target.item))
        else:
            inner = self.convert(target)
        is_bytes = rattle.is_listed(inner, "str") \
            or (isinstance(inner, (syntax.Slice, syntax.Array)) and rattle.is_listed(inner.item, "u8"))
        if not is_bytes and not self.written_alone:
            raise Refusal(kind.line, advice_for(inner))
        if kind.mutable and not self.written_alone:
            raise Refusal(kind.line, "what is lent is not lent to be changed: leave `mut` out")
        return syntax.Reference(kind.line, lifetime, kind.mutable, inner)

    def named(self, kind):
        """A type by its name."""
        path = kind.path
        if len(path) == 1 and any(it.name == path[0] and it.kind == "type" for it in self.parameters):
            if kind.arguments:
                raise Refusal(kind.line, f"the parameter `{path[0]}` is applied to nothing")
            return self.bound.get(path[0]) or Variable(kind.line, path[0])
        if path[0] == "Self":
            raise Refusal(kind.line, "a type that holds itself needs a bound on its depth: set it at the type, as "
                                     "`#[speedy(depth = 16)]`")
        if len(path) == 1 and path[0] in self.scope.items:
            return self.own(kind)
        full = self.scope.full_path(path)
        if len(full) == 1:
            return self.plain(kind, full[0])
        name = "::".join(full)
        if path == ENCODED_LIST and [isinstance(it, syntax.Lifetime) for it in kind.arguments] == [True, False]:
            return self.encoded_list(kind)
        if path == IN_PLACE_BYTES and len(kind.arguments) == 1:
            count = self.constant(kind.line, kind.arguments[0])
            return Listed(kind.line, path[-1], (count,), self.scope.need("::".join(path[:-1]), path[-1]))
        if name in KNOWN:
            return self.known(kind, KNOWN[name])
        if self.is_skipped and name == "std::marker::PhantomData":
            return Listed(kind.line, "PhantomData", self.types(kind, 1), self.scope.need("std::marker", "PhantomData"))
        reason = NONE_OF_OURS.get(name)
        if name.startswith("std::sync::atomic::"):
            reason = "an atomic is neither read nor written: hold the number"
        if reason or full[0] == "std":
            raise Refusal(kind.line, reason or f"`{name}` is neither read nor written: take one of the listed types, "
                                               "or write the impls of this type by hand")
        return self.foreign(kind, full)

    def plain(self, kind, name):
        """A name without a path that the source neither declares nor imports."""
        if kind.arguments and name in PRIMITIVES + tuple(FLOATS) + ("isize", "str"):
            raise Refusal(kind.line, f"`{name}` is applied to nothing")
        if name in PRIMITIVES or (self.is_skipped and name == "isize"):
            return Listed(kind.line, name)
        if name in FLOATS:
            return self.float(kind, FLOATS[name])
        if name in NONE_OF_OURS:
            raise Refusal(kind.line, NONE_OF_OURS[name])
        raise Refusal(kind.line, f"`{name}` is neither declared here nor imported")

    def float(self, kind, name):
        """A float, which is held as its bits."""
        note = f"`{kind.path[0]}` becomes `{name}`, which holds the bits: make one by `from`, and call `get`"
        if (kind.line, note) not in self.scope.notes:
            self.scope.notes.append((kind.line, note))
        return Listed(kind.line, name, (), self.scope.need("speedy", name))

    def own(self, kind):
        """A type that this file declares."""
        item = self.scope.items[kind.path[0]]
        if isinstance(item, (syntax.Constant, syntax.Module)):
            raise Refusal(kind.line, f"`{item.name}` is no type")
        if isinstance(item, syntax.Alias):
            bound = dict(zip((it.name for it in item.parameters), self.arguments(kind, item)))
            return Converter(self.scope, item.parameters, self.written_alone, self.is_skipped, bound).convert(item.type)
        if not item.readable and not item.writable and not self.is_skipped:
            raise Refusal(kind.line, f"`{item.name}` derives neither `Readable` nor `Writable`: derive them, or "
                                     "declare it in a `.rt` file by hand, and import it here")
        if not self.written_alone and not item.readable and not self.is_skipped:
            raise Refusal(kind.line, f"`{item.name}` does not derive `Readable`")
        if item.name in self.scope.ending and not self.is_skipped and kind is not self.framed:
            raise Refusal(kind.line, f"`{item.name}` ends where the bytes do, so it has no layout: hold it behind the "
                                     "number of its bytes, by a field with `length`, or by hand, as a `Prefixed` of a "
                                     "`Framed`")
        return Own(kind.line, item.name, self.arguments(kind, item))

    def arguments(self, kind, item):
        """What a type of this file is applied to, with defaults where they are left out."""
        found = []
        if len(kind.arguments) > len(item.parameters):
            raise Refusal(kind.line, f"`{item.name}` is applied to too many" if item.parameters
                          else f"`{item.name}` is applied to nothing")
        for place, parameter in enumerate(item.parameters):
            argument = kind.arguments[place] if place < len(kind.arguments) else parameter.default
            if argument is None:
                raise Refusal(kind.line, f"`{item.name}` needs `{parameter.name}`: write it out")
            if (parameter.kind == "lifetime") != isinstance(argument, syntax.Lifetime):
                raise Refusal(kind.line, f"`{parameter.name}` of `{item.name}` is a {parameter.kind}")
            if parameter.kind == "lifetime":
                found.append(self.lifetime(argument, kind.line))
            elif parameter.kind == "const":
                found.append(self.constant(kind.line, argument))
            else:
                found.append(self.convert(argument))
        return tuple(found)

    def foreign(self, kind, full):
        """A type of another module, which has impls of its own."""
        if full[0] == "speedy":
            raise Refusal(kind.line, f"`{'::'.join(full)}` is no type that is read or written")
        local = self.scope.foreign(kind, full)
        arguments = tuple(self.foreign_argument(it, kind.line) for it in kind.arguments)
        types = {it.name for it in self.parameters if it.kind == "type"}
        if types & set().union(*(rattle.names_in(it) for it in arguments)) and not self.is_skipped:
            raise Refusal(kind.line, f"what `{kind.path[-1]}` asks of a parameter is not known here: write the impls "
                                     "of this type by hand")
        return Foreign(kind.line, local, arguments)

    def foreign_argument(self, argument, line):
        """What a type of another module is applied to."""
        if isinstance(argument, syntax.Lifetime):
            return self.lifetime(argument, line)
        if isinstance(argument, (syntax.Literal, syntax.Mention, syntax.Unary, syntax.Binary)):
            return self.constant(line, argument)
        return self.convert(argument)

    def types(self, kind, count):
        """The types that a listed one is applied to: so many."""
        are_types = all(isinstance(it, (syntax.Named, syntax.Tuple, syntax.Array, syntax.Slice, syntax.Reference))
                        for it in kind.arguments)
        if len(kind.arguments) != count or not are_types:
            raise Refusal(kind.line, f"`{kind.path[-1]}` is applied to {count or 'nothing'}"
                                     f"{' types' if count > 1 else ' type' if count else ''}")
        return tuple(self.convert(it) for it in kind.arguments)

    def known(self, kind, known):
        """A type of the list."""
        special = {"Cow": self.cow, "Box": self.boxed, "SmallVec": self.small_vec,
                   "ListUntil": self.list_until}.get(known.name)
        if special:
            return special(kind)
        if known.name in BLANKS:
            return self.blank(kind, known)
        has_hasher = bool(known.arguments) and "hasher" in known.arguments[-1]
        if has_hasher and len(kind.arguments) == len(known.arguments):
            hasher = (self.hasher(kind.arguments[-1]),)
            kind = syntax.Named(kind.line, kind.path, kind.arguments[:-1])
        else:
            hasher = ()
        arguments = self.types(kind, len(known.arguments) - has_hasher) + hasher
        if known.name in ONE_ORDER and not rattle.is_listed(arguments[0], *NUMBERS):
            raise Refusal(kind.line, f"`{known.name}` holds a number of a fixed width, as `{known.name}<u32>`, and "
                                     f"`{type_text(arguments[0])}` is none")
        if known.name == "CText" and not is_text_or_bytes(arguments[0]):
            raise Refusal(kind.line, "`CText` holds a text or bytes, as `CText<String>` or `CText<&'a [u8]>`, and "
                                     f"`{type_text(arguments[0])}` is neither")
        local = self.scope.need(known.module, known.name) if known.module else self.scope.prelude(known.name)
        return Listed(kind.line, known.name, arguments, local)

    def hasher(self, kind):
        """What makes the hashers of a map or a set: a parameter, or a type of another module."""
        if isinstance(kind, syntax.Named) and not kind.arguments:
            if any(it.name == kind.path[0] and it.kind == "type" for it in self.parameters):
                return Variable(kind.line, kind.path[0])
            full = self.scope.full_path(kind.path)
            if len(full) > 1 and full[0] != "std":
                return Foreign(kind.line, self.scope.foreign(kind, full))
        raise Refusal(kind.line, "this hasher is not taken: leave it out, or name one of your own")

    def blank(self, kind, known):
        """`Padding<N>` and `Zeros<N>`."""
        if len(kind.arguments) != 1 or isinstance(kind.arguments[0], syntax.Lifetime):
            raise Refusal(kind.line, f"`{known.name}` needs a number of bytes, as `{known.name}<3>`")
        count = self.constant(kind.line, kind.arguments[0])
        return Listed(kind.line, known.name, (count,), self.scope.need(known.module, known.name))

    def list_until(self, kind):
        """`ListUntil<N, T, MARK>`."""
        arguments = kind.arguments
        if len(arguments) != 3 or any(isinstance(it, syntax.Lifetime) for it in arguments):
            raise Refusal(kind.line, "`ListUntil` needs a type of numbers, a type and the number that ends the list, "
                                     "as `ListUntil<u16, String, 0>`")
        number, value = (self.convert(it) for it in arguments[:2])
        if not rattle.is_listed(number, *MARKING):
            raise Refusal(kind.line, f"the numbers of a `ListUntil` are one of {', '.join(MARKING)}, and "
                                     f"`{type_text(number)}` is none of these")
        mark = self.constant(kind.line, arguments[2])
        return Listed(kind.line, "ListUntil", (number, value, mark), self.scope.need("speedy", "ListUntil"))

    def encoded_list(self, kind):
        """`EncodedList<'a, T>`, which stands in libraries."""
        lifetime, items = self.lifetime(kind.arguments[0], kind.line), self.convert(kind.arguments[1])
        return Listed(kind.line, "EncodedList", (lifetime, items), self.scope.need("speedy::encoded", "EncodedList"))

    def cow(self, kind):
        """`Cow<'a, str>`, `Cow<'a, [T]>` or `Cow<'a, T>`."""
        if len(kind.arguments) != 2 or not isinstance(kind.arguments[0], syntax.Lifetime):
            raise Refusal(kind.line, "a `Cow` needs a lifetime and a type, as `Cow<'a, str>`")
        lifetime, inner = self.lifetime(kind.arguments[0], kind.line), kind.arguments[1]
        if isinstance(inner, syntax.Named) and inner.path == ("str",):
            return self.borrow("CowStr", kind, (lifetime,))
        if isinstance(inner, syntax.Slice):
            return self.borrow("CowSlice", kind, (lifetime, self.convert(inner.item)))
        return self.borrow("Cow", kind, (lifetime, self.convert(inner)))

    def borrow(self, name, kind, arguments):
        """A type of `std::borrow`."""
        return Listed(kind.line, name, arguments, self.scope.need("std::borrow", name))

    def boxed(self, kind):
        """`Box<str>`, `Box<[T]>` or `Box<T>`."""
        if len(kind.arguments) != 1 or isinstance(kind.arguments[0], syntax.Lifetime):
            raise Refusal(kind.line, "a `Box` needs one type")
        inner = kind.arguments[0]
        if isinstance(inner, syntax.Named) and inner.path == ("str",):
            return Listed(kind.line, "BoxedStr", (), self.scope.need("std::boxed", "BoxedStr"))
        if isinstance(inner, syntax.Slice):
            return Listed(kind.line, "BoxedSlice", (self.convert(inner.item),),
                          self.scope.need("std::boxed", "BoxedSlice"))
        return Listed(kind.line, "Box", (self.convert(inner),), self.scope.prelude("Box"))

    def small_vec(self, kind):
        """`SmallVec<[T; N]>`, which Rattle writes `SmallVec<T, N>`."""
        if len(kind.arguments) != 1 or not isinstance(kind.arguments[0], syntax.Array):
            raise Refusal(kind.line, "a `SmallVec` needs an array, as `SmallVec<[u16; 4]>`")
        array = self.convert(kind.arguments[0])
        return Listed(kind.line, "SmallVec", (array.item, array.length), self.scope.need("speedy::ext", "SmallVec"))


def is_text_or_bytes(kind):
    """Whether a type is a text or bytes, owned or lent."""
    if isinstance(kind, syntax.Reference):
        target = kind.target
        return rattle.is_listed(target, "str") \
            or (isinstance(target, syntax.Slice) and rattle.is_listed(target.item, "u8"))
    if rattle.is_listed(kind, "Vec", "BoxedSlice", "CowSlice"):
        return rattle.is_listed(kind.arguments[-1], "u8")
    return rattle.is_listed(kind, "String", "BoxedStr", "CowStr")


def advice_for(inner):
    """What to take for a reference that is only written."""
    if isinstance(inner, syntax.Slice):
        name = type_text(inner.item)
        view = f"`SliceView<'a, {name}>` of `speedy::views`, or " if name in NUMBERS else ""
        return f"`&[{name}]` is written alone: take {view}`Cow<'a, [{name}]>`"
    return f"`&{type_text(inner)}` is written alone: take the value, a `Box` or a `Cow`"


def member(field, place):
    """The name of a field in Rattle."""
    return field_name(field.name) if field.name else str(place)
