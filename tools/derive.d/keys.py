"""Keys of one's own: the clause of `impl SameKey`, by which values are equal exactly where the same is seen of them.

The derived `==` of a struct compares its fields in order, the last ones together: `a && (b && (c && d))`. So the clause
goes over the parts as they are seen, by one lemma a part; a group, a tuple in the tuple of parts, goes over its own."""
from dataclasses import dataclass, field, replace

import rattle
import syntax
from known import BLANKS, ONE_ORDER
from rattle import Foreign, Listed, Variable, is_listed, type_text
from refusal import Refusal

CMP = "Rattle.std.specs.Cmp"
NON_ZERO = "Rattle.std.specs.Int.NonZero"
EQUALITY = "Rattle.speedy.specs.Equality"
KEYS = "Rattle.speedy.specs.Keys"
# The lemmas of leaves: a template of what is compared, `x` and `y`, and the import of each of its words. `eq` is the
# equality of the type, which its impl of `SameKey` quotes: the law of that lies in a crate that users need not list.
UNSIGNED = ("unsigned_Decides {x} {y}", {"unsigned_Decides": CMP})
SIGNED = ("signed_Decides {x} {y}", {"signed_Decides": CMP})


def bytes_by(view, module):
    """The lemma of a text or an address that is seen as bytes, by a function that shows them."""
    shown = f"bytes_decides ({view} {{x}}) ({view} {{y}})"
    return shown, {"bytes_decides": "Rattle.std.specs.Cmp.Lexicographic", view: module}


LEAVES = {
    "bool": ("booleans_Decides {x} {y}", {"booleans_Decides": CMP}),
    "Endianness": ("order_tells {eq} refl refl refl refl {x} {y}",
                   {"order_tells": EQUALITY, "refl": "Rattle.std.specs.Prelude"}),
    "Uuid": ("bytes_decides {x} {y}", {"bytes_decides": "Rattle.std.specs.Cmp.Lexicographic"}),
    "Ipv4Addr": bytes_by("ipv4_octets", "Rattle.std.specs.Net.Addr"),
    "Ipv6Addr": ("segments_tell (ipv6_segments {x}) (ipv6_segments {y})",
                 {"segments_tell": EQUALITY, "ipv6_segments": "Rattle.std.specs.Net.Addr"}),
    "IpAddr": ("ip_tells {eq} (λ v w. refl) (λ v w. refl) (λ v w. refl) (λ v w. refl) {x} {y}",
               {"ip_tells": EQUALITY, "refl": "Rattle.std.specs.Prelude"}),
    "String": bytes_by("string_bytes", "Rattle.std.specs.String"),
    "BoxedStr": bytes_by("boxed_str_bytes", "Rattle.std.specs.Box"),
    "CowStr": bytes_by("cow_str_bytes", "Rattle.std.specs.Cow"),
    "VarInt64": ("unsigned_Decides (varint_number {x}) (varint_number {y})",
                 {"unsigned_Decides": CMP, "varint_number": "Rattle.speedy.specs.Zigzag"}),
    "F32": ("unsigned_Decides (f32_bits {x}) (f32_bits {y})",
            {"unsigned_Decides": CMP, "f32_bits": "Rattle.speedy.specs.Floats"}),
    "F64": ("unsigned_Decides (f64_bits {x}) (f64_bits {y})",
            {"unsigned_Decides": CMP, "f64_bits": "Rattle.speedy.specs.Floats"}),
}
for word in BLANKS:
    LEAVES[word] = ("(λ h. refl, λ e. refl)", {"refl": "Rattle.std.specs.Prelude"})
for word in ("u8", "u16", "u32", "u64", "u128", "usize", "char", "Varint", "U24"):
    LEAVES[word] = UNSIGNED
for word in ("i8", "i16", "i32", "i64", "i128"):
    LEAVES[word] = SIGNED
for bits in (8, 16, 32, 64):
    for sign, decides in (("u", "unsigned_Decides"), ("i", "signed_Decides")):
        get = f"non_zero_{sign}{bits}_get"
        LEAVES[f"NonZero{sign.upper()}{bits}"] = (f"{decides} ({get} {{x}}) ({get} {{y}})",
                                                  {decides: CMP, get: NON_ZERO})

# What is seen of a list: its items, as a clause names them.
LISTS = {
    "Vec": ("{it}.items", {}), "SmallVec": ("{it}.items", {}),
    "BoxedSlice": ("(boxed_slice_items {it})", {"boxed_slice_items": "Rattle.std.specs.Box"}),
    "CowSlice": ("(cow_slice_items {it})", {"cow_slice_items": "Rattle.std.specs.Cow"}),
    "BTreeSet": ("{it}.keys", {}),
}
# What holds one value, and how a clause names that.
HOLDERS = {"Box": ("{it}.value", {}), "Cow": ("(cow_value {it})", {"cow_value": "Rattle.std.specs.Cow"})} \
    | dict.fromkeys(ONE_ORDER, ("{it}.0", {}))
# Why a type is no key.
NO_KEYS = {
    "RangeInclusive": "whether it was walked is compared too, and not encoded",
    "HashMap": "it cannot be ordered or hashed", "HashSet": "it cannot be ordered or hashed",
    "IndexMap": "it cannot be ordered or hashed", "IndexSet": "it cannot be ordered or hashed",
}


class NoKey(Exception):
    """A part that is no key, with its type and the reason."""

    def __init__(self, path, kind, reason):
        super().__init__(f"`{path}` of the type `{kind}`: {reason}")
        self.path, self.kind, self.reason = path, kind, reason


@dataclass
class Own:
    """A type of the file as a key: of a struct its tree of parts, each a field's name and a type, with its parameters;
    of an enum the import of its law."""
    parameters: tuple = ()
    tree: object = None
    # Of an enum: the module of the law, and the name that it is imported under.
    law: object = None
    # Why it is none, where it is none.
    reason: str = ""


@dataclass
class Clause:
    """A clause that is made, and what it names."""
    own: dict
    parameters: tuple
    # The trait `SameKey`, as the made module names it.
    key: str = "SameKey"
    # The words to import, each with its module.
    words: dict = field(default_factory=dict)
    # The laws of other types of the file, each with its module, to be imported in the `impl` block (at the top of the
    # file the imports would go in a circle).
    laws: dict = field(default_factory=dict)
    depth: int = 0
    # Whether the types of other modules are taken to be keys.
    are_foreign_keys: bool = False

    def need(self, words):
        """Imports words."""
        self.words.update(words)

    def lemma(self, kind, x, y, given=None):
        """The lemma of a value of a type, applied to the two that are compared. `given` has what stands for the
        parameters of the type that it is a part of."""
        given = given or {}
        if isinstance(kind, syntax.Tuple):
            return self.tuple(kind, x, y, given)
        if isinstance(kind, (syntax.Array, syntax.Slice)):
            return self.list(kind.item, x, y, given)
        if isinstance(kind, syntax.Reference):
            return self.reference(kind, x, y, given)
        name = kind.name
        if isinstance(kind, Variable):
            return self.lemma(given[name], x, y) if name in given else f"{name}.same_key {x} {y}"
        if isinstance(kind, Foreign) and self.are_foreign_keys:
            return ""
        if isinstance(kind, Foreign):
            raise NoKey(x, name, "it is not known here how it is compared")
        if name in LEAVES:
            template, words = LEAVES[name]
            self.need(words)
            return template.format(x=x, y=y, eq=f"⟦<{kind.local} as {self.key}>⟧.eq")
        arguments = [it for it in kind.arguments if not isinstance(it, (syntax.Lifetime, str))]
        if name in LISTS:
            view, words = LISTS[name]
            self.need(words)
            return self.list(arguments[0], view.format(it=x), view.format(it=y), given)
        if name in HOLDERS:
            view, words = HOLDERS[name]
            self.need(words)
            return self.lemma(arguments[0], view.format(it=x), view.format(it=y), given)
        return self.other(name, kind, arguments, x, y, given)

    def other(self, name, kind, arguments, x, y, given):
        """The lemma of what has a law of its own, or parts."""
        if name == "Option":
            self.need({"option_tells": EQUALITY})
            return f"option_tells {self.function(arguments[0], given)} {x} {y}"
        if name == "Result":
            self.need({"result_tells": EQUALITY})
            both = " ".join(self.function(it, given) for it in arguments)
            return f"result_tells {both} {x} {y}"
        if name == "Range":
            ends = [(f"{x}.{end}", f"{y}.{end}", arguments[0]) for end in ("start", "end")]
            return self.parts(ends, given)
        if name == "BTreeMap":
            self.need({"list_tells": EQUALITY, "same_pairs": "Rattle.speedy.specs.EqualityOfMaps"})
            both = " ".join(self.function(it, given) for it in arguments)
            return f"list_tells (same_pairs {both}) {x}.entries {y}.entries"
        if name not in self.own:
            own = f"`{name}` has to derive `PartialEq`, `Eq`, and `PartialOrd` and `Ord`, or `Hash`, and to have no " \
                  "`depth`"
            reason = f", since {NO_KEYS[name]}" if name in NO_KEYS else ""
            raise NoKey(x, name, own if isinstance(kind, rattle.Own) else f"`{name}` has no `SameKey`{reason}")
        own = self.own[name]
        if own.reason:
            raise NoKey(x, name, own.reason)
        if own.law:
            module, word = own.law
            self.laws[word] = module
            return f"{word} {x} {y}"
        inner = {it: self.filled(argument, given) for it, argument in zip(own.parameters, arguments)}
        return self.tree(own.tree, x, y, inner)

    def filled(self, kind, given):
        """A type with what stands for its parameters."""
        if isinstance(kind, Variable):
            return given.get(kind.name, kind)
        if isinstance(kind, syntax.Tuple):
            return syntax.Tuple(kind.line, tuple(self.filled(it, given) for it in kind.parts))
        if isinstance(kind, syntax.Array):
            return syntax.Array(kind.line, self.filled(kind.item, given), kind.length)
        if isinstance(kind, syntax.Slice):
            return syntax.Slice(kind.line, self.filled(kind.item, given))
        if isinstance(kind, syntax.Reference):
            return syntax.Reference(kind.line, kind.lifetime, kind.mutable, self.filled(kind.target, given))
        if isinstance(kind, (Listed, rattle.Own)):
            return replace(kind, arguments=tuple(self.filled(it, given) for it in kind.arguments))
        return kind

    def function(self, kind, given):
        """The lemma of a type as an argument, for any two values."""
        self.depth += 1
        x, y = f"v{self.depth}", f"w{self.depth}"
        inner = self.lemma(kind, x, y, given)
        self.depth -= 1
        behind = f" {x} {y}"
        if inner.endswith(behind) and " " not in inner[:-len(behind)]:
            return inner[:-len(behind)]
        return f"(λ {x} {y}. {inner})"

    def list(self, item, x, y, given):
        """The lemma of a list of items."""
        self.need({"list_tells": EQUALITY})
        return f"list_tells {self.function(item, given)} {x} {y}"

    def reference(self, kind, x, y, given):
        """The lemma of what a reference points to."""
        target = kind.target
        if is_listed(target, "str"):
            self.need({"bytes_decides": "Rattle.std.specs.Cmp.Lexicographic"})
            return f"bytes_decides {x}.now {y}.now"
        return self.lemma(target, f"{x}.now", f"{y}.now", given)

    def tuple(self, kind, x, y, given):
        """The lemma of a tuple, whose equality takes its first parts together."""
        parts = [self.lemma(it, f"{x}.{place}", f"{y}.{place}", given) for place, it in enumerate(kind.parts)]
        if not parts:
            self.need({"unit_tells": EQUALITY})
            return f"unit_tells {x} {y}"
        if len(parts) == 1:
            return parts[0]
        self.need({"first_part": EQUALITY, "last_part": EQUALITY})
        found = f"last_part ({parts[-1]})"
        for part in reversed(parts[1:-1]):
            self.need({"next_part": EQUALITY})
            found = f"next_part ({part}) ({found})"
        return f"first_part ({parts[0]}) ({found})"

    def parts(self, parts, given):
        """The lemma of parts that an equality compares with the last ones together."""
        found = [self.lemma(kind, x, y, given) for x, y, kind in parts]
        text = found[-1]
        for part in reversed(found[:-1]):
            self.need({"part_then": KEYS})
            text = f"part_then ({part}) ({text})"
        return text

    def tree(self, tree, x, y, given):
        """The lemma of the parts of a struct: a tree whose leaves are pairs of a field's name and a type."""
        if tree is None or tree == []:
            self.need({"refl": "Rattle.std.specs.Prelude"})
            return "(λ h. refl, λ e. refl)"
        if not isinstance(tree, list):
            return self.lemma(tree[1], f"{x}.{tree[0]}", f"{y}.{tree[0]}", given)
        if len(tree) == 1:
            return self.tree(tree[0], x, y, given)
        first, rest = tree[0], self.tree(tree[1:], x, y, given)
        if isinstance(first, list):
            self.need({"group_then": KEYS})
            return f"group_then ({self.group(first, x, y, given)}) ({rest})"
        self.need({"part_then": KEYS})
        return f"part_then ({self.tree(first, x, y, given)}) ({rest})"

    def group(self, tree, x, y, given):
        """The lemma of a group of parts, whatever is compared behind it."""
        if not isinstance(tree, list):
            self.need({"group_of": KEYS})
            return f"group_of ({self.tree(tree, x, y, given)})"
        if len(tree) == 1:
            return self.group(tree[0], x, y, given)
        self.need({"groups": KEYS})
        return f"groups ({self.group(tree[0], x, y, given)}) ({self.group(tree[1:], x, y, given)})"


def struct_clause(tree, own, parameters, key):
    """The clause of a struct, and what it imports. Raises NoKey where a part is no key."""
    clause = Clause(own, tuple(parameters), key)
    return f"λ x y. {clause.tree(tree, 'x', 'y', {})}", clause


def enum_clause(name, variants, seen):
    """The clause of an enum whose variants have no parts, and what it imports: what is seen of a value tells it back.
    `variants` is the tree of pairs in which their cases stand, with the names of the variants, and `seen` is what its
    layout says."""
    words = {"unit_cases_tell": KEYS, "refl": "Rattle.std.specs.Prelude", "◌≡◌": "Rattle.std.specs.Prelude",
             "inl": "Rattle.std.proofs.Common", "inr": "Rattle.std.proofs.Common"}
    if not isinstance(variants, tuple):
        return ["λ x y. (λ h. refl, λ e. refl)"], {"refl": words["refl"]}
    arms = [f"          | {name}.{it} ↦ refl" for it in names_of(variants)]
    return [f"let told : {seen}.Seen → {name} = λ s.", *told_back(name, variants, "s", 8), "        in",
            "        unit_cases_tell the_type tt told",
            f"        (λ x. elim x as (λ k. told ({seen}.seen k) ≡ k) [", *arms, "        ])"], words


def names_of(variants):
    """The names of variants in a tree of pairs, in order."""
    if not isinstance(variants, tuple):
        yield variants
        return
    for half in variants:
        yield from names_of(half)


def told_back(name, variants, at, indent):
    """The lines of the variant that is seen as what stands at `at`."""
    if not isinstance(variants, tuple):
        return [" " * indent + f"{name}.{variants}"]
    inner = f"s{indent}"
    found = [" " * indent + f"elim {at} ["]
    for side, half in zip(("inl", "inr"), variants):
        bound = inner if isinstance(half, tuple) else "_"
        lines = told_back(name, half, inner, indent + 4)
        found += [" " * (indent + 2) + f"| {side} {bound} ↦", *lines] if isinstance(half, tuple) \
            else [" " * (indent + 2) + f"| {side} {bound} ↦ {lines[0].strip()}"]
    return found + [" " * indent + "]"]


# What is made of the types of a file.

def add_struct(shape, taken):
    """`impl SameKey` of a struct that is compared and ordered or hashed, where it can be a key."""
    if not is_compared(shape):
        return []
    own = Own(tuple(it.name for it in shape.item.parameters if it.kind == "type"))
    shape.scope.keys[shape.item.name] = own
    hidden = "a field is skipped, which is compared too" if taken.skipped else \
        "a part has a length or a constant of its own" if not all(is_plain(part) for part in taken.parts) else ""
    if hidden:
        own.reason = hidden
        return []
    own.tree, imported = named(taken.tree), shape.scope.imported()
    try:
        key = shape.scope.need("speedy", "SameKey")
        text, clause = struct_clause(own.tree, shape.scope.keys, own.parameters, key)
    except NoKey as no_key:
        own.reason = str(no_key)
        shape.scope.import_only(imported)
        return []
    return impl_lines(shape, [text], clause.words, [f"    ghost use {module}.{{{law(word)}}};"
                                                    for word, module in clause.laws.items()])


def is_plain(part):
    """Whether a part is a field as it is."""
    return part.statement is None and part.tree is None and part.bound != "_"


def named(tree):
    """The tree of parts, each as the name of its field and its type."""
    if isinstance(tree, list):
        return [named(it) for it in tree]
    return tree and (tree.seen.partition(".")[2], tree.type)


def law(word):
    """A law of another type, under a name of its own."""
    return f"same_key-law as {word}"


def add_enum(shape, variants):
    """The same of an enum, whose variants have no parts. `variants` is the tree of their names."""
    if not is_compared(shape):
        return []
    name, scope = shape.item.name, shape.scope
    crate, *modules = shape.place
    place = ".".join([*modules, name])
    own = scope.keys[name] = Own()
    if any(case.variant.fields for case in shape.cases):
        own.reason = "a variant has parts"
        return []
    law = ".".join([f"Rattle.{crate}.specs.contracts", *modules, shape.impl_name("speedy", "SameKey"), "TheImpl.Laws"])
    own.law = law, f"{name.lower()}_key"
    lines, words = enum_clause(name, variants, shape.quoted(name))
    uses = [f"    ghost use Rattle.{crate}.specs.declared.{place}.{{{name}}};",
            f"    ghost use Rattle.{crate}.specs.contracts.{place}.{{the_type}};"] if len(shape.cases) > 1 else []
    return impl_lines(shape, lines, words, uses)


def is_compared(shape):
    """Whether a type derives what keys need."""
    derives = shape.scope.derives.kept[shape.item.name]
    return "Eq" in derives and ("Ord" in derives or "Hash" in derives)


def impl_lines(shape, clause, words, uses):
    """The lines of `impl SameKey`."""
    scope, generics = shape.scope, shape.generics
    scope.ghost_paths |= {f"{module}.{word}" for word, module in words.items()}
    key = scope.need("speedy", "SameKey")
    bounds = {it.name: [key] for it in shape.item.parameters if it.kind == "type"}
    lines = [f"    ghost same_key = {{ {clause[0]}", *clause[1:]]
    lines[-1] += " };"
    if len(clause) == 1 and len(lines[0]) > rattle.CLAUSE_WIDTH:
        lines = laid_out(lines[0], 8)
    body = [*uses, *([""] if uses else []), *lines]
    return rattle.impl(generics.of_keys(bounds), key, shape.self_type, generics.wheres_text(), body)


def laid_out(text, indent):
    """A clause that is too long for a line: what its lemma is applied to, each on lines of its own."""
    if len(text) <= rattle.CLAUSE_WIDTH:
        return [text]
    start, depth, found = text.find("_then (") + len("_then"), 0, []
    for place, sign in enumerate(text[start:], start):
        if sign == "(" and depth == 0:
            found.append(place)
        depth += {"(": 1, ")": -1}.get(sign, 0)
    if start < len("_then") or len(found) != 2:
        return [text]
    first, last = text[found[0]:found[1]].rstrip(), text[found[1]:]
    return [text[:start]] + [line for it in (first, last) for line in laid_out(" " * indent + it, indent + 2)]


def check(kind, scope, line):
    """Refuses a key that is none. A type of another module is taken to be one."""
    try:
        Clause(scope.keys, (), are_foreign_keys=True).lemma(kind, "x", "y")
    except NoKey as no_key:
        raise Refusal(line, f"`{type_text(kind)}` is no key of a map and no item of a set: {no_key.reason}") \
            from no_key
