"""The impls of an enum: it has the layout of its cases, each behind its tag, and is read and written case by case."""
import attributes
import expressions
import impl_search
import in_place
import keys
import syntax
import whole
from answers import answers, clone_answers
from arms import Arms
from groups import Later, groups_of, later_groups, tree_of
from impls import Shape
from parts import (NUMBERS, PartMaker, accesses_of_variant, built, number_of, read_arm, seen_of_parts,
                   variant_pattern, write_statements, written)
from rattle import (Block, Build, Call, Listed, Match, Own, clause_lines, is_listed, names_in, parts_of,
                    type_text)
from recursive_enums import RecursiveEnumShape
from refusal import Refusal
from trees import halved, leaves

# Rattle has no enum of more variants.
MOST_VARIANTS = 256
# Rattle's borrow checker covers no value made at a later variant of an enum that owns memory or borrows.
MOST_OWNING = 128
OWNING = ("Box", "BoxedSlice", "BoxedStr", "BTreeMap", "BTreeSet", "CowSlice", "CowStr", "HashMap", "HashSet",
          "IndexMap", "IndexSet", "ListUntil", "SmallVec", "String", "Vec")
# An enum of one variant that has a parameter which is a type or a number has at most so many parts, made of so many
# types, of which one of the same file stands for several: `answers_of_one` names the cases of others alone, and here a
# search meets its limit.
PARTS_OF_ONE = 4
TYPES_OF_ONE = 8
TYPES_OF_OWN = 4
# One without is refused past so many records in what its parts are: the search for `write_case` enters 128 in all,
# those of all parts for each but the last. A hash map is made of many, and of one more for each of its types.
RECORDS_OF_ONE = 99
SCALARS = ("bool", "char", *(f"{kind}{bits}" for kind in "iu" for bits in (8, 16, 32, 64, 128)))
RECORDS = {"HashMap": 24, "HashSet": 15, "IndexMap": 7, "IndexSet": 7, "BTreeMap": 3, "BTreeSet": 3}


class Case:
    """A variant with its parts. `path` says where it stands in the tree of the cases: `0` for left, `1` for right."""

    def __init__(self, variant, taken, path):
        self.variant = variant
        self.taken = taken
        self.path = path
        # The type of the parts, as reading and clauses name it.
        self.parts_type = type_text(taken.type())


def tags_of(item, scope):
    """Sets the tag of each variant: as it is set, or as the discriminant says, or one more than the last."""
    def set_by(variant):
        """What sets the tag of a variant."""
        set_tag = attributes.of_variant(variant, scope.notes)
        return variant.discriminant if set_tag is None else set_tag

    used, past = {}, NUMBERS[item.tag_type][1]
    for variant, variant.tag in zip(item.variants, numbered(map(set_by, item.variants), scope)):
        if not 0 <= variant.tag < past:
            raise Refusal(variant.line, f"the tag {variant.tag} of `{variant.name}` is no `{item.tag_type}`: the "
                                        f"greatest is {past - 1}")
        if variant.tag in used:
            raise Refusal(variant.line, f"`{variant.name}` has the tag {variant.tag} of `{used[variant.tag]}`")
        used[variant.tag] = variant.name


def numbered(values, scope):
    """The number of each variant: as a value sets it, or one more than the last."""
    following = 0
    for value in values:
        found = following if value is None else expressions.number(value, scope.constants)
        following = found + 1
        yield found


def by_discriminant(item, scope):
    """The variants in the order of their discriminants, by which a derived comparison orders them in Rust."""
    found = zip(numbered((it.discriminant for it in item.variants), scope), item.variants)
    return [variant for _, variant in sorted(found, key=lambda pair: pair[0])]


class EnumShape(Shape):
    """What the impls of an enum are made of. `place` is the path of the module that holds it."""

    def __init__(self, item, scope, place):
        self.place = place
        self.cases = []
        for path, variant in leaves(tree_of(item, item.variants)):
            whole.refuse_in_variant(variant)
            maker = PartMaker(item, scope, f"{item.name}::{variant.name}")
            taken = maker.taken(variant.fields, accesses_of_variant(variant.fields, scope))
            self.cases.append(Case(variant, taken, path))
        super().__init__(item, scope, [case.taken for case in self.cases])
        scope.least[item.name] = NUMBERS[item.tag_type][2]
        for case in self.cases:
            if item.readable:
                impl_search.check(item, case.taken, True)
            if not case.taken.is_told():
                names = set().union(*(names_in(part.type) for part in case.taken.parts))
                case.parts_type = self.alias(f"{item.name}{case.variant.name}Parts",
                                             f"The parts of [`{item.name}::{case.variant.name}`].", case.taken.type(),
                                             names)
        self.number = type_text(number_of(scope, item.tag_type, item.line))
        self.later = later_groups(self)
        self.first = groups_of(item, self.cases)[0]
        tree = (halved(self.first), self.later[0]) if self.later else halved(self.first)
        self.cases_type = self.alias(f"{item.name}Cases", f"The cases of [`{item.name}`], each with its tag.",
                                     self.kinds_of(tree), self.names())
        self.parts_type = f"{scope.need('speedy::prefixed', 'Prefixed')}<{self.number}, {self.self_type}>"

    def kinds_of(self, tree):
        """A tree of cases as a type."""
        line = self.item.line
        if isinstance(tree, tuple):
            return Listed(line, "Either", tuple(self.kinds_of(it) for it in tree), self.of_cases("Either"))
        if isinstance(tree, Later):
            return tree.self_type
        tag = str(tree.variant.tag)
        if not tree.taken.parts:
            return Listed(line, "UnitCase", (tag,), self.of_cases("UnitCase"))
        return Listed(line, "Case", (tag, tree.parts_type), self.of_cases("Case"))

    def of_cases(self, name):
        """A name of the module of cases."""
        return self.scope.need("speedy::cases", name)

    def lines(self):
        """The impls."""
        found = self.cases_impl()
        found += self.layout([f"    ghost seen = {{ {self.quoted(self.self_type, 'Cases', 'speedy::cases')}.seen }};"])
        found += keys.add_enum(self, tree_of(self.item, [it.name for it in self.item.variants]))
        if self.item.readable:
            found += self.read_impls()
        if self.item.writable:
            found += self.write_impls()
        return found + in_place.enum_impls(self)

    def cases_impl(self):
        """`impl Cases`, whose clauses name the variants by the module that holds the enum."""
        quoted = self.quoted(self.cases_type, "CaseTree", "speedy::cases")
        crate, *modules = self.place
        path = ".".join(["Rattle", crate, "specs.declared", *modules, self.item.name])
        return self.laying_out(self.of_cases("Cases"), [
            f"    ghost use {path}.{{{self.item.name}}};", "", f"    ghost Seen = {{ {quoted}.Seen }};", "",
            *self.seen(), "", f"    ghost choices = {{ {quoted}.choices }};"])

    def seen(self):
        """What is seen of an enum: what is of the parts of its case."""
        for side in set("".join(case.path for case in self.cases)):
            name = "inl" if side == "0" else "inr"
            self.scope.ghost_paths.add(f"Rattle.std.proofs.Common.{name}")
        found = ["    ghost seen = { λ it. elim it ["]
        for case in self.cases:
            names = "".join(f" {access.seen}" for access in case.taken.accesses)
            before, tree, behind = self.injected(case)
            head = f"| {self.item.name}.{case.variant.name}{names} ↦ {before}"
            found += clause_lines(6, head, tree, behind)
        return found + ["    ] };"]

    def injected(self, case):
        """What is seen of a case, at its place in the tree: a tuple of clauses, and what stands before and behind."""
        quoted, tree = "", "tt"
        if case.taken.parts:
            quoted, tree = seen_of_parts(case.taken, case.parts_type, self.scope)
        sides = ["inl" if side == "0" else "inr" for side in case.path]
        if not sides:
            return quoted, tree, ""
        closed = 0 if not quoted and (isinstance(tree, list) or " " not in tree) else 1
        before = "".join(f"{side} (" for side in sides[:-1]) + sides[-1] + (" (" if closed else " ")
        return before + quoted, tree, ")" * (len(sides) - 1 + closed)

    # The impls of reading.

    def read_impls(self):
        """`impl ReadCases`, the functions that read later groups, and `impl ReadFrom`."""
        generics = self.generics
        body = str(self.read_match(self.first, self.later[0] if self.later else None))
        found = self.reading("speedy::cases", "ReadCases", self.reader("read_case", "tag: usize, ", body))
        for group in self.later:
            found += group.function_lines()
        arguments = f"{self.number}, Self, {self.lent()}, {generics.context}, {generics.reader}"
        return found + self.read_from(f"{self.of_cases('read_tagged')}::<{arguments}>(reader)")

    def read_match(self, cases, later):
        """Reads a value of one of some cases, or else of a later group."""
        if later:
            last = f"{later.function}(tag, reader)"
        else:
            refused = self.scope.need("speedy::private", "error_invalid_enum_variant")
            last = f"{self.scope.variant('Err')}({refused}())"
        return Match("tag", (*map(self.read_arm, cases), ("_", last)))

    def read_arm(self, case):
        """An arm of it. An error is passed on by a `match`, as of a struct."""
        variant, ok, err = case.variant, self.scope.variant("Ok"), self.scope.variant("Err")

        def value():
            return Call(ok, (built(f"{self.item.name}::{variant.name}", variant.shape, case.taken),))

        if not case.taken.parts:
            return str(variant.tag), value()
        kind = "" if case.taken.is_told() else f"::<{case.parts_type}>"
        pattern, made = read_arm(case.taken, value, True)
        arms = ((Call(ok, (pattern,)), made), (f"{err}(error)", f"{err}(error)"))
        return str(variant.tag), Match(f"reader.read_value{kind}()", arms)

    # The impls of writing.

    def write_impls(self):
        """`impl WriteCases` and `impl Writable`."""
        generics = self.generics
        tags = Match("self", tuple((self.pattern(case, True), str(case.variant.tag)) for case in self.cases))
        arms = Match("self", tuple((self.pattern(case), self.write_value(case)) for case in self.cases))
        found = self.writing("speedy::cases", "WriteCases", [f"    fn tag(&self) -> usize {{ {tags} }}", "",
                                                             *self.writer("write_case", str(arms))])
        arguments = f"{self.number}, Self, {generics.context}, {generics.writer}"
        body = f"{self.of_cases('write_tagged')}::<{arguments}>(self, writer)"
        return found + self.writing("speedy", "Writable", self.writer("write_to", body))

    def write_value(self, case):
        """What an arm of it does."""
        if not case.taken.parts:
            return f"{self.scope.variant('Ok')}(())"
        return Block(write_statements(case.taken), f"writer.write_value({written(case.taken, self.scope)})")

    def pattern(self, case, is_bare=False):
        """The pattern of a variant, with its fields bound, or with none."""
        variant, name = case.variant, f"{self.item.name}::{case.variant.name}"
        if is_bare and variant.shape == "tuple":
            return f"{name}(..)" if variant.fields else f"{name}()"
        if is_bare and variant.shape != "unit":
            return Build(name, (), bool(variant.fields))
        return variant_pattern(name, variant, case.taken.accesses)


def refuse_one_variant(shape):
    """Refuses an enum whose only variant finds no proof: one that is written, of too many records, or with a parameter
    that is a type or a number, with many parts or a `HashMap`."""
    item, kinds = shape.item, shape.kinds
    if len(shape.cases) != 1:
        return
    has_map = item.writable and any(map(is_hash_map, kinds))
    if Arms(shape, shape.place).is_named:
        others = len(shape.cases[0].taken.accesses) - 1
        is_past = item.writable and others * sum(map(records_in, kinds)) > RECORDS_OF_ONE
        what = "a `HashMap` beside others" if has_map else "many parts that own memory"
    else:
        is_past = has_map or len(kinds) > PARTS_OF_ONE or sum(map(types_in, kinds)) > TYPES_OF_ONE
        what = "a `HashMap`" if has_map else "many parts"
    if is_past:
        raise Refusal(item.line, f"`{item.name}` has one variant, and that has {what}, which finds no proof: put its "
                                 "fields into a struct of their own, which has the same bytes")


def refuse_late_variants(shape):
    """Refuses an enum that owns memory or borrows, of which values are made at variants that have no proof."""
    item = shape.item
    if item.readable and len(item.variants) > MOST_OWNING and any(map(owns_or_borrows, shape.kinds)):
        raise Refusal(item.line, f"what makes a value of `{item.name}` has no proof past its {MOST_OWNING}th variant, "
                                 "since others own memory or borrow: put some variants into an enum of their own")


def owns_or_borrows(kind):
    """Whether values of a type are known to own memory or to hold a reference."""
    return isinstance(kind, syntax.Reference) or is_listed(kind, *OWNING) or any(map(owns_or_borrows, parts_of(kind)))


def is_hash_map(kind):
    """Whether a type is a `HashMap`, as it is or behind a length."""
    return is_listed(parts_of(kind)[-1] if is_listed(kind, "Prefixed", "WithLength") else kind, "HashMap")


def records_in(kind):
    """Of how many records the values of a type are made, as a search enters them: those in lists and enums are not."""
    if is_listed(kind, "Prefixed", "WithLength", "Other") or isinstance(kind, syntax.Tuple):
        return sum(map(records_in, parts_of(kind)))
    if is_listed(kind, *SCALARS, "Option", "Result"):
        return 0
    inner = sum(not is_listed(it, *SCALARS) and types_in(it) for it in parts_of(kind)) \
        if is_listed(kind, "HashMap", "HashSet") else 0
    return RECORDS.get(getattr(kind, "name", None), 1) + inner


def types_in(kind):
    """How many types a type is made of."""
    return (TYPES_OF_OWN if isinstance(kind, Own) else 1) + sum(types_in(it) for it in parts_of(kind))


def enum_lines(item, scope, place):
    """The impls of an enum."""
    if not item.variants:
        raise Refusal(item.line, f"`{item.name}` has no variant, and so no value that is read or written")
    if len(item.variants) > MOST_VARIANTS:
        raise Refusal(item.line, f"Rattle has no enum of more than {MOST_VARIANTS} variants, and `{item.name}` has "
                                 f"{len(item.variants)}: put some into an enum of their own")
    if place is None:
        raise Refusal(item.line, "clauses name an enum by the module that holds it: write the module into a crate, "
                                 "as `crates/my_crate/src/messages.rt`, or say `--module my_crate::messages`")
    tags_of(item, scope)
    if item.depth:
        return RecursiveEnumShape(item, scope, place).lines()
    shape = EnumShape(item, scope, place)
    refuse_one_variant(shape)
    refuse_late_variants(shape)
    found = shape.lines()
    scope.answers.update({**answers(shape, place), **clone_answers(shape, place)})
    return found
