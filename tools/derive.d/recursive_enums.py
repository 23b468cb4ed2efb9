"""Enums with `depth`, whose values hold values of their own type: a tag, and behind it the parts of a case."""
from dataclasses import dataclass

from names import Fresh
from parts import NUMBERS, accesses_of_variant, built, number_of, read_arm, variant_pattern, written
from rattle import CLAUSE_WIDTH, Block, Call, Let, Match, clause_lines, type_text
from recursion import LAYERS, Fields, Held, LevelShape, emptied
from recursive_enum_answers import TAGGED_LAYERS, answers
from refusal import Refusal
from trees import halved, leaves
from words import CLAUSE_WORDS, NO_PARAMETER, TACTICS

# What proofs say of an arm beside the variables that it binds, and words that they have.
OF_PROOFS = CLAUSE_WORDS | NO_PARAMETER | TACTICS | {"is", "was"}

# A longer type has a name.
LONG = 24


@dataclass
class Case:
    """A variant with its fields, and its place in the tree of the cases: `0` for left, `1` for right."""
    variant: object
    fields: Fields
    path: str
    # What it is read and written as, where a part holds the enum.
    read_shape: str = ""
    lent_shape: str = ""
    # How it holds the enum, as a clause.
    branch: str = ""
    # The pattern of what is read.
    pattern: object = ""

    @property
    def parts(self):
        """The items that have bytes."""
        return self.fields.parts()

    @property
    def taken(self):
        """What is taken of its fields, where no part holds the enum."""
        return self.parts[0]

    def holds(self):
        """Whether a part holds the enum."""
        return any(isinstance(it, Held) for it in self.parts)

    def sides(self):
        """Its place in the tree, from the top on."""
        return ["inl" if side == "0" else "inr" for side in self.path]

    def placed(self):
        """What stands before and behind what is at its place in the tree."""
        sides = self.sides()
        return " (".join(sides) + " " * bool(sides), ")" * max(len(sides) - 1, 0)


class RecursiveEnumShape(LevelShape):
    """What the impls of an enum with `depth` are made of."""

    def __init__(self, item, scope, place):
        super().__init__(item, scope, place)
        if len(item.variants) == 1:
            raise Refusal(item.line, "an enum with `depth` has two variants or more, since proofs name what each of "
                                     f"several arms binds: make `{item.name}` a struct, or write its impls by hand")
        self.cases = []
        # The library's clauses about tags that say how it holds its values.
        self.branches = set()
        for path, variant in leaves(halved(item.variants)):
            accesses = accesses_of_variant(variant.fields, scope, OF_PROOFS)
            fields = Fields(self.holding, f"{item.name}::{variant.name}", variant.fields, accesses)
            self.cases.append(Case(variant, fields, path))
        self.shaped([case.fields for case in self.cases], scope)
        self.refuse_endless()
        scope.least[item.name] = NUMBERS[item.tag_type][2]
        scope.layered.add(item.name)
        self.number = type_text(number_of(scope, item.tag_type, item.line))

    def refuse_endless(self):
        """Refuses an enum each of whose values holds another one."""
        refusals = []
        for case in self.cases:
            try:
                for it in case.parts:
                    if isinstance(it, Held):
                        emptied(it.kind, self.item.name)
                return
            except Refusal as refusal:
                refusals.append(refusal)
        raise refusals[0]

    # What says how it holds its values.

    def shapes(self):
        """Names what each case is read and written as."""
        for case in self.cases:
            name, title = f"{self.item.name}{case.variant.name}", f"[`{self.item.name}::{case.variant.name}`]"
            if case.holds():
                self.name_shapes(case, name, title)
                case.branch = self.branch("one", case, f" {self.quoted_shape(case.read_shape)}.layer")
            elif case.parts:
                kind = self.taken_type(case, name, title)
                quoted = self.quoted(kind)
                self.holding.used.add("own_layer")
                self.scope.ghost_paths.add(f"{LAYERS}.own_layer")
                case.branch = self.branch("one", case, f" (own_layer {quoted}.seen {quoted}.layout)")
            else:
                case.branch = self.branch("unit", case, "")

    def name_shapes(self, case, name, title):
        """Names what a case is read and written as, a part of which holds the enum."""
        case.read_shape = case.fields.read_shape()
        is_long = len(case.read_shape) > LONG
        if is_long:
            case.read_shape = self.alias(f"{name}Parts", f"How {title} holds others.", case.read_shape, ())
        if self.item.writable:
            lent = case.fields.lent_shape()
            case.lent_shape = self.lent_alias(f"{name}Lent", lent) if is_long else lent.replace("'t", "'_")

    def taken_type(self, case, name, title):
        """The type of the parts of a case, none of which holds the enum: a name of it where it is long."""
        kind = case.taken.type()
        if len(type_text(kind)) > LONG:
            return self.alias(f"{name}Parts", f"The parts of {title}.", kind, ())
        return type_text(kind)

    def branch(self, kind, case, layer):
        """How a case holds the enum, as a clause."""
        return f"({self.tagged(f'{kind}_branch')} {case.variant.tag}{layer})"

    def tagged(self, name):
        """A name of the library's clauses about tags."""
        self.branches.add(name)
        self.scope.ghost_paths.add(f"{TAGGED_LAYERS}.{name}")
        return name

    def recursive_lines(self):
        """The clause that a value has the layer of its case."""
        name = self.item.name
        tree = halved([case.branch for case in self.cases])
        prefix = f"⟦<{self.number} as {self.scope.need('speedy::prefixed', 'Prefix')}>⟧.numbers"
        found = [self.declared(name, f"out-{name}"), self.declared(f"{name}.TheOpen", f"{name}-F"), "",
                 f"    ghost layer = {{ {self.tagged('tagged_layer')} {prefix}", *self.branch_lines(6, tree)]
        found.append(f"      (λ it. elim (out-{name} it) [")
        for case in self.cases:
            bound = "".join(f" {access.seen}" for access in case.fields.accesses)
            before, behind = case.placed()
            tree = case.fields.seen() if case.parts else "tt"
            found += clause_lines(8, f"| {name}-F.{case.variant.name}{bound} ↦ {before}", tree, behind)
        self.scope.ghost_paths |= {f"Rattle.std.proofs.Common.{side}" for case in self.cases for side in case.sides()}
        return [*found, "      ]) };"]

    def branch_lines(self, indent, tree, behind=""):
        """A tree of cases as a clause, with one half a line where it does not fit on one."""
        one = " " * indent + self.branch_text(tree) + behind
        if len(one) <= CLAUSE_WIDTH or not isinstance(tree, tuple):
            return [one]
        first, second = tree
        return [" " * indent + f"({self.tagged('either_branch')}", *self.branch_lines(indent + 2, first),
                *self.branch_lines(indent + 2, second, ")" + behind)]

    def branch_text(self, tree):
        """The same on one line."""
        if not isinstance(tree, tuple):
            return tree
        return f"({self.tagged('either_branch')} {' '.join(self.branch_text(it) for it in tree)})"

    # Reading.

    def read_body(self):
        """What reads a value: its tag, and then its case."""
        ok, err = self.scope.variant("Ok"), self.scope.variant("Err")
        self.scope.need("speedy::prefixed", "ReadPrefix")
        refused = self.scope.need("speedy::private", "error_invalid_enum_variant")
        number = Match(f"{self.number}::read_number(reader)",
                       ((Call(ok, ("tag",)), "tag"), (f"{err}(error)", f"return {err}(error)")))
        arms = [(str(case.variant.tag), self.read_arm(case)) for case in self.cases]
        return f"{Let('tag', number)} {Match('tag', (*arms, ('_', f'{err}({refused}())')))}"

    def read_arm(self, case):
        """What reads the parts of a case."""
        head = (f"{self.item.name}::{case.variant.name}", case.variant.shape)
        if case.parts and not case.holds():
            ok = self.scope.variant("Ok")
            case.pattern, made = read_arm(case.taken, lambda: Call(ok, (built(*head, case.taken),)))
            return self.read_match("reader.read_value()", case.pattern, made)
        case.pattern, made = case.fields.read(Fresh(it.bound for it in case.fields.accesses), head)
        return self.read_match(self.read_below(case.read_shape), case.pattern, made) if case.parts else made

    # Writing.

    def write_body(self):
        """What writes a value: the tag of its case, and then its parts."""
        self.scope.need("speedy::prefixed", "WritePrefix")
        return str(Match("value", tuple((variant_pattern(f"{self.item.name}::{case.variant.name}", case.variant,
                                                         case.fields.accesses), self.write_arm(case))
                                        for case in self.cases)))

    def write_arm(self, case):
        """What writes a case."""
        number = f"{self.number}::write_number({case.variant.tag}, writer)"
        if not case.parts:
            return number
        if not case.holds():
            return Block((f"{number}?;",), f"writer.write_value({written(case.taken, self.scope)})")
        parts, lets = case.fields.written(), ()
        if isinstance(parts, Call):
            parts, lets = "parts", (Let("parts", parts),)
        return Block((f"{number}?;", *lets), self.write_below(case.lent_shape, f"&{parts}"))

    # Proofs.

    def answers(self):
        """The proofs that a search does not find."""
        return answers(self)
