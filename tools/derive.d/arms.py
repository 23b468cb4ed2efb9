"""How the answers of an enum's arms are stated."""
import textwrap

CASES = "speedy::cases"
# An enum of so many variants has answers for tags and for variants without parts, too, which a search finds slowly.
MANY = 8


def wrapped(line):
    """A line of an answer as lines that stand within 120 columns."""
    return textwrap.wrap(line, 116, break_long_words=False, break_on_hyphens=False)


class Arms:
    """How the arms of an enum answer: from what holds of what an arm matched, as the tag, to what the function ensures.

    Lemmas do this that take the enum's cases, which are named by the module of its impl of `Cases`. Where numbers would
    have to be given to that, or more than how a parameter is laid out, or it has another name, the goal is rewritten,
    for which the whole tree of the cases is computed in each arm."""

    # What goes from the tag that an arm of reading matched to the tag.
    lemma = "read_arm"

    def __init__(self, shape, place):
        self.crate, *modules = place
        self.generics = shape.generics
        self.are_many = len(shape.cases) >= MANY
        types = self.types_given(shape) if self.are_many else []
        self.path = ".".join([f"Rattle.{self.crate}.specs.contracts", *modules,
                              f"{shape.impl_name(CASES, 'Cases', types=len(types))}.TheImpl"])
        self.is_named = shape.cases_type.partition("<")[0] == f"{shape.item.name}Cases" \
            and len(types) == sum(it.kind != "lifetime" for it in shape.item.parameters)
        # Each parameter that is a type stands before how the first is laid out.
        rows = [f"g.row.{it}" for it in types]
        given = rows + [f"g.{it}.Layout{end}" for it in types for end in ("", "-dict")]
        self.cases = f"(cases {' '.join(given)})" if types else "cases"

    @staticmethod
    def types_given(shape):
        """The parameters that the cases of an enum take: types of which they ask how these are laid out, no more."""
        generics = shape.generics
        asked = generics.of_impl(shape.asked, generics.laying_out())
        plain = {f"{it.name}: {shape.scope.need('speedy', 'Layout')}": it.name for it in shape.item.parameters
                 if it.kind == "type"}
        return [] if generics.wheres_text() else [plain[it] for it in asked if it in plain]

    def definition(self):
        """What stands before the answers of reading."""
        return []

    def uses(self, lemmas, *words):
        """What a file of answers imports: lemmas of arms, and words of std."""
        if not self.is_named:
            return []
        known = [f"use Rattle.std.proofs.Common.{{{', '.join(words)}}}"] if words else []
        return [*known, f"use Rattle.speedy.specs.CaseArms.{{{', '.join(lemmas)}}}",
                f"use {self.path}.{{ghosts as cases}}"]

    def read_of(self, arm, step):
        """What a call ensures of the result that an arm matched."""
        call = f"c.{step}.ensures"
        return f"read_of c.in-{arm}.is {call}" if self.is_named else f"rw c.in-{arm}.is at {call}"

    def read(self, tag, pair):
        """The lines of what is read of the case of a tag."""
        if not self.is_named:
            return [f"rw c.in-{tag}.is {pair}"]
        context = f"g.{self.generics.context}.Error"
        told = f"{context}.From.from_gives {context}.IsEof.eof g.{self.generics.reader}.LendingReader.state"
        return [*wrapped(f"read_arm {self.cases} {told} _ _ _"), f"c.in-{tag}.is {pair}"]

    def write(self, variant, fact, result="_"):
        """The lines of what is written of a variant."""
        if not self.is_named:
            return [f"rw c.in-{variant}.is {fact}"]
        told = f"g.{self.generics.context}.Error.From.from_gives"
        writer = f"g.{self.generics.writer}.Writer"
        return [*wrapped(f"write_arm {self.cases} {told} {writer}.state {writer}.appends {result} _ _"),
                f"c.in-{variant}.is {fact}"]

    def write_seen(self, fact):
        """The lines of what is written of the only variant, by what is seen of its fields."""
        told = f"g.{self.generics.context}.Error.From.from_gives"
        writer = f"g.{self.generics.writer}.Writer"
        return ["turned (write_arm (record { Seen = cases.Seen; seen = λ v. v; choices = cases.choices })",
                f"{told} {writer}.state {writer}.appends _ _ _) {fact} (search (rules))"]

    def without_parts(self, arm, lines):
        """The answer of the arm of a case without parts."""
        goal = f"returns-in-{arm}"
        return ["", f"pub {goal} : goal.{goal}", f"{goal} g c =", *(f"    {line}" for line in lines)] \
            if self.is_named and self.are_many else []


class LaterArms(Arms):
    """The same of a function that reads a later group, whose cases are those of a type of their own."""
    lemma = "read_at"

    def __init__(self, shape, place, group):
        super().__init__(shape, place)
        # A definition of the file has no parameters.
        self.is_named = self.is_named and self.cases == "cases"
        self.group = group
        tree = shape.impl_name(CASES, "CaseTree", of=group.type)
        self.rest = ".".join([f"Rattle.{self.crate}.specs.contracts", *place[1:], f"{tree}.TheImpl"])

    def uses(self, lemmas, *words):
        """What the file imports, and what it says of a tag."""
        if not self.is_named:
            return []
        choices = "use Rattle.speedy.specs.Choices.{AtTag, right_case}"
        return [*super().uses(lemmas, "ℕ", *words), choices, f"use {self.rest}.{{ghosts as rest}}"]

    def definition(self):
        """What stands behind a tag that none of the groups before has."""
        if not self.is_named:
            return []
        return ["", "-- what stands behind a tag that no group before this has",
                "abbrev behind : ℕ → AtTag cases.Seen",
                f"behind n = {''.join(self.group.behind('rest.choices.case_of n'))}"]

    def read(self, tag, pair):
        """The lines of what is read of the case of a tag."""
        first, *others = super().read(tag, pair)
        return [first.replace("read_arm cases", "read_at behind cases.seen"), *others]
