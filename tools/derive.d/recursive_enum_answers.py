"""The proofs of enums with `depth`, which the source determines: one for each way out of an arm, by its tag and its
place in the tree of the cases."""
from rattle import Call, clause_lines, in_lines
from recursive_answers import LAYERS, LEVELS, RULES, files, lemmas_of

TAGGED_LAYERS = "Rattle.speedy.specs.TaggedLayers"
# That the parts are those of the value.
PARTS = "(search (rules, the_lemmas))"
# What is appended after a tag is appended behind it, and nothing is appended by no bytes.
JOINED = "(g.met.W.Writer.additive _ _ _) (g.met.W.Writer.nothing _)"
# So wide is a line that lists names.
WIDTH = 110


def answers(shape):
    """The proofs of an enum: the path of each file below the crate's folder, and its text."""
    return files(shape, read_answers, least_answer, write_answers)


class Answers:
    """The answers of a function: what they import, and what each unfolds."""

    def __init__(self, shape, layers, tagged, cited):
        self.shape = shape
        self.layers = sorted(layers)
        self.tagged = sorted(tagged)
        self.cited = cited
        self.found = []

    def add(self, goal, lines, lets=()):
        """Adds one: a goal, the lines of its proof, and the names that these have for terms."""
        level = self.shape.level
        left = f"left = fold-{level} ℕ (λ level. levels_above level.0) c.in-Some.{self.shape.below}.now"
        first, *others = in_lines([*self.layers, *self.tagged], WIDTH)
        self.found += ["", f"pub {goal} : goal.{goal}", f"unfolding {' '.join(first)}",
                       *(f"    {' '.join(names)}" for names in others), f"{goal} g t c =",
                       *(f"    let {it} in" for it in ("level = c.in-Some.is", left, *lets)),
                       *lines]

    def last_level(self, lemma, *behind):
        """Adds that of no level, whose lemma takes what stands behind the error too."""
        self.found += ["", "pub returns-in_default : goal.returns-in_default", "returns-in_default g t c =",
                       "    let level = c.in_default.is in",
                       " ".join([f"    {lemma} _ _ {LEVELS} c.error_out_of_range_length.ensures", *behind])]

    def uses(self, module, lemma):
        """What they import."""
        shape = self.shape
        layers = in_lines(sorted({*self.layers, "levels_above"}), WIDTH - 30)
        tagged = in_lines([*self.tagged, *self.cited], WIDTH - 30)
        sides = sorted({side for case in shape.cases for side in case.sides()})
        return [f"use Rattle.std.proofs.Common.{{{', '.join(['rules', *sides, 'refl'])}}}",
                *(f"use {LAYERS}.{{{', '.join(names)}}}" for names in layers),
                f"use Rattle.speedy.specs.{module}.{{{lemma}}}",
                *(f"use {TAGGED_LAYERS}.{{{', '.join(names)}}}" for names in tagged),
                lemmas_of(shape, shape.item.name),
                lemmas_of(shape, shape.level, f" as level_lemmas, fold-{shape.level}")]


def read_answers(shape):
    """Those of reading: what is imported, and the answers."""
    layers = {"own_layer"} & shape.holding.used
    made = Answers(shape, layers, shape.branches - {"tagged_layer"}, ["tag_refused", "tagged_read", "case_refused"])
    made.last_level("none_read")
    made.add("returns-in-Err", [
        f"    tag_refused _ _ _ left _ (rw c.in-Err.is at c.read_number.ensures) {LEVELS}"])
    counts = {}
    for case in shape.cases:
        tag = case.variant.tag
        number = f"{tag} refl (rw (c.in-Ok.is, c.in-{tag}.is) at c.read_number.ensures)"
        before, behind = case.placed()
        if not case.parts:
            made.add(f"returns-in-{tag}", [
                f"    tagged_read _ _ _ left _ {number}",
                f"    {{parts = {before}(tt {{0}}){behind}}} (tt {{0}}, refl) {LEVELS} {PARTS}"])
            continue
        call = "read_below" if case.holds() else "read_value"
        count = counts[call] = counts.get(call, 0) + 1
        # The first call has its name alone; each later one names the arm that it stands in, or is counted.
        step, end = (call, call) if count == 1 else (f"{call}-in-{tag}", f"{call}-{count}")
        parts = clause_lines(4, f"{{parts = {before}", bound_by(case.pattern, f"c.in-Ok-{end}"), f"{behind}}}")
        made.add(f"returns-in-Ok-{end}", [
            f"    tagged_read _ _ _ left _ {number}", *parts, f"    (read.kept, read.answer) {LEVELS} {PARTS}"],
            [f"read = rw c.in-Ok-{end}.is at c.{step}.ensures"])
        made.add(f"returns-in-Err-{end}", [
            f"    case_refused _ _ _ left _ {number}", f"    (read.kept, read.answer) {LEVELS}"],
            [f"read = rw c.in-Err-{end}.is at c.{step}.ensures"])
    made.add("returns-in_default-tag", [
        "    case_refused _ _ _ left _ _ refl (rw c.in-Ok.is at c.read_number.ensures)",
        f"    (search rules) {LEVELS}"])
    return ["use Rattle.std.specs.Prelude.{ℕ}", *made.uses("ReadLayers", "none_read")], made.found


def bound_by(pattern, step):
    """What a pattern binds at a step, as a tuple of terms."""
    return [bound_by(it, step) for it in pattern.items] if isinstance(pattern, Call) else f"{step}.{pattern}"


def least_answer(shape):
    """That of the least size."""
    return [RULES, f"use {LAYERS}.{{at_level}}", f"use {TAGGED_LAYERS}.{{tagged_layer}}"], [
        "", "pub returns : goal.returns", "unfolding at_level tagged_layer", "returns g c = search rules"]


def write_answers(shape):
    """Those of writing."""
    units = [case for case in shape.cases if not case.parts]
    cited = ["tag_unwritten", "tagged_written"] * (len(units) < len(shape.cases)) + ["unit_written"] * bool(units)
    made = Answers(shape, shape.holding.used, shape.branches - {"tagged_layer"}, cited)
    made.last_level("none_written", "(g.met.W.Writer.nothing _)")
    calls = set()

    def step(call, place):
        """The name of a call: the first has its name alone, each later one names where it stands."""
        is_later = call in calls
        calls.add(call)
        return f"{call}-in{place}" if is_later else call

    for case in shape.cases:
        arm, tag = arm_of(case.variant.name), case.variant.tag
        tree = case.fields.each(lambda it, arm=arm: f"c.in-{arm}.{it.bound}") if case.parts else "(tt {0})"
        before, behind = case.placed()
        parts = clause_lines(4, f"({before}", tree, f"{behind}) refl")
        number = step("write_number", f"-{arm}")
        if not case.parts:
            made.add(f"returns-in-{arm}", [
                f"    unit_written _ _ _ left g.W.Writer.state g.W.Writer.appends {tag}", *parts,
                f"    {JOINED} c.{number}.ensures (refl, refl)", f"    {LEVELS} {PARTS}"])
            continue
        number = f"write_number-in-{arm}"
        passed = step("from_residual", f"_err-{number}")
        behind_tag = step("write_below" if case.holds() else "write_value", f"-{arm}")
        made.add(f"returns-in_err-{number}", [
            f"    tag_unwritten _ _ _ left g.W.Writer.state g.W.Writer.appends {tag}", *parts,
            f"    c.{passed}.ensures.1 c.in_err-{number}.ensures", f"    {LEVELS} {PARTS}"])
        made.add(f"returns-in_ok-{number}", [
            f"    tagged_written _ _ _ left g.W.Writer.state g.W.Writer.appends {tag}", *parts,
            f"    {JOINED}", f"    c.in_ok-{number}.ensures c.{behind_tag}.ensures", f"    {LEVELS} {PARTS}"])
    return ["use Rattle.std.specs.Prelude.{ℕ}", *made.uses("WriteLayers", "none_written")], made.found


def arm_of(name):
    """How the kit names the arm of a variant. `Some` is that of the level below."""
    return "Some-value" if name == "Some" else name
