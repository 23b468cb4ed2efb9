"""Proofs that the source determines: of the arms of enums, and of options behind a length. A search finds the same for
few variants and parts."""
import lengths
import syntax
from arms import CASES, Arms, LaterArms, wrapped
from parts import has_other_form, is_nested, moves_array
from rattle import names_in

# What a search for a proof is given besides a fact.
RULES = "use Rattle.std.proofs.Common.{rules}"
# The most characters of a line within an answer.
MOST_WIDE = 116
# A search by itself clones variants of fewer parts, and of more without a `SmallVec`.
MANY_CLONED = 5


def answers(shape, place):
    """The answers of an enum's `write_case`, `tag` and `read_case`: the path of each file below the crate's folder, and
    its text."""
    if len(shape.cases) == 1:
        return answers_of_one(shape, place)
    arms, writing = Arms(shape, place), shape.impl_name(CASES, "WriteCases")
    has_units = arms.are_many and not all(case.taken.parts for case in shape.cases)
    uses = arms.uses(["write_arm"], *(["Ok", "refl"] if has_units else []))
    found = file_of(place, [writing, "write_case"], write_answers(shape, arms), uses)
    if arms.is_named and arms.are_many:
        uses = arms.uses(["tag_arm"], "refl")
        found |= file_of(place, [writing, "tag"], tag_answers(shape, arms), uses)
    if shape.item.readable:
        found |= read_file(place, [reading(shape), "read_case"], shape.first, arms)
        for group in shape.later:
            found |= read_file(place, [group.function], group.cases, LaterArms(shape, place, group))
    return found


def clone_answers(shape, place):
    """The answers of the `clone` that the kit derives of an enum, for variants of many parts with a `SmallVec`: what it
    makes of one is found by a search once the variant stands in the goal. (Of arrays of what owns memory it is found
    only before.) A goal is named by how many parts were cloned, in all arms up to its own."""
    kept = shape.scope.derives.kept[shape.item.name]
    if "Clone" not in kept or "Copy" in kept or len(shape.cases) == 1:
        return {}
    cloned, lines = 0, []
    given = "g c" if any(it.kind != "lifetime" for it in shape.item.parameters) else "c"
    for case in shape.cases:
        name, parts = case.variant.name, len(case.variant.fields)
        cloned += parts
        kinds = [*(part.type for part in case.taken.parts), *(kind for kind, _ in case.taken.skipped)]
        named = set().union(*map(names_in, kinds)) if kinds else set()
        if parts >= MANY_CLONED and "SmallVec" in named and not any(isinstance(it, syntax.Array) for it in kinds):
            goal = f"returns-in-Ok-{cloned}"
            lines += ["", f"pub {goal} : goal.{goal}",
                      f"{goal} {given} = record {{ cases = rw c.in-{name}.is (search rules) }}"]
    return file_of(place, [shape.derived_impl_name("Clone"), "clone"], lines, [RULES])


def answers_of_one(shape, place):
    """The answers of an enum of one variant. No equation says which value the arm of its `write_case` matched, but each
    field that it binds comes with one: from these a search finds that what is seen of the fields is seen of the value.
    """
    case, arms, found = shape.cases[0], Arms(shape, place), {}
    if not case.taken.parts or not arms.is_named:
        return {}
    if shape.item.writable:
        steps = options_of(case.taken, "lent_by", set(), case.variant.name)
        lines = ["", "-- a fact before the equation of what it tells",
                 "turned : {A B C : Type 0} → (A → B → C) → B → A → C", "turned f fact is = f is fact",
                 "", "pub returns : goal.returns",
                 *rewritten("returns", steps, "c.write_value.ensures", arms.write_seen)]
        uses = [RULES, *arms.uses(["write_arm"])]
        found |= file_of(place, [shape.impl_name(CASES, "WriteCases"), "write_case"], lines, uses)
    if shape.item.readable:
        found |= read_file(place, [reading(shape), "read_case"], shape.first, arms)
    return found


def read_file(place, path, cases, arms):
    """The answers of a function that reads some cases."""
    has_parts, has_units = any(case.taken.parts for case in cases), any(not case.taken.parts for case in cases)
    lemmas = [arms.lemma, "read_of"] if has_parts else [arms.lemma]
    uses = [RULES] if any(has_other_form(case.taken) or copies(case.taken, arms.generics) for case in cases) else []
    uses += arms.uses(lemmas, *(["refl"] if has_units and arms.are_many else []))
    lines = read_answers(cases, arms)
    return file_of(place, path, arms.definition() + lines if lines else [], uses)


def answers_of_struct(shape, taken, place):
    """The answers of the functions by which a struct reads and writes its parts, if one of these is an option behind a
    length, and of that by which it reads a signed number among many."""
    lent, read = options_of(taken, "lent_by", set(), None), options_of(taken, "taken_by", set(), None)
    if place is None:
        return {}
    found = {}
    if shape.item.writable and lent:
        module, trait, function, called = ("speedy::whole", "WriteToEnd", "write_to_end", "write_to_end") \
            if shape.ends_with_input else ("speedy", "Writable", "write_to", "write_value")
        lines = ["", "pub returns : goal.returns", *rewritten("returns", lent, f"c.{called}.ensures")]
        found |= file_of(place, [shape.impl_name(module, trait), function], lines)
    ranges = ranges_of(taken)
    is_long = ranges and (is_nested(taken.tree) or any(part.tree is not None for part in taken.parts)
                          or is_hashed(taken))
    if shape.item.readable and not shape.ends_with_input and (is_long or lent):
        is_copied = copies(taken, shape.generics)
        is_searched = bool(ranges) or moves_array(taken) or is_copied
        lines = answered("returns-in-Ok", "Ok", "read_value", read, None, is_searched, ranges, is_copied=is_copied)
        uses = [RULES] if is_searched else []
        found |= file_of(place, [shape.impl_name("speedy", "ReadFrom", lending(shape)), "read_from"], lines, uses)
    return found


def copies(taken, generics):
    """Whether a part beside others is of a parameter that is `Copy`: a search finds that its copy is what was read."""
    return len(taken.parts) > 1 and any(generics.is_copied(part.type) for part in taken.parts)


def is_hashed(taken):
    """Whether a hashed map or set is a part among others: more is known of it than a search looks at by itself."""
    kinds = [*(part.type for part in taken.parts), *(kind for kind, _ in taken.skipped)]
    return len(kinds) > 2 and any(names_in(kind) & {"HashMap", "HashSet"} for kind in kinds)


def ranges_of(taken):
    """Where what is known of what was read, `held`, says the range of each signed number: what was read is the number
    again since it is within its range."""
    return [f"held{place}" for part, at in places(taken.tree) for number, place in lengths.known_parts(part, at)
            if number.is_signed()]


def places(tree, place=""):
    """The parts of a tree of tuples, if there is one, each with where what is known of the tuple says what is known of
    the part."""
    if not isinstance(tree, list):
        return [] if tree is None else [(tree, place)]
    return [it for at, below in enumerate(tree) for it in places(below, lengths.known_at(place, at))]


def lending(shape):
    """What the name of an impl of reading has at its end."""
    return "RefSliceU8" if shape.generics.lending else ""


def reading(shape):
    """What the impl is called that reads the cases of an enum."""
    return shape.impl_name(CASES, "ReadCases", lending(shape))


def answered(goal, arm, step, taken, tag, is_searched=False, ranges=(), arms=None, is_copied=False):
    """The answer of a goal by what was read, of which some options are taken: as the value of a tag, by the arms of its
    enum, or of a struct. Where the result has another form, a search finds what was read in it, by the ranges of signed
    numbers. These lie deep in what is known of the result, and a search looks into so many records alone. Where a part
    is copied, it finds what the options are, too."""
    of_call = arms.read_of(arm, step) if arms else f"rw c.in-{arm}.is at c.{step}.ensures"
    found, answer = [f"    let read = {of_call} in"], "read.answer"
    told = taken if is_copied else []
    for place, ensured in enumerate([] if is_copied else taken):
        name = "answer" + "'" * place
        found.append(f"    let {name} = rw {ensured} at {answer} in")
        answer = name
    if is_searched and ranges:
        found.append(f"    let held = (rw c.in-{arm}.is at c.{step}.type_inv).1.1.1.1.1.0 in")
    facts = ["rules", answer, *told, *ranges]
    if is_searched:
        answer = f"search ({', '.join(facts)})"
    last = arms.read(tag, f"(read.kept, {answer})") if arms \
        else [f"record {{ kept = read.kept; answer = {answer} }}"]
    if is_searched and len(last[-1]) > MOST_WIDE:
        found += [f"    {part}" for line in last[:-1] for part in wrapped(line)] + spread(last[-1], facts)
    elif is_searched or len(last) > 1:
        found += [f"    {part}" for line in last for part in wrapped(line)]
    else:
        found[-1] += f" {last[0]}"
    return ["", f"pub {goal} : goal.{goal}", f"{goal} g c =", *found]


def spread(line, facts):
    """A line that ends with a search by many facts, as the formatter lays it out."""
    is_record = line.startswith("record")
    head, kept, before, end, tail = ("record {", "kept = read.kept;", "answer = ", ";", "}") if is_record else \
        (line.partition("(read.kept, ")[0] + "(", "read.kept,", "", ",", ")")
    searched = f"{before}search ({', '.join(facts)}){end}"
    lines = [searched] if len(searched) <= MOST_WIDE - 2 else \
        [f"{before}search (", *(f"  {fact}," for fact in facts), f"){end}"]
    return [f"    {head}", *(f"      {it}" for it in [kept, *lines]), f"    {tail}"]


def file_of(place, within, lines, uses=()):
    """A file of answers of a function, of which `place` says the module and `within` the impl, if any, and the name: by
    its path, its text. `uses` are imports of more than its goals."""
    if not lines:
        return {}
    crate, *modules = place
    path = [*modules, *within]
    use = f"use Rattle.{crate}.proofs.{'.'.join(path)}.Goals as goal"
    return {"/".join(["proofs", *path, "Answers.antt"]): "\n".join([*uses, use, *lines]) + "\n"}


def options_of(taken, by, known, arm):
    """What the calls ensure by which options behind a length are lent or taken. The first call for a variable of a name
    has that alone; each later one names the arm that it stands in."""
    found = []
    for part in lengths.leaf_parts(taken.parts):
        if getattr(part, by):
            name = f"{getattr(part, by)}-{part.bound}"
            found.append(f"c.{name}-in-{arm}.ensures" if name in known else f"c.{name}.ensures")
            known.add(name)
    return found


def answered_by(goal, steps, fact, matched):
    """The answer of a goal by what was written, of which some options were lent, as `matched` says. In its answer alone
    these are rewritten one after another: of a case of many parts the whole is too much for that."""
    if not steps:
        return defined(goal, matched(fact))
    found, answer = [f"    let before = {fact} in"], "before.answer"
    for place, step in enumerate(steps):
        name = "answer" + "'" * place
        found.append(f"    let {name} = rw {step} at {answer} in")
        answer = name
    last = matched(f"(record {{ kept = before.kept; answer = {answer} }})")
    return [f"{goal} g c =", *found, *(f"    {line}" for line in last)]


def rewritten(goal, steps, fact, matched=None):
    """The answer of a goal by a fact, which is rewritten by some steps, one after another, and then taken from what
    an arm matched, as `matched` says."""
    found, last = [], matched(fact) if matched else [fact]
    for place, step in enumerate(steps):
        name = "written" + "'" * place
        if matched is None and place + 1 == len(steps):
            last = [f"rw {step} at {fact}"]
        else:
            found.append(f"    let {name} = rw {step} at {fact} in")
            fact, last = name, matched(name) if matched else [name]
    return defined(goal, last) if not found else [f"{goal} g c =", *found, *(f"    {line}" for line in last)]


def defined(goal, lines):
    """The answer of a goal by these lines, or on its own line where it is one."""
    return [f"{goal} g c = {lines[0]}"] if len(lines) == 1 else [f"{goal} g c =", *(f"    {line}" for line in lines)]


def tag_answers(shape, arms):
    """The tag of an arm is that of the case of the variant that it matches."""
    found = []
    for case in shape.cases if shape.item.writable else []:
        goal = f"returns-in-{case.variant.name}"
        lines = wrapped(f"tag_arm {arms.cases} _ c.in-{case.variant.name}.is refl")
        found += ["", f"pub {goal} : goal.{goal}", *defined(goal, lines)]
    return found


def write_answers(shape, arms):
    """What is promised of an arm is what the call in it promises, at the variant that the arm matches."""
    found, known = [], set()
    cases = [case for case in shape.cases if case.taken.parts and shape.item.writable]
    for place, case in enumerate(cases):
        # The first call has its name alone; each later one names the arm that it stands in.
        name = case.variant.name
        step = f"write_value-in-{name}" if place else "write_value"
        goal, steps = f"returns-in-{name}", options_of(case.taken, "lent_by", known, name)
        found += ["", f"pub {goal} : goal.{goal}",
                  *answered_by(goal, steps, f"c.{step}.ensures", lambda fact, name=name: arms.write(name, fact))]
    for case in shape.cases:
        if shape.item.writable and not case.taken.parts:
            name = case.variant.name
            found += arms.without_parts(name, arms.write(name, "(refl, refl)", "(Ok tt)"))
    return found


def read_answers(cases, arms):
    """The same of reading, in a function that reads these cases."""
    found, known = [], set()
    for place, case in enumerate(case for case in cases if case.taken.parts):
        tag = case.variant.tag
        end = "" if place == 0 else "-read_value" if place == 1 else f"-read_value-{place}"
        step = f"read_value-in-{tag}" if place else "read_value"
        taken = options_of(case.taken, "taken_by", known, f"Ok{end}")
        is_copied = copies(case.taken, arms.generics)
        how = (has_other_form(case.taken) or is_copied, ranges_of(case.taken), arms, is_copied)
        found += answered(f"returns-in-Ok{end}", f"Ok{end}", step, taken, tag, *how)
        found += answered(f"returns-in-Err{end}", f"Err{end}", step, [], tag, arms=arms)
    for case in cases:
        if not case.taken.parts:
            found += arms.without_parts(case.variant.tag, arms.read(case.variant.tag, "(tt, refl)"))
    return found
