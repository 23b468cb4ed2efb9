"""Proofs that a view shows no value where one that it holds shows none. A search finds them but where that one borrows:
what it borrows lies somewhere, which no fact says, and so the search does not find the value that it is a part of."""
from names import camel, quoted
from views import maybes

# The kinds of fields whose value may be missing.
ASKED = ("text", "flag", "char", "own", "maybe")


def answers(library):
    """The answers of each function `value`: the path of each file below the crate's folder, and its text."""
    found = {}
    views = [it for it in library.views if it.item.writable]
    for kind in maybes(views):
        if needs(kind.of):
            found |= option_file(library, kind)
    for view in views:
        lines = struct_lines(view) if view.cases is None else case_lines(view)
        if lines:
            found |= file_of(library, f"{view.camel}View", view.exported.path[-1], enum_of(library, view), lines)
    return found


def needs(kind):
    """Whether a field is of a type of the file that borrows."""
    return kind.what == "own" and kind.borrows


def enum_of(library, view):
    """What answers of an enum import."""
    if view.cases is None:
        return []
    path = ".".join(("Rattle", library.name, "specs.declared", library.module, *view.exported.path))
    return ["use Rattle.std.proofs.Common.{arith}", f"use {path}.{{{view.exported.path[-1]}}}"]


def file_of(library, name, item, uses, lines):
    """A file of answers of a view's function."""
    crate = f"Rattle.{library.name}"
    head = [*uses, "use Rattle.speedy.specs.ViewArms.{shows_none}",
            f"use {crate}.specs.contracts.views.{name}View{item}.TheImpl.{{ghosts as view}}",
            f"use {crate}.proofs.views.{name}Shown{item}.value.Goals as goal"]
    return {f"proofs/views/{name}Shown{item}/value/Answers.antt": "\n".join([*head, *lines]) + "\n"}


def goal_lines(goal, is_first, body):
    """The answer of a goal, of the first `?` of its function or of another."""
    residual = "c.from_residual" if is_first else f"c.from_residual-{goal}"
    return ["", f"pub returns-{goal} : goal.returns-{goal}", f"returns-{goal} c =",
            f"    shows_none _ view.shows c.args.self.now _ _ {residual}.ensures.1", *body]


def elim_lines(arms):
    """A function of a value, by its variants."""
    return ["    (λ value. elim value as (λ it. view.shows it c.args.self.now → ⊥) [",
            *(f"      | {pattern} ↦ λ shown. {proof}" for pattern, proof in arms), "    ])"]


def option_file(library, kind):
    """The answers of a view of an option."""
    goal = "in_err-it-in-1"
    arms = [("None", "omega (arith, shown, c.in-1.is)"), ("Some it", f"c.{goal}.ensures it shown.1")]
    uses = ["use Rattle.std.proofs.Common.{arith}", "use Rattle.std.specs.Prelude.{Some, None}"]
    item = f"Option{kind.of.of.exported.path[-1]}"
    return file_of(library, f"{camel(kind.label)}View", item, uses, goal_lines(goal, True, elim_lines(arms)))


def struct_lines(view):
    """The answers of a view of a struct."""
    found, is_first = [], True
    for at, it in enumerate(view.fields):
        if needs(it.kind):
            shown = f"shown.{at}" if len(view.fields) > 1 else "shown"
            body = f"    (λ value shown. c.in_err-t{at}.ensures value.{quoted(it.access)} {shown})"
            found += goal_lines(f"in_err-t{at}", is_first, [body])
        is_first = is_first and it.kind.what not in ASKED
    return found


def case_lines(view):
    """The answers of a view of an enum."""
    found, is_first = [], True
    for case in view.cases:
        for at, it in enumerate(case.fields):
            if needs(it.kind):
                goal = f"in_err-t{at}-in-{case.tag}"
                held = f"c.{goal}.ensures t{at} shown.{at + 1}"
                arms = [(pattern(view, other), held if other is case else
                         f"omega (arith, shown{'.0' * bool(other.fields)}, c.in-{case.tag}.is)")
                        for other in view.cases]
                found += goal_lines(goal, is_first, elim_lines(arms))
            is_first = is_first and it.kind.what not in ASKED
    return found


def pattern(view, case):
    """A variant with names of its fields."""
    return f"{view.exported.path[-1]}.{case.name}" + "".join(f" t{at}" for at in range(len(case.fields)))
