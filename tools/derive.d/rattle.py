"""What a made module is made of: types, expressions and items of Rattle. The kit's formatter lays it out."""
import shutil
import subprocess
import tempfile
from dataclasses import dataclass
from pathlib import Path

import syntax

# So wide may a line of a clause be, which the formatter leaves as it is.
CLAUSE_WIDTH = 118


# Types. Tuples, arrays, slices, references, lifetimes and the lengths of arrays are those of `syntax`.

@dataclass(frozen=True)
class Listed:
    """A type of the kit or of this library: its name, and the name that the made module has for it."""
    line: int
    name: str
    arguments: tuple = ()
    local: str = ""


@dataclass(frozen=True)
class Own:
    """A type that the file declares."""
    line: int
    name: str
    arguments: tuple = ()


@dataclass(frozen=True)
class Foreign:
    """A type of another module, by the name that it is imported by."""
    line: int
    name: str
    arguments: tuple = ()


@dataclass(frozen=True)
class Variable:
    """A parameter of the type."""
    line: int
    name: str


def is_listed(kind, *names):
    """Whether a type is one of these."""
    return isinstance(kind, Listed) and kind.name in names


def type_text(kind):
    """A type on one line."""
    if isinstance(kind, syntax.Lifetime):
        return kind.name
    if isinstance(kind, syntax.Tuple):
        return f"({type_text(kind.parts[0])},)" if len(kind.parts) == 1 else f"({types_text(kind.parts)})"
    if isinstance(kind, syntax.Array):
        return f"[{type_text(kind.item)}; {kind.length}]"
    if isinstance(kind, syntax.Slice):
        return f"[{type_text(kind.item)}]"
    if isinstance(kind, syntax.Reference):
        return f"&{kind.lifetime.name} {'mut ' if kind.mutable else ''}{type_text(kind.target)}"
    if isinstance(kind, Variable):
        return kind.name
    if isinstance(kind, (Listed, Own, Foreign)):
        name = getattr(kind, "local", "") or kind.name
        return f"{name}<{types_text(kind.arguments)}>" if kind.arguments else name
    return str(kind)


def types_text(kinds):
    """Types one after another."""
    return ", ".join(type_text(kind) for kind in kinds)


def parts_of(kind):
    """The types that a type is made of."""
    if isinstance(kind, syntax.Tuple):
        return kind.parts
    if isinstance(kind, (syntax.Array, syntax.Slice)):
        return (kind.item,)
    if isinstance(kind, syntax.Reference):
        return (kind.lifetime, kind.target)
    return getattr(kind, "arguments", ())


def holds_listed(kind, *names):
    """Whether a type is one of these listed ones, or holds one."""
    return is_listed(kind, *names) or any(holds_listed(it, *names) for it in parts_of(kind))


def names_in(kind):
    """The names of types, parameters and lifetimes in a type."""
    found = set().union(*(names_in(part) for part in parts_of(kind)))
    if isinstance(kind, syntax.Array):
        found.add(str(kind.length))
    if isinstance(kind, (Listed, Own, Foreign, Variable, syntax.Lifetime)):
        found.add(getattr(kind, "local", "") or kind.name)
    elif isinstance(kind, str):
        found.add(kind)
    return found


# Expressions and patterns.

@dataclass(frozen=True)
class Call:
    """A call, a variant or a struct without names of fields; a tuple where the head is empty."""
    head: str
    items: tuple

    def __str__(self):
        inner = ", ".join(map(str, self.items))
        return f"{self.head}({inner}{',' if not self.head and len(self.items) == 1 else ''})"


@dataclass(frozen=True)
class Build:
    """A struct or a pattern with named fields: pairs of a name and what stands at it; `rest` is for those left out."""
    head: str
    fields: tuple
    rest: bool = False

    def __str__(self):
        inner = [name if name == str(value) else f"{name}: {value}" for name, value in self.fields]
        inner += [".."] if self.rest else []
        return f"{self.head} {{ {', '.join(inner)} }}" if inner else f"{self.head} {{}}"


@dataclass(frozen=True)
class Match:
    """A `match`: pairs of a pattern and a value."""
    value: object
    arms: tuple

    def __str__(self):
        arms = "".join(f"{pattern} => {value}{' ' if is_block(value) else ', '}" for pattern, value in self.arms)
        return f"match {self.value} {{ {arms}}}"


@dataclass(frozen=True)
class Block:
    """Statements, and the value behind them; without statements that value alone."""
    statements: tuple
    value: object

    def __str__(self):
        if not self.statements:
            return str(self.value)
        return f"{{ {' '.join(map(str, self.statements))} {self.value} }}"


@dataclass(frozen=True)
class Let:
    """`let pattern: kind = value;`."""
    pattern: object
    value: object
    kind: str = ""

    def __str__(self):
        return f"let {self.pattern}{': ' if self.kind else ''}{self.kind} = {self.value};"


def is_block(value):
    """Whether a value stands in braces of its own."""
    return isinstance(value, Block) and bool(value.statements)


def tuple_of(items):
    """A tuple, or the only item."""
    return items[0] if len(items) == 1 else Call("", tuple(items))


# Clauses.

def clause_text(tree):
    """A tuple of clauses on one line."""
    return "(" + ", ".join(clause_text(it) for it in tree) + ")" if isinstance(tree, list) else tree


def in_lines(names, room):
    """Names in lists that each have room on a line."""
    found, length = [[]], 0
    for name in names:
        length += len(name) + 2
        if length > room:
            found.append([])
            length = len(name) + 2
        found[-1].append(name)
    return found


def clause_lines(indent, before, tree, behind):
    """A tuple of clauses, with one a line where they do not fit."""
    one = " " * indent + before + clause_text(tree) + behind
    if len(one) <= CLAUSE_WIDTH or not isinstance(tree, list):
        return [one]
    found = [" " * indent + before + "("]
    for place, it in enumerate(tree):
        found += clause_lines(indent + 2, "", it, "," if place + 1 < len(tree) else "")
    return found + [" " * indent + ")" + behind]


# Items.

def listed(parameters):
    """Parameters or arguments in `<..>`, or nothing."""
    return f"<{', '.join(parameters)}>" if parameters else ""


def impl(parameters, trait, kind, wheres, body):
    """The lines of an impl."""
    return [f"impl{listed(parameters)} {trait} for {kind}{wheres} {{", *body, "}", ""]


def function(head, result, body, ensures=()):
    """The lines of a function. Clauses are pairs of a name, or nothing for the only one, and a text."""
    clauses = "".join(f"\n        ensures {name}{' ' if name else ''}{{ {it} }}" for name, it in ensures)
    clauses += "\n   " if ensures else ""
    return [f"    {head} -> {result}{clauses} {{ {body} }}"]


def formatted(text):
    """A module as the kit's formatter lays it out, or None where that does not read it."""
    rt = shutil.which("rt")
    if rt is None:
        raise FileNotFoundError("the command `rt` of the Rattle kit is not there, which lays out what is made")
    with tempfile.TemporaryDirectory() as folder:
        path = Path(folder, "made.rt")
        path.write_text(text, encoding="utf-8")
        command = [Path(rt).resolve().parent / "rattle", "fmt", path]
        done = subprocess.run(command, capture_output=True, check=False)
    return done.stdout.decode() if done.returncode == 0 else None
