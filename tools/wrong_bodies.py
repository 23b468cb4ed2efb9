"""Reads the wrong bodies of this repository: which there are, what each changes, and which clause refuses it.

An edit is read as `rt must-fail` reads it: `file:`, and pairs of `old:` and `new:`. Three lines more stand in some,
of which the first two are comments to that command.

`# gate` says that the gate tries it.

`# clause:` names the clause that refuses the edit, of a function that has several; of one that has one clause that is
it. `invariant` is what the type of a value that it makes demands.

`in:` is the path of a function of the file, as tools/list-wrong-bodies prints it. The next `old:` text is looked for in
that function, and stands there once, so impls that are alike need not differ for an edit.
"""
import glob
import importlib.machinery
import importlib.util
import os
import re
import shutil
import sys
from typing import NamedTuple

from rattle_source import clauses_of, function_at, indent_of, owner_of

ROOT = os.path.dirname(os.path.dirname(os.path.realpath(__file__)))
RT = os.path.realpath(shutil.which("rt") or sys.exit("rt is not on the PATH"))
# rt as a module: its read_edit and unread are the gate's.
rt = importlib.util.module_from_spec(
    importlib.util.spec_from_loader("rt", importlib.machinery.SourceFileLoader("rt", RT))
)
rt.__spec__.loader.exec_module(rt)


class Change(NamedTuple):
    """One pair of an edit: its file, the path of the function that it is in, if it names one, and both texts."""

    file: str
    path: str
    old: str
    new: str

    def found_in(self, text):
        """Returns where the old text stands. It raises ValueError where that is nowhere, or in more places."""
        start, end = bounds_of(text, self.path) if self.path else (0, len(text))
        count = text.count(self.old, start, end)
        if count != 1:
            where = f"in `{self.path}` of" if self.path else "in"
            raise ValueError(f"an 'old:' text is {where} {self.file} {count} times, and not once")
        return text.index(self.old, start, end)

    def applied_to(self, text):
        at = self.found_in(text)
        return text[:at] + self.new + text[at + len(self.old) :]


def bounds_of(text, path):
    """Returns where the function of this path begins, and where it ends."""
    lines = text.split("\n")
    starts = [at for at, line in enumerate(lines) if re.search(r"\bfn \w", line) and path_at(lines, at) == path]
    if len(starts) != 1:
        raise ValueError(f"the function of an 'in:' line is in its file {len(starts)} times, and not once")
    close = " " * indent_of(lines[starts[0]]) + "}"
    last = next((at for at in range(starts[0], len(lines)) if lines[at] == close), starts[0])
    return sum(len(it) + 1 for it in lines[: starts[0]]), sum(len(it) + 1 for it in lines[: last + 1])


def path_at(lines, at):
    """Returns the path of the function that begins with this line, with what it stands in, or nothing."""
    function = function_at(lines, at)
    if not function or function[0] != at:
        return ""
    return "::".join(it for it in (owner_of(lines, at), function[1]) if it)


def edits_of():
    """Returns the edits, as (crate, name, file)."""
    files = sorted(glob.glob(f"{ROOT}/tools/wrong-bodies/*/*.edit"))
    return [(it.split("/")[-2], os.path.basename(it).removesuffix(".edit"), it) for it in files]


def is_of_gate(edit):
    """Returns whether the gate tries an edit."""
    return "# gate" in text_of(edit).split("\n")


def text_of(path):
    with open(path, encoding="utf-8") as it:
        return it.read()


def changes_of(edit):
    """Yields the pairs of an edit."""
    file, path, old = "", "", ""
    for line in text_of(edit).split("\n"):
        if line.startswith("file: "):
            file, path = line.removeprefix("file: ").strip(), ""
        elif line.startswith("in: "):
            path = line.removeprefix("in: ").strip()
        elif line.startswith("old: "):
            old = line.removeprefix("old: ")
        elif line.startswith("new:"):
            yield Change(file, path, old, line.removeprefix("new:").removeprefix(" "))
            path = ""


def read_edit(edit, folder):
    """Returns the texts of the files that an edit changes, by their path in the crate, or says why it cannot be
    applied."""
    changes = list(changes_of(edit))
    if not any(it.path for it in changes):
        return rt.read_edit(edit, folder)
    try:
        return with_changes(changes, {}, folder), None
    except (OSError, ValueError) as error:
        return None, str(error)


def with_changes(changes, texts, folder):
    """Returns the texts of files with these changes, beside those that others have changed, by their path in the
    crate."""
    found = dict(texts)
    for it in changes:
        found[it.file] = it.applied_to(found.get(it.file) or text_of(f"{folder}/{it.file}"))
    return found


def places_of(edit, folder):
    """Returns what an edit changes, as (change, function, line, text before it); no function for what is in none."""
    places, texts = [], {}
    for it in changes_of(edit):
        text = texts.get(it.file) or text_of(f"{folder}/{it.file}")
        at = text.count("\n", 0, it.found_in(text))
        function = function_at(text.split("\n"), at) if it.file.endswith(".rt") else None
        places.append((it, function, at, text))
        texts[it.file] = it.applied_to(text)
    return places


def said_clause(edit):
    """Returns the clause that an edit names, or nothing."""
    found = re.search(r"^# clause: (\S+)", text_of(edit), re.M)
    return found[1] if found else ""


def traits_of(folder):
    """Returns the clauses of each method of the traits of the crates, by both names."""
    found = {}
    for path in glob.glob(f"{folder}/crates/*/src/**/*.rt", recursive=True):
        lines = text_of(path).split("\n")
        for at, line in enumerate(lines):
            function = function_at(lines, at) if " fn " in f" {line}" else None
            owner = owner_of(lines, at) if function and function[0] == at else ""
            if owner and not owner.startswith("<"):
                found[owner, function[1]] = clauses_of(lines, at)
    return found


def clauses_at(lines, function, traits):
    """Returns the clauses that a function has, of its own or of its trait, as (name, text)."""
    own = clauses_of(lines, function[0])
    owner = owner_of(lines, function[0])
    trait = owner.rpartition(" as ")[2].partition("<")[0].rstrip(">")
    return own or traits.get((trait, function[1]), [])


# Words of std that say of what a clause speaks, and not what it states.
OF_STD = r"List|Vec|String|Mode|Option|Result|Self|If\w+|On\w+|Is(?:Ok|Err|Some|None|True|OkAnd|ErrAnd)|Match\w+"


def word_of(clause):
    """Returns what a clause is called: its name, or the relation that it states, or its text."""
    name, text = clause
    relation = re.search(rf"(?<![\w.])(?!(?:{OF_STD})\b)[A-Z][a-z]\w*(?![\w.])", text)
    shown = text if len(text) <= 70 else text[:70] + " …"
    return name or (relation[0] if relation else f"`{shown}`")
