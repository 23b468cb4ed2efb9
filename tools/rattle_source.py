"""Finds what stands where in the text of a source of Rattle."""
import re


def function_at(lines, at):
    """Returns the number and the name of the function that has this line with what stands before its `fn`, or None."""
    while at + 1 < len(lines) and re.match(r"\s*(#\[|///)", lines[at]):
        at += 1
    for start in range(at, -1, -1):
        found = re.match(r"(\s*)(?:pub(?:\(crate\))? |const |final )*fn (\w+)", lines[start])
        if found:
            ends = next((it for it in range(start, len(lines)) if lines[it] == found[1] + "}"), start)
            return (start, found[2]) if at <= ends else None
    return None


def clauses_of(lines, start):
    """Returns what the function of this line ensures, as (name, text) of each clause; the name may be empty."""
    ends = " " * indent_of(lines[start]) + "{"
    head = []
    for line in lines[start:]:
        head.append(line.strip())
        if line in (ends, ends + "}") or line.endswith((";", " {}")) or line is lines[start] and line.endswith("{"):
            break
    found = re.finditer(r"\bensures\*?(?: (\w+))? \{ ?(.*?)(?=\bensures\b|$)", " ".join(head))
    return [(it[1] or "", it[2].rstrip(" {;}")) for it in found]


def without_parameters(head):
    """Returns the parameters `<..>` at the front of a head, without the brackets, and what stands behind them."""
    if not head.startswith("<"):
        return "", head
    depth = at = 0
    for at, it in enumerate(head):
        depth += (it == "<") - (it == ">" and head[at - 1] not in "-=")
        if not depth:
            break
    return head[1:at], head[at + 1 :]


def owner_of(lines, at):
    """Returns what the item of a line stands in, as a path says it: a type, `<TYPE as TRAIT>`, a trait, or nothing."""
    limit = indent_of(lines[at])
    for start in range(at - 1, -1, -1):
        if lines[start].strip() and indent_of(lines[start]) < limit:
            found = re.match(r"\s*(?:pub(?:\(crate\))? |unsafe )*(impl|trait)\b", lines[start])
            if found:
                head = re.split(r"\{| where\b", " ".join(lines[start:at]))[0]
                return named(" ".join(head.partition(found[1])[2].split()))
            # The lines of a head that goes on are not indented.
            limit = indent_of(lines[start]) + 1
    return ""


def named(head):
    """Returns the path for the head of an `impl`, without that word, or of a trait."""
    _, head = without_parameters(head)
    of, found, held = head.strip().partition(" for ")
    if found:
        return f"<{held} as {of}>"
    name = re.match(r"\w+", of)
    return name[0] if name else f"<{of}>"


def indent_of(line):
    return len(line) - len(line.lstrip())
