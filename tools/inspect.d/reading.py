"""Bytes read as a type: the tree of what was read, and the error if there is one."""
import re
import sys
from dataclasses import dataclass

from cursor import Cursor
from declared import finish_whole
from faults import Fault, Kind


# Types nest as deep as the generator takes them, and values of a type that holds itself 64 levels.
sys.setrecursionlimit(20_000)


@dataclass
class Reading:
    """What came of it: the tree, which is whole where `fault` is None, and where reading stopped."""
    data: bytes
    layout: object
    order: str
    node: object
    fault: object
    begin: int
    end: int


def inspect(layout, data, order="little", strict=False, shows_all=False, begin=0):
    """Reads a value of the type from the bytes, as the library does from a buffer; one that ends where they do has all
    of them."""
    cursor = Cursor(data, order, strict, shows_all, begin)
    ends = getattr(layout, "ends", False)
    fault = None
    try:
        label = re.match(r"\w*", layout.name).group() or "value"
        layout.read(cursor, label)
        if ends:
            finish_whole(cursor, label, "behind a value that has all bytes")
    except Fault as found:
        fault = found
    if not ends and len(data) - begin < layout.least:
        fault = too_small(fault, len(data) - begin, layout.least)
    node = cursor.root.parts[0] if cursor.root.parts else None
    return Reading(data, layout, order, node, fault, begin, cursor.at)


def too_small(fault, actual, expected):
    """The error of a buffer that is shorter than the least size of the type, whatever its bytes are."""
    fields = {"actual_size": actual, "expected_size": expected}
    return Fault(Kind.INPUT_BUFFER_IS_TOO_SMALL, fault.at, fault.begin, fault.path, fault.why, fields)
