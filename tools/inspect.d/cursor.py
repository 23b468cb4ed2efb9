"""Where in the bytes reading stands, and the tree of what was read."""
from dataclasses import dataclass, field

from faults import Fault, Kind

# Of a list of more items than so many these at its front and at its end are shown, and the others folded.
MOST_SHOWN = 8
AT_FRONT = 4
AT_END = 1


@dataclass(slots=True)
class Node:
    """A part that was read: its label behind that of what holds it, its layout, and its bytes from `at` to `end`, which
    is None where it was refused. Its own bytes, as a count or a tag, end at `head`, where those of its parts begin.
    `within` stands between its label and those of its parts, as the name of a variant."""
    label: str
    layout: object
    at: int
    head: int = 0
    end: object = None
    value: object = None
    parts: list = field(default_factory=list)
    note: str = ""
    within: str = ""


@dataclass(slots=True)
class Run:
    """Items of one size, of which any bytes are one: they are read when they are shown."""
    item: object
    first: int
    count: int
    at: int
    size: int
    order: str

    @property
    def end(self):
        """Where they end."""
        return self.at + self.count * self.size

    def node(self, data, place):
        """The item of a place in the list."""
        at = self.at + (place - self.first) * self.size
        cursor = Cursor(data, self.order, shows_all=True, at=at, end=at + self.size)
        return self.item.read(cursor, f"[{place}]")


@dataclass(slots=True)
class Gap:
    """Items that were read and are not kept, since they are not shown."""
    first: int
    count: int
    at: int
    end: int


class Cursor:
    """A place in the bytes, how they are read, and which parts are open there."""

    def __init__(self, data, order="little", strict=False, shows_all=False, at=0, end=None):
        self.data = data
        self.order = order
        self.strict = strict
        self.shows_all = shows_all
        self.at = at
        self.end = len(data) if end is None else end
        self.root = Node("", None, at)
        self.open_nodes = [self.root]
        # How many values of each type with a bound on its levels are open.
        self.levels = {}

    def left(self):
        """How many bytes are left, of the frame or of all."""
        return self.end - self.at

    # Taking bytes.

    def take(self, size, what, label=""):
        """Takes so many bytes, and answers where they begin."""
        at = self.at
        if size > self.end - at:
            raise self.fault(Kind.UNEXPECTED_END_OF_INPUT, self.end, label, at,
                             f"{what} takes {count_of(size, 'byte')}, and {count_of(self.end - at, 'byte')} "
                             f"{'is' if self.end - at == 1 else 'are'} left")
        self.at = at + size
        return at

    def items_fit(self, least, count, label=""):
        """Refuses more items than can come, before the first one."""
        if least * count > self.end - self.at:
            raise self.fault(Kind.UNEXPECTED_END_OF_INPUT, self.end, label, self.at,
                             f"{count_of(count, 'item')} of at least {count_of(least, 'byte')} "
                             f"{'does' if count == 1 else 'do'} not fit into the {count_of(self.left(), 'byte')} that "
                             f"{'is' if self.left() == 1 else 'are'} left")

    def fault(self, kind, at, label, begin, why, **fields):
        """The error that a part is refused, within those that are open."""
        path = "".join(node.label + node.within for node in self.open_nodes) + label
        return Fault(kind, at, begin, path, why, fields)

    # The tree.

    def leaf(self, label, layout, at, value):
        """A part without parts, whose bytes were taken."""
        node = Node(label, layout, at, self.at, self.at, value)
        self.open_nodes[-1].parts.append(node)
        return node

    def open(self, label, layout):
        """Begins a part that has parts."""
        node = Node(label, layout, self.at, self.at)
        self.open_nodes[-1].parts.append(node)
        self.open_nodes.append(node)
        return node

    def close(self, node):
        """Ends it."""
        self.open_nodes.pop()
        node.end = self.at
        return node

    def keep(self, part):
        """Adds a run or a gap to what is open."""
        self.open_nodes[-1].parts.append(part)

    def apart(self, read, *arguments):
        """Reads what is not kept in the tree."""
        kept, self.open_nodes = self.open_nodes, [Node("", None, self.at)]
        try:
            return read(*arguments)
        finally:
            self.open_nodes = kept

    def mark(self):
        """What to return to, but for the place."""
        return self.end, self.order, dict(self.levels)

    def reset(self, mark, at):
        """Returns there, at this place."""
        self.end, self.order, levels = mark
        self.levels = dict(levels)
        self.at = at


def count_of(number, what):
    """A number of things, in words."""
    return f"{number:,} {what}{'' if number == 1 else 's'}"


def is_shown(place, count):
    """Whether an item of a long list is among those that are shown."""
    return count <= MOST_SHOWN or place < AT_FRONT or place >= count - AT_END
