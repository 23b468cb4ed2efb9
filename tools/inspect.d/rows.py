"""What was read as rows: an offset, bytes, a path and a value."""
from dataclasses import dataclass
from enum import Enum

import texts
from cursor import MOST_SHOWN, Gap, Run, count_of, is_shown
from declared import Choice, Magic, Struct
from lists import Array, CountedLayout

# So many bytes stand in a row of a field, and in a row of bytes that follow.
IN_ROW = 8
IN_DUMP = 16
# Of bytes that follow an error or a value so many rows are shown.
MOST_DUMPED = 4
# So long may the value of a part be that stands in one row with its parts, and so many bytes it may have.
MOST_TEXT = 64
MOST_BYTES = 24
# A longer text is cut, and a longer path is left out before its end.
MOST_OF_TEXT = 72
MOST_OF_PATH = 40
# So many rows of a long list of bytes are shown.
MOST_BYTE_ROWS = 3


class Tone(Enum):
    """What a row says, by which it is coloured."""
    FIELD = "field"
    FOLDED = "folded"
    ERROR = "error"
    LEFT = "left"


@dataclass
class Row:
    """A row. `shown` are its bytes as a text, `depth` is how deep the part lies."""
    at: object
    shown: str
    path: str
    value: str
    depth: int = 0
    tone: Tone = Tone.FIELD


def is_bytes(node):
    """Whether a part is a text or bytes, behind a length or of one that is told."""
    content = getattr(node.layout, "content", None)
    return content is not None and content.is_bytes


def hexed(data):
    """Bytes in a row of a field: folded, where they are the same or too many."""
    if len(data) > IN_ROW and len(set(data)) == 1:
        return f"{data[0]:02x} × {len(data)}"
    if len(data) > IN_ROW:
        return f"{data[:IN_ROW - 2].hex(' ')} .. {data[-1:].hex()}"
    return data.hex(" ")


def signs(data):
    """Bytes as those that are ASCII show."""
    return "|" + "".join(chr(byte) if 32 <= byte < 127 else "." for byte in data) + "|"


class Table:
    """The rows of a reading."""

    def __init__(self, read, shows_all=False):
        self.data = read.data
        self.shows_all = shows_all
        self.rows = []
        if read.node is not None:
            self.add(read.node, 0, "", False)

    def row(self, at, end, path, value, depth, tone=Tone.FIELD):
        """Adds one."""
        self.rows.append(Row(at, hexed(self.data[at:end]), path, value, depth, tone))

    def add(self, node, depth, above, in_list):
        """The rows of a part. `above` is the path of what holds it."""
        path = above + node.label
        text = self.in_one_row(node, in_list)
        if text is not None:
            value = f"{text}  ({node.note})" if node.note else text
            self.row(node.at, node.end, node.label, value, depth)
            return
        shown = path if len(path) <= MOST_OF_PATH else ".." + path[-MOST_OF_PATH:]
        if is_bytes(node) and node.end is not None and node.head == node.at and node.end > node.at:
            self.add_bytes(node, depth, node.label)
            return
        head, value, parts = self.head_of(node)
        value = "" if value == path else value
        self.row(node.at, head, shown, f"{value}  ({node.note})" if node.note else value, depth)
        self.add_parts(node, parts, depth + 1, path + node.within)

    def head_of(self, node):
        """Where the row of a part ends that has parts, what it says, and the parts behind it."""
        parts = node.parts
        if isinstance(node.layout, Struct) and parts and isinstance(parts[0].layout, Magic):
            # A constant at the front stands in the row of the struct.
            return parts[0].end, parts[0].layout.text(parts[0], self.data), parts[1:]
        if isinstance(node.layout, Choice) and node.value is not None:
            return node.head, f"{node.layout.variant(node).name}, tag {node.value}", parts
        return node.head, node.layout.summary(node, self.data), parts

    def in_one_row(self, node, in_list):
        """The text of a part that stands in one row, or None."""
        layout = node.layout
        if node.end is None:
            return None
        if not layout.has_rows:
            return layout.text(node, self.data)
        if isinstance(layout, Choice) and not node.parts:
            return f"{layout.text(node, self.data)}, tag {node.value}"
        has_fields = isinstance(layout, (Struct, Choice)) and node.parts
        most = MOST_BYTES if in_list else IN_ROW
        if node.end - node.at > most or (has_fields and not in_list) or self.is_long(node):
            return None
        held = self.data[node.head:node.end]
        if is_bytes(node) and isinstance(layout, Array) and all(32 <= it < 127 for it in held):
            return texts.byte_text(held)
        text = layout.text(node, self.data)
        return text if len(text) <= MOST_TEXT else None

    def is_long(self, node):
        """Whether a part holds more items than stand in one row."""
        return any(isinstance(it, Gap) or (isinstance(it, Run) and it.count > MOST_BYTES) or
                   (not isinstance(it, Run) and self.is_long(it)) for it in node.parts)

    def add_parts(self, node, parts, depth, path):
        """The rows of the parts of a node."""
        if is_bytes(node):
            if node.end is not None and node.end > node.head:
                self.add_bytes(node, depth, "")
            return
        in_list = isinstance(node.layout, (CountedLayout, Array))
        for part in parts:
            if isinstance(part, Run):
                self.add_run(part, depth, path)
            elif isinstance(part, Gap):
                if part.count:
                    self.fold(part.at, part.end, part.count, "item", depth)
            else:
                self.add(part, depth, path, in_list)

    def add_run(self, run, depth, path):
        """The rows of items of one size."""
        if self.shows_all and run.size:
            shown = range(run.count)
        else:
            ends = (*range(min(run.count, MOST_SHOWN)), run.count - 1)
            shown = [it for it in ends if it >= 0 and is_shown(it, run.count)]
        last = -1
        for place in dict.fromkeys(shown):
            if place > last + 1:
                self.fold(run.at + (last + 1) * run.size, run.at + place * run.size, place - last - 1, "item", depth)
            self.add(run.node(self.data, run.first + place), depth, path, True)
            last = place

    def add_bytes(self, node, depth, label):
        """The rows of a text or of bytes, of which the first one has a label where their length stands elsewhere."""
        data = self.data[node.head:node.end]
        if node.layout.content.name == "str":
            text = node.layout.text(node, self.data)
            cut = len(text) > MOST_OF_TEXT and not self.shows_all
            text = f'{text[:MOST_OF_TEXT]}.."' if cut else text
            self.row(node.head, node.end, label or text, text if label else "", depth)
            return
        if len(set(data)) == 1 and len(data) > IN_ROW:
            self.row(node.head, node.end, label, "", depth)
            return
        for place, at in enumerate(range(node.head, node.end, IN_ROW)):
            if place == MOST_BYTE_ROWS and node.end - at > IN_ROW and not self.shows_all:
                self.fold(at, node.end, node.end - at, "byte", depth)
                return
            end = min(at + IN_ROW, node.end)
            shown = signs(self.data[at:end])
            if label and place == 0:
                self.row(at, end, label, f"{node.layout.summary(node, self.data)}  {shown}", depth)
            else:
                self.row(at, end, shown, "", depth + (label != ""))

    def fold(self, at, end, count, unit, depth):
        """The row of what is folded."""
        more = f", {count_of(end - at, 'byte')}" if unit != "byte" else ""
        self.rows.append(Row(at, "", "..", f"{count_of(count, unit)} more{more}", depth, Tone.FOLDED))


def dump(data, begin, end, most=MOST_DUMPED):
    """Lines of bytes that follow, each with its offset."""
    found = []
    for at in range(begin, end, IN_DUMP):
        if len(found) == most:
            found.append((at, f".. {count_of(end - at, 'byte')} more"))
            break
        some = data[at:min(at + IN_DUMP, end)]
        found.append((at, f"{some.hex(' '):<{3 * IN_DUMP - 1}}  {signs(some)}"))
    return found


def of_fault(fault, data):
    """The lines of an error, each with its offset or None."""
    found = [(fault.begin, f"?? {fault.kind.title} at {fault.at:04x}: {fault.path}")]
    sizes = f" ({', '.join(f'{name}: {value}' for name, value in fault.fields.items())})" \
        if fault.fields and "constant" not in fault.fields else ""
    found.append((None, f"   {fault.kind.words}{sizes}: {fault.why}"))
    return found + dump(data, fault.begin, len(data))


def of_left(read):
    """The lines of the bytes that are left behind a value."""
    count = len(read.data) - read.end
    if count == 0:
        return []
    head = (read.end, f"{count_of(count, 'byte')} {'is' if count == 1 else 'are'} left over")
    return [head, *dump(read.data, read.end, len(read.data))]
