"""What was read as JSON, for programs: all of it, with nothing folded."""
import json

from composed import Chosen
from cursor import Gap, Run
from declared import Absent, Choice, Magic
from leaves import Flag, Float, Number, Varint
from lists import Array, CountedLayout


def value_of(node, data):
    """The value of a part without parts: a number, a flag, or a text as `Debug` prints it."""
    if isinstance(node.layout, Flag):
        return bool(node.value)
    if isinstance(node.layout, Varint) or (isinstance(node.layout, Number) and not isinstance(node.layout, Float)):
        return node.value
    return node.layout.text(node, data)


def part_of(node, data, above=""):
    """A part, with its parts. `above` is the path of what holds it."""
    path, layout = above + node.label, node.layout
    found = {"path": path, "type": layout.name, "at": node.at}
    if node.end is not None:
        found["end"] = node.end
    if isinstance(layout, Absent):
        return found | {"absent": layout.why}
    if isinstance(layout, Magic):
        return found | {"constant": layout.constant.hex()}
    content = getattr(layout, "content", None)
    if content is not None and content.is_bytes:
        return found | of_bytes(node, content, data)
    if isinstance(layout, (CountedLayout, Array)):
        found["count"] = node.value
        numbers = numbers_of(node, data)
        if numbers is not None:
            return found | {"values": numbers}
    if not layout.has_rows:
        return found | {"value": value_of(node, data)}
    if isinstance(layout, Choice) and node.value is not None:
        found |= {"variant": layout.variant(node).name, "tag": node.value}
    elif isinstance(layout, Chosen) and node.value is not None:
        found["variant"] = layout.cases[node.value][0]
    return found | {"parts": list(parts_in(node, data, path + node.within))}


def of_bytes(node, content, data):
    """A text, or bytes as hexadecimal digits."""
    if node.end is None:
        return {"length": node.value}
    held = data[node.head:node.end]
    return {"text": held.decode()} if content.name == "str" else {"hex": held.hex()}


def numbers_of(node, data):
    """The numbers of a list of these, or None."""
    if len(node.parts) != 1 or not isinstance(node.parts[0], Run):
        return None
    run = node.parts[0]
    if not isinstance(run.item, Number):
        return None
    return run.item.many(data[run.at:run.end], run.order)


def parts_in(node, data, path):
    """The parts of a node."""
    for part in node.parts:
        if isinstance(part, Run):
            # Items of no bytes are as many as their count says.
            places = range(part.first, part.first + part.count) if part.size else ()
            yield from (part_of(part.node(data, place), data, path) for place in places)
        elif not isinstance(part, Gap):
            yield part_of(part, data, path)


def of_fault(fault):
    """An error."""
    return {"kind": fault.kind.title, "text": fault.kind.words, "path": fault.path, "at": fault.at,
            "begin": fault.begin, "why": fault.why, **({"fields": fault.fields} if fault.fields else {})}


def text(read, strict):
    """All of it."""
    found = {"type": read.layout.name, "order": read.order, "strict": strict, "size": len(read.data)}
    if read.fault is None:
        found |= {"end": read.end, "left": len(read.data) - read.end}
    else:
        found["error"] = of_fault(read.fault)
    if read.node is not None:
        found["value"] = part_of(read.node, read.data)
    return json.dumps(found, ensure_ascii=False)
