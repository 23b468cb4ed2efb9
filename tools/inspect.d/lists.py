"""Layouts of texts, bytes, lists, arrays, maps and sets: what stands behind a count, or has a length that is told."""
import texts
from cursor import AT_END, MOST_SHOWN, Gap, Node, Run, count_of, is_shown
from faults import Fault, Kind
from layouts import Layout, Unordered, joined
from leaves import refuse_others

# More bytes than a `usize` counts.
PAST_USIZE = 1 << 64


def parts_of(node, data):
    """The parts of a node, those of runs too, which are read now; gaps are passed over."""
    for part in node.parts:
        if isinstance(part, Run):
            yield from (part.node(data, place) for place in range(part.first, part.first + part.count))
        elif not isinstance(part, Gap):
            yield part


class Content:
    """What has a length: how so many bytes, items or pairs are read into the node that is open, and passed over."""
    name = ""
    # What the length counts.
    unit = "item"
    can_shrink = False
    has_rows = True
    # Whether it is a text or bytes, whose bytes stand in rows of their own.
    is_bytes = False

    def fill(self, cursor, node, count, is_told):
        """Reads so many."""
        raise NotImplementedError

    def skip(self, cursor, count, is_told):
        """Passes over so many."""
        raise NotImplementedError

    def fill_rest(self, cursor, node):
        """Reads all bytes that are left."""
        self.fill(cursor, node, cursor.left(), False)

    def pieces(self, node, data):
        """A value as `Debug` prints it, in pieces."""
        raise NotImplementedError

    def key(self, node, data):
        """What a value is compared by."""
        return tuple(part.layout.key(part, data) for part in parts_of(node, data))

    def counted(self, node, data):  # pylint: disable=unused-argument
        """Its length as it is written."""
        return node.value

    def written(self, node, data, order):
        """The bytes that it is written in, without its length. Items of no bytes may be very many."""
        if any(isinstance(part, Run) and part.size == 0 for part in node.parts):
            return b""
        return b"".join(part.layout.written(part, data, order) for part in parts_of(node, data))


class Text(Content):
    """A text: bytes in UTF-8."""
    name = "str"
    unit = "byte"
    is_bytes = True

    def fill(self, cursor, node, count, is_told):
        self.skip(cursor, count, is_told)

    def skip(self, cursor, count, is_told):
        at = cursor.take(count, "this text")
        try:
            cursor.data[at:cursor.at].decode()
        except UnicodeDecodeError as error:
            byte = at + error.start
            why = f"the bytes from {cursor.data[byte]:02x} on are no UTF-8 ({error.reason})"
            raise cursor.fault(Kind.INVALID_UTF8, byte, "", at, why) from None

    def pieces(self, node, data):
        return [texts.quoted(data[node.head:node.end].decode())]

    def key(self, node, data):
        return data[node.head:node.end]

    def written(self, node, data, order):
        return data[node.head:node.end]


class Octets(Content):
    """Items that are bytes."""
    name = "[u8]"
    unit = "byte"
    is_bytes = True

    def fill(self, cursor, node, count, is_told):
        cursor.take(count, "a list of bytes")

    def skip(self, cursor, count, is_told):
        cursor.take(count, "a list of bytes")

    def pieces(self, node, data):
        return ["[" + ", ".join(str(byte) for byte in data[node.head:node.end]) + "]"]

    def key(self, node, data):
        return data[node.head:node.end]

    def written(self, node, data, order):
        return data[node.head:node.end]


class Blanks(Content):
    """`PaddingBytes` and `ZeroBytes`: bytes that mean nothing, and are written as zeros. Padding may be other bytes."""
    unit = "byte"
    is_bytes = True

    def __init__(self, shown):
        self.name = self.shown = shown

    def fill(self, cursor, node, count, is_told):
        self.skip(cursor, count, is_told)

    def skip(self, cursor, count, is_told):
        at = cursor.take(count, "padding")
        refuse_others(cursor, self.shown == "PaddingBytes", "", at)

    def pieces(self, node, data):
        return [f"{self.shown}({node.value})"]

    def key(self, node, data):
        return node.value

    def written(self, node, data, order):
        return bytes(node.value)


class Items(Content):
    """Items of any other type. Those that hold values of their own type are read one by one, whatever their count; of
    others a count that is past what can come is refused first."""

    def __init__(self, item, tests_count=True):
        self.item = item
        self.name = f"[{item.name}]"
        self.tests_count = tests_count

    @property
    def can_shrink(self):
        """Whether an item may be written in fewer bytes."""
        return self.item.can_shrink

    def fill(self, cursor, node, count, is_told):
        if self.tests_count:
            cursor.items_fit(self.item.least, count)
        size = self.item.size(cursor.strict)
        if size is not None:
            self.fill_run(cursor, count, size)
            return
        place = 0
        while place < count:
            if cursor.shows_all or is_shown(place, count):
                self.item.read(cursor, f"[{place}]")
                place += 1
            else:
                place = self.fold(cursor, place, count)

    def fill_run(self, cursor, count, size):
        """Takes items of one size: those that fit, and then the first one that does not."""
        fit = min(count, cursor.left() // size) if size else count
        if fit:
            cursor.keep(Run(self.item, 0, fit, cursor.take(size * fit, "items"), size, cursor.order))
        if fit < count:
            self.item.read(cursor, f"[{fit}]")

    def fold(self, cursor, first, count):
        """Passes over the items that are not shown, and answers which one stands behind them."""
        begin, behind, skip = cursor.at, max(count - AT_END, first), self.item.skip
        # Between two items nothing but the place changes.
        mark = cursor.mark()
        try:
            for last in range(first, behind):
                at = cursor.at
                skip(cursor)
        except Fault:
            # Read once more, so that the tree shows where it is refused.
            cursor.reset(mark, at)
            cursor.keep(Gap(first, last - first, begin, at))
            self.item.read(cursor, f"[{last}]")
            raise
        cursor.keep(Gap(first, behind - first, begin, cursor.at))
        return behind

    def skip(self, cursor, count, is_told):
        if self.tests_count:
            cursor.items_fit(self.item.least, count)
        size, skip = self.item.size(cursor.strict), self.item.skip
        if size is not None:
            cursor.take(size * count, "a list")
            return
        for _ in range(count):
            skip(cursor)

    def fill_rest(self, cursor, node):
        size = self.item.size(cursor.strict)
        place = cursor.left() // size if size else 0
        if place:
            self.fill_run(cursor, place, size)
        while cursor.left() > 0 and (cursor.shows_all or place < MOST_SHOWN or size):
            self.read_some(cursor, f"[{place}]")
            place += 1
        node.value = self.fold_rest(cursor, place) if cursor.left() > 0 else place

    def fold_rest(self, cursor, first):
        """Passes over the items that are not shown, reads the last one, and answers how many there are."""
        begin, mark, last = cursor.at, cursor.mark(), first - 1
        try:
            while cursor.left() > 0:
                at, last = cursor.at, last + 1
                self.skip_some(cursor)
        except Fault:
            self.show_last(cursor, mark, (first, last, begin, at))
            raise
        self.show_last(cursor, mark, (first, last, begin, at))
        return last + 1

    def show_last(self, cursor, mark, folded):
        """Folds items, and reads the one behind them."""
        first, last, begin, at = folded
        cursor.reset(mark, at)
        cursor.keep(Gap(first, last - first, begin, at))
        self.read_some(cursor, f"[{last}]")

    def skip_some(self, cursor):
        """Passes over an item, which takes bytes."""
        at = cursor.at
        self.item.skip(cursor)
        if cursor.at == at:
            raise cursor.fault(Kind.OUT_OF_RANGE_LENGTH, at, "", at, "items of no bytes never end")

    def read_some(self, cursor, label):
        """Reads an item, which takes bytes."""
        at = cursor.at
        self.item.read(cursor, label)
        if cursor.at == at:
            raise cursor.fault(Kind.OUT_OF_RANGE_LENGTH, at, label, at, "items of no bytes never end")

    def pieces(self, node, data):
        return ["[", *joined([part.layout.pieces(part, data) for part in parts_of(node, data)]), "]"]


class Entries(Content):
    """Pairs of a map, or the items of a set: sorted, hashed, or in the order in which they came."""

    def __init__(self, name, item, is_map, family):
        self.name = name
        self.item = item
        self.is_map = is_map
        self.family = family
        self.unit = "pair" if is_map else "item"

    # A key that stands twice is written once.
    can_shrink = True

    def fill(self, cursor, node, count, is_told):
        if not (cursor.strict or is_told or cursor.shows_all or count <= MOST_SHOWN):
            Items(self.item, False).fill(cursor, node, count, is_told)
            return
        seen, last = {}, None
        for place in range(count):
            begin, label = cursor.at, f"[{place}]"
            shown = cursor.shows_all or is_shown(place, count)
            part = self.item.read(cursor, label) if shown else self.passed(cursor, place)
            key = self.key_of(part, cursor.data)
            if cursor.strict:
                self.look_at(cursor, key, seen, last, label, begin)
            if key in seen and seen[key][1] is not None:
                seen[key][1].note = f"comes again at {label}"
            seen[key] = (place, part if shown else None)
            last = key
        if is_told and len(seen) != count:
            raise cursor.fault(Kind.OUT_OF_RANGE_LENGTH, node.head, "", node.head,
                               f"{count} are told, and {len(seen)} are left, since some stand twice")

    def passed(self, cursor, place):
        """An entry that is not shown, by itself."""
        begin, mark = cursor.at, cursor.mark()
        try:
            part = cursor.apart(self.item.read, cursor, "")
        except Fault:
            cursor.reset(mark, begin)
            self.item.read(cursor, f"[{place}]")
            raise
        last = cursor.open_nodes[-1].parts[-1]
        if isinstance(last, Gap):
            last.count, last.end = last.count + 1, cursor.at
        else:
            cursor.keep(Gap(place, 1, begin, cursor.at))
        return part

    def look_at(self, cursor, key, seen, last, label, begin):
        """Refuses an entry that does not stand where it is written."""
        if self.family == "sorted":
            if last is not None and not last < key:
                raise cursor.fault(Kind.NOT_WRITTEN_FORM, begin, label, begin, "it is not greater than the one before")
        elif key in seen:
            raise cursor.fault(Kind.NOT_WRITTEN_FORM, begin, label, begin, f"it stands at [{seen[key][0]}] already")

    def skip(self, cursor, count, is_told):
        if is_told or cursor.strict:
            cursor.apart(self.fill, cursor, Node("", None, cursor.at, cursor.at), count, is_told)
        else:
            Items(self.item, False).skip(cursor, count, is_told)

    # What is made of them.

    def key_of(self, part, data):
        """The key of an entry."""
        key = part.parts[0] if self.is_map else part
        return key.layout.key(key, data)

    def gathered(self, node, data):
        """The entries that the map or the set has: pairs of nodes of a key and of a value, or items twice."""
        found = {}
        for part in parts_of(node, data):
            key = self.key_of(part, data)
            first = found[key][0] if key in found else part.parts[0] if self.is_map else part
            found[key] = (first, part.parts[1] if self.is_map else first)
        return [found[key] for key in sorted(found)] if self.family == "sorted" else list(found.values())

    def pieces(self, node, data):
        items = []
        for key, value in self.gathered(node, data):
            item = key.layout.pieces(key, data)
            items.append(item + [": "] + value.layout.pieces(value, data) if self.is_map else item)
        inner = [Unordered(items, ", ")] if self.family == "hashed" else joined(items)
        return ["{", *inner, "}"]

    def key(self, node, data):
        return tuple((key.layout.key(key, data), value.layout.key(value, data))
                     for key, value in self.gathered(node, data))

    def counted(self, node, data):
        return len(self.gathered(node, data))

    def written(self, node, data, order):
        found = []
        for key, value in self.gathered(node, data):
            found.append(key.layout.written(key, data, order))
            if self.is_map:
                found.append(value.layout.written(value, data, order))
        return b"".join(found)


class CountedLayout(Layout):
    """What stands behind its length, as a number; or, where there is no such number, is of a length that is told."""

    def __init__(self, name, number, content, told=None):
        self.name = name
        self.number = number
        self.content = content
        self.told = told
        self.least = number.least if number else 0
        self.has_rows = content.has_rows

    @property
    def can_shrink(self):
        """Whether it may be written in fewer bytes."""
        return (self.number.can_shrink if self.number else False) or self.content.can_shrink

    def read(self, cursor, label):
        node = cursor.open(label, self)
        node.value = self.number.number(cursor, "") if self.number else self.told
        node.head = cursor.at
        self.content.fill(cursor, node, node.value, self.number is None)
        return cursor.close(node)

    def skip(self, cursor):
        count = self.number.number(cursor, "") if self.number else self.told
        self.content.skip(cursor, count, self.number is None)

    def pieces(self, node, data):
        return self.content.pieces(node, data)

    def key(self, node, data):
        return self.content.key(node, data)

    def written(self, node, data, order):
        content = self.content.written(node, data, order)
        return (self.number.encoded(self.content.counted(node, data), order) if self.number else b"") + content

    def summary(self, node, data):
        return "" if node.value is None else count_of(node.value, self.content.unit)


class Array(Layout):
    """So many items, one after another."""

    def __init__(self, item, count):
        self.item = item
        self.count = count
        self.name = f"[{item.name}; {count}]"
        self.least = min(item.least * count, PAST_USIZE - 1)
        self.can_shrink = item.can_shrink
        self.content = Octets() if item.name == "u8" else Items(item, False)
        self.has_rows = count > 0

    def size(self, strict):
        size = self.item.size(strict)
        return None if size is None else size * self.count

    def read(self, cursor, label):
        node = cursor.open(label, self)
        node.value = self.count
        self.content.fill(cursor, node, self.count, True)
        return cursor.close(node)

    def skip(self, cursor):
        self.content.skip(cursor, self.count, True)

    def pieces(self, node, data):
        return self.content.pieces(node, data)

    def key(self, node, data):
        return self.content.key(node, data)

    def written(self, node, data, order):
        return self.content.written(node, data, order)

    def summary(self, node, data):
        return count_of(self.count, self.content.unit)
