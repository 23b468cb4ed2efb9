"""Layouts of the types that the file declares: structs and enums, and what their fields are read as."""
from functools import cached_property

import texts
from composed import Tuple, total
from cursor import MOST_SHOWN, Cursor, Gap, count_of
from faults import Fault, Kind
from layouts import Layout, joined
from leaves import Number, Varint
from lists import CountedLayout, parts_of


class Magic(Layout):
    """A constant before a field."""
    label = ""

    def __init__(self, constant):
        self.constant = constant
        self.name = "constant"
        self.least = len(constant)

    def read(self, cursor, label):
        at = self.take(cursor)
        return cursor.leaf("", self, at, self.constant)

    def skip(self, cursor):
        self.take(cursor)

    def take(self, cursor):
        """Takes it, and answers where it begins."""
        at = cursor.take(self.least, f"the constant {texts.byte_text(self.constant)}")
        read = cursor.data[at:cursor.at]
        if read != self.constant:
            other = next(place for place, byte in enumerate(self.constant) if read[place] != byte)
            why = f"here stands {texts.byte_text(read)}, not {texts.byte_text(self.constant)}"
            raise cursor.fault(Kind.EXPECTED_CONSTANT, at + other, "", at, why, constant=list(self.constant))
        return at

    def pieces(self, node, data):
        return [f"magic {texts.byte_text(self.constant)[1:]}"]


class NulEnded(Layout):
    """`CText<T>`: a text or bytes before a NUL, of which none is one."""
    nul = Magic(b"\0")
    least = 1
    has_rows = True

    def __init__(self, inner):
        self.name = f"CText<{inner.name}>"
        self.held = inner.content

    def read(self, cursor, label):
        node = cursor.open(label, self)
        end = cursor.data.find(b"\0", cursor.at, cursor.end)
        if end < 0:
            raise cursor.fault(Kind.UNEXPECTED_END_OF_INPUT, cursor.end, "", cursor.at, "no NUL stands here")
        CountedLayout(self.held.name, None, self.held, end - cursor.at).read(cursor, ".0")
        self.nul.read(cursor, "")
        return cursor.close(node)

    def pieces(self, node, data):
        return ["CText(", *self.held.pieces(node.parts[0], data), ")"]


class Mark(Layout):
    """The number that ends a list."""
    name = "mark"

    def pieces(self, node, data):
        return [f"mark {node.value}"]


class Until(Layout):
    """`ListUntil<N, T, MARK>`: entries, each a number that is not the mark and a value behind it, and then the mark."""
    has_rows = True

    def __init__(self, number, item, mark):
        self.name = f"ListUntil<{number.name}, {item.name}, {mark}>"
        self.number = number
        self.mark = mark
        self.entry = Tuple(f"({number.name}, {item.name})", ((".0", number), (".1", item)))
        self.least = number.least
        self.can_shrink = self.entry.can_shrink

    def read(self, cursor, label):
        node = cursor.open(label, self)
        place = 0
        while not self.is_at_mark(cursor, place):
            if cursor.shows_all or place < MOST_SHOWN:
                self.entry.read(cursor, f"[{place}]")
                place += 1
            else:
                place = self.fold(cursor, place)
        at = cursor.at
        cursor.leaf("", Mark(), at, self.number.number(cursor, ""))
        node.value = place
        return cursor.close(node)

    def is_at_mark(self, cursor, place):
        """Whether the mark comes next."""
        at = cursor.at
        number = self.number.number(cursor, f"[{place}].0")
        cursor.at = at
        return number == self.mark

    def fold(self, cursor, first):
        """Passes over the entries that are not shown, up to the mark, and answers how many there are."""
        begin, mark, last = cursor.at, cursor.mark(), first
        try:
            while not self.is_at_mark(cursor, last):
                self.entry.skip(cursor)
                last, at = last + 1, cursor.at
        except Fault:
            # Read once more, so that the tree shows where it is refused.
            cursor.reset(mark, at)
            cursor.keep(Gap(first, last - first, begin, at))
            self.entry.read(cursor, f"[{last}]")
            raise
        cursor.keep(Gap(first, last - first, begin, at))
        return last

    def pieces(self, node, data):
        entries = [part.layout.pieces(part, data) for part in parts_of(node, data) if part.label]
        return ["ListUntil { entries: [", *joined(entries), "], number: PhantomData<_> }"]

    def written(self, node, data, order):
        entries = (part.layout.written(part, data, order) for part in parts_of(node, data) if part.label)
        return b"".join(entries) + self.number.encoded(self.mark, order)

    def summary(self, node, data):
        return "" if node.value is None else count_of(node.value, "entry")


class Part:
    """A part of a struct or of a variant, by the label of its field."""

    def __init__(self, label, layout):
        self.label = label
        self.layout = layout
        self.can_shrink = layout.can_shrink

    @property
    def least(self):
        """Its least size."""
        return self.layout.least

    def size(self, strict):
        """How many bytes it has, if any so many bytes are one."""
        return self.layout.size(strict)

    def read(self, cursor, numbers):  # pylint: disable=unused-argument
        """Reads it."""
        return self.layout.read(cursor, self.label)

    def skip(self, cursor, numbers):  # pylint: disable=unused-argument
        """Passes over it."""
        self.layout.skip(cursor)


class Skipped(Part):
    """A field without bytes, of which the text of its default is known, or None."""

    def __init__(self, label, layout, default):
        super().__init__(label, layout)
        self.default = default
        self.can_shrink = False

    least = 0

    def size(self, strict):
        return 0

    def read(self, cursor, numbers):
        return absent(cursor, self, "skipped")

    def skip(self, cursor, numbers):
        pass


class Absent(Layout):
    """A field that takes no bytes and has its default."""

    def __init__(self, name, default, why):
        self.name = name
        self.default = default
        self.why = why

    def pieces(self, node, data):
        return ["its default" if self.default is None else self.default]


def absent(cursor, part, why):
    """A field of no bytes, in the tree."""
    node = cursor.leaf(part.label, Absent(part.layout.name, part.default, why), cursor.at, None)
    node.note = f"{why}: no bytes"
    return node


class ToldPart(Part):
    """A text, a list, a map or a set of a length that earlier fields tell."""

    def __init__(self, label, layout, length):
        super().__init__(label, layout)
        self.length = length
        self.can_shrink = layout.content.can_shrink

    least = 0

    def size(self, strict):
        return None

    def count(self, cursor, numbers):
        """The length that the numbers tell."""
        found = self.length.length(numbers)
        if found is None:
            known = ", ".join(f"{path} = {numbers[path]}" for path in self.length.paths)
            raise cursor.fault(Kind.OUT_OF_RANGE_LENGTH, cursor.at, self.label, cursor.at,
                               f"`{self.length.text()}` tells no length{' where ' if known else ''}{known}")
        return found

    def read(self, cursor, numbers):
        count = self.count(cursor, numbers)
        return CountedLayout(self.layout.name, None, self.layout.content, count).read(cursor, self.label)

    def skip(self, cursor, numbers):
        self.layout.content.skip(cursor, self.count(cursor, numbers), True)


class FramePart(ToldPart):
    """A value that fills as many bytes as earlier fields tell."""

    def __init__(self, label, layout, length):
        Part.__init__(self, label, layout)
        self.length = length

    def read(self, cursor, numbers):
        return self.fill(cursor, numbers, lambda: self.layout.read(cursor, self.label))

    def skip(self, cursor, numbers):
        self.fill(cursor, numbers, lambda: self.layout.skip(cursor))

    def fill(self, cursor, numbers, read):
        """Reads within so many bytes, all of which the value takes, and is written in."""
        length = self.count(cursor, numbers)
        begin = cursor.take(length, f"the frame of `{self.layout.name}`", self.label)
        cursor.at, end = begin, cursor.end
        cursor.end = begin + length
        try:
            found = read()
        except Fault as fault:
            if fault.kind is Kind.UNEXPECTED_END_OF_INPUT:
                fault.kind = Kind.OUT_OF_RANGE_LENGTH
                fault.why += f" of the frame of {count_of(length, 'byte')}"
            raise
        finish_whole(cursor, self.label, f"in the frame of {count_of(length, 'byte')}")
        cursor.end = end
        if self.layout.can_shrink and not cursor.strict:
            self.look_at_written(cursor, begin, length)
        return found

    def look_at_written(self, cursor, begin, length):
        """Refuses a value that is written in fewer bytes, since it could not be written again in this frame."""
        whole = Cursor(cursor.data, cursor.order, False, True, begin, begin + length)
        whole.levels = dict(cursor.levels)
        node = self.layout.read(whole, "")
        count = len(self.layout.written(node, cursor.data, cursor.order))
        if count != length:
            raise cursor.fault(Kind.OUT_OF_RANGE_LENGTH, begin, self.label, begin,
                               f"this value is written in {count_of(count, 'byte')}, and {length} are told")


def finish_whole(cursor, label, where):
    """Refuses bytes that are left behind a value that has all of them."""
    count = cursor.left()
    if count:
        raise cursor.fault(Kind.OUT_OF_RANGE_LENGTH, cursor.at, label, cursor.at,
                           f"{count_of(count, 'byte')} {'is' if count == 1 else 'are'} left over {where}")


class Rest(Part):
    """A last part that is the rest of the bytes, without a length."""

    least = 0

    def size(self, strict):
        return None

    def read(self, cursor, numbers):
        return RestLayout(self.layout).read(cursor, self.label)

    def skip(self, cursor, numbers):
        cursor.apart(self.read, cursor, numbers)


class RestLayout(CountedLayout):
    """What a rest is read as."""

    def __init__(self, layout):
        super().__init__(layout.name, None, layout.content)

    def read(self, cursor, label):
        node = cursor.open(label, self)
        node.value = cursor.left() if self.content.is_bytes else None
        self.content.fill_rest(cursor, node)
        return cursor.close(node)


class Missing(Part):
    """A part at the end of the bytes that they may end before."""

    def __init__(self, label, layout, default):
        super().__init__(label, layout)
        self.default = default

    least = 0

    def size(self, strict):
        return None

    def read(self, cursor, numbers):
        at = cursor.at
        if cursor.left() == 0:
            return absent(cursor, self, "missing")
        node = self.layout.read(cursor, self.label)
        if cursor.at == at:
            raise cursor.fault(Kind.OUT_OF_RANGE_LENGTH, at, self.label, at, "a part of no bytes is never missing")
        return node

    def skip(self, cursor, numbers):
        cursor.apart(self.read, cursor, numbers)


class Parts:
    """The parts of a struct or of a variant. `telling` has the paths of the numbers that tell lengths by the labels of
    the fields that hold them."""

    def __init__(self, parts, telling):
        self.parts = parts
        self.telling = telling

    @cached_property
    def least(self):
        """The sum of their least sizes."""
        return total(part.least for part in self.parts)

    @cached_property
    def can_shrink(self):
        """Whether one of them may be written in fewer bytes."""
        return any(part.can_shrink for part in self.parts)

    @cached_property
    def sizes(self):
        """How many bytes they have, if any so many bytes are one, under a plain and under a strict order."""
        sizes = [[part.size(strict) for part in self.parts] for strict in (False, True)]
        return [None if None in it else sum(it) for it in sizes]

    def read(self, cursor):
        """Reads them."""
        numbers = {}
        for part in self.parts:
            node = part.read(cursor, numbers)
            for path, labels in self.telling.get(part.label, ()):
                numbers[path] = number_in(node, labels)

    @cached_property
    def steps(self):
        """How they are passed over, under a plain and under a strict order: runs of parts of a known size as how many
        bytes they have, and the others."""
        found = []
        for strict in (False, True):
            steps = []
            for part in self.parts:
                size = None if part.label in self.telling else part.size(strict)
                if size is not None and steps and isinstance(steps[-1], int):
                    steps[-1] += size
                else:
                    steps.append(part if size is None else size)
            found.append(steps)
        return found

    def skip(self, cursor):
        """Passes over them."""
        numbers = {}
        for step in self.steps[cursor.strict]:
            if isinstance(step, int):
                cursor.take(step, "a struct")
                continue
            told = self.telling.get(step.label)
            if told is None:
                step.skip(cursor, numbers)
            elif isinstance(step.layout, (Number, Varint)):
                numbers[told[0][0]] = step.layout.value(cursor, "")
            else:
                node = cursor.apart(step.read, cursor, numbers)
                for path, labels in told:
                    numbers[path] = number_in(node, labels)


def number_in(node, labels):
    """The number of a field of a field."""
    for label in labels:
        node = next(part for part in node.parts if part.label == label)
    return node.value


def field_pieces(shape, nodes, data):
    """The fields of a struct or of a variant, in pieces; constants are none."""
    shown = [node for node in nodes if not isinstance(node.layout, Magic)]
    if shape == "named":
        inner = [[f"{node.label[1:]}: ", *node.layout.pieces(node, data)] for node in shown]
        return [" { ", *joined(inner), " }"] if inner else []
    inner = [node.layout.pieces(node, data) for node in shown]
    return ["(", *joined(inner), ")"] if inner else []


def written_fields(nodes, data, order):
    """The bytes that fields are written in."""
    return b"".join(it.layout.written(it, data, order) for it in nodes if not isinstance(it.layout, Absent))


class Levelled(Layout):
    """A type of the file. `depth` is how many levels its values have at most, where they hold values of their own type.
    Its parts are made when they are asked for, since they may hold it."""
    has_rows = True
    depth = 0

    def enter(self, cursor, label):
        """Goes a level down, of which there are no more than the bound."""
        if not self.depth:
            return
        level = cursor.levels.get(self, 0)
        if level == self.depth:
            raise cursor.fault(Kind.OUT_OF_RANGE_LENGTH, cursor.at, label, cursor.at,
                               f"`{self.name}` has at most {count_of(self.depth, 'level')}")
        cursor.levels[self] = level + 1

    def leave(self, cursor):
        """Goes a level up."""
        if self.depth:
            cursor.levels[self] -= 1


class Struct(Levelled):
    """A struct. `ends` says whether it ends where the bytes do."""

    def __init__(self, name, title, shape, make, depth=0, ends=False):
        self.name = name
        self.title = title
        self.shape = shape
        self.make = make
        self.depth = depth
        self.ends = ends

    @cached_property
    def parts(self):
        """Its parts."""
        return self.make()

    @property
    def least(self):
        """Its least size."""
        return self.parts.least

    @cached_property
    def can_shrink(self):
        """Whether it may be written in fewer bytes. What holds itself is looked at as if."""
        return bool(self.depth) or self.parts.can_shrink

    def size(self, strict):
        return None if self.depth or self.ends else self.parts.sizes[strict]

    def read(self, cursor, label):
        self.enter(cursor, label)
        node = cursor.open(label, self)
        self.parts.read(cursor)
        self.leave(cursor)
        return cursor.close(node)

    def skip(self, cursor):
        size = self.size(cursor.strict)
        if size is not None:
            cursor.take(size, self.name)
            return
        self.enter(cursor, "")
        self.parts.skip(cursor)
        self.leave(cursor)

    def pieces(self, node, data):
        return [self.title, *field_pieces(self.shape, node.parts, data)]

    def key(self, node, data):
        return tuple(part.layout.key(part, data) for part in node.parts if part.value is not None or part.parts)

    def written(self, node, data, order):
        return written_fields(node.parts, data, order)


class Variant:
    """A variant: its name, its tag, its shape, its parts, and by what it is compared."""

    def __init__(self, name, tag, shape, parts, rank):
        self.name = name
        self.tag = tag
        self.shape = shape
        self.parts = parts
        self.rank = rank


class Choice(Levelled):
    """An enum: a tag, and the parts of the variant that has it."""

    def __init__(self, name, title, number, make, depth=0):
        self.name = name
        self.title = title
        self.number = number
        self.least = number.least
        self.make = make
        self.depth = depth

    @cached_property
    def variants(self):
        """Its variants, by their tags."""
        return {variant.tag: variant for variant in self.make()}

    @cached_property
    def can_shrink(self):
        """Whether it may be written in fewer bytes."""
        return bool(self.depth) or self.number.can_shrink or any(it.parts.can_shrink for it in self.variants.values())

    def chosen(self, cursor, label):
        """Takes the tag, and answers the variant that has it."""
        at = cursor.at
        tag = self.number.number(cursor, label)
        found = self.variants.get(tag)
        if found is None:
            raise cursor.fault(Kind.INVALID_ENUM_VARIANT, at, label, at,
                               f"no variant of `{self.title}` has the tag {tag}: {self.tags()}")
        return found

    def tags(self):
        """Which tags there are."""
        known = sorted(self.variants)
        listed = ", ".join(f"{self.variants[tag].name} has {tag}" for tag in known[:6])
        return listed + (f", and {len(known) - 6} more" if len(known) > 6 else "")

    def read(self, cursor, label):
        self.enter(cursor, label)
        node = cursor.open(label, self)
        variant = self.chosen(cursor, "")
        node.value, node.head = variant.tag, cursor.at
        node.within = f"::{variant.name}"
        variant.parts.read(cursor)
        self.leave(cursor)
        return cursor.close(node)

    def skip(self, cursor):
        self.enter(cursor, "")
        self.chosen(cursor, "").parts.skip(cursor)
        self.leave(cursor)

    def variant(self, node):
        """The variant of a value."""
        return self.variants[node.value]

    def pieces(self, node, data):
        variant = self.variant(node)
        return [variant.name, *field_pieces(variant.shape, node.parts, data)]

    def key(self, node, data):
        return self.variant(node).rank, tuple(it.layout.key(it, data) for it in node.parts)

    def written(self, node, data, order):
        return self.number.encoded(node.value, order) + written_fields(node.parts, data, order)

    def summary(self, node, data):
        if node.value is None:
            return self.title
        return f"tag {node.value}"
