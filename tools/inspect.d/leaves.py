"""Layouts without parts: numbers, flags, characters, addresses and durations."""
import struct

import texts
from faults import Kind
from layouts import Layout

SECOND = 1_000_000_000
# How `struct` names numbers of so many bytes, signed in lower case.
CODES = {1: "B", 2: "H", 4: "I", 8: "Q"}


class Leaf(Layout):
    """Values of a fixed number of bytes, whose meaning `decode` tells of the number that they are."""

    def __init__(self, name, width):
        self.name = name
        self.least = width

    def read(self, cursor, label):
        at = cursor.take(self.least, f"a `{self.name}`", label)
        number = int.from_bytes(cursor.data[at:cursor.at], self.order_under(cursor.order))
        return cursor.leaf(label, self, at, self.decode(cursor, at, number, label))

    def skip(self, cursor):
        at = cursor.take(self.least, self.name)
        if self.size(cursor.strict) is None:
            self.decode(cursor, at, int.from_bytes(cursor.data[at:cursor.at], cursor.order), "")

    def order_under(self, order):
        """The order of the bytes, under one of the context."""
        return order

    def decode(self, cursor, at, number, label):  # pylint: disable=unused-argument
        """The value that a number means, or an error."""
        return number

    def pieces(self, node, data):
        return [str(node.value)]


class Number(Leaf):
    """Integers, of which any bytes are one."""

    def __init__(self, name, width, is_signed=False):
        super().__init__(name, width)
        self.is_signed = is_signed

    def size(self, strict):
        return self.least

    def decode(self, cursor, at, number, label):
        past = 1 << (8 * self.least)
        return number - past if self.is_signed and number >= past >> 1 else number

    def number(self, cursor, label):
        """Takes the number alone, as a length or a tag."""
        at = cursor.take(self.least, f"a `{self.name}`", label)
        return int.from_bytes(cursor.data[at:cursor.at], cursor.order)

    def value(self, cursor, label):
        """Takes the value alone."""
        at = cursor.take(self.least, f"a `{self.name}`", label)
        return int.from_bytes(cursor.data[at:cursor.at], cursor.order, signed=self.is_signed)

    def encoded(self, number, order):
        """The bytes that a number is written in."""
        return number.to_bytes(self.least, order)

    def many(self, data, order):
        """All numbers that bytes hold."""
        if self.least not in CODES:
            return [int.from_bytes(data[at:at + self.least], order, signed=self.is_signed)
                    for at in range(0, len(data), self.least)]
        code = CODES[self.least].lower() if self.is_signed else CODES[self.least]
        return list(struct.unpack(f"{'<' if order == 'little' else '>'}{len(data) // self.least}{code}", data))


class U7(Number):
    """A length or a tag of seven bits."""

    def size(self, strict):
        return None

    def number(self, cursor, label):
        found = super().number(cursor, label)
        if found > 127:
            raise cursor.fault(Kind.OUT_OF_RANGE_LENGTH, cursor.at - 1, label, cursor.at - 1,
                               f"{found} is past 127, the greatest `u7`")
        return found


class Varint(Layout):
    """Integers of one to nine bytes. Its type may show its name."""
    least = 1
    can_shrink = True

    def __init__(self, name="u64_varint", front="", behind=""):
        self.name = name
        self.front = front
        self.behind = behind

    def read(self, cursor, label):
        at = cursor.at
        return cursor.leaf(label, self, at, self.number(cursor, label))

    def skip(self, cursor):
        self.number(cursor, "")

    def value(self, cursor, label):
        """Takes the value alone."""
        return self.number(cursor, label)

    def number(self, cursor, label):
        """Takes the number alone, as a length or a tag."""
        at = cursor.take(1, f"a `{self.name}`", label)
        first = cursor.data[at]
        count = 8 - (first ^ 0xFF).bit_length()
        if count == 0:
            return first
        if cursor.left() < count:
            cursor.at = at
            cursor.take(count + 1, f"a `{self.name}` that begins with {first:02x}", label)
        rest = cursor.take(count, self.name, label)
        low = first & 0x7F >> count
        found = low << 8 * count | int.from_bytes(cursor.data[rest:cursor.at], "little")
        if cursor.strict and length_of_varint(found) < count + 1:
            raise cursor.fault(Kind.NOT_WRITTEN_FORM, at, label, at,
                               f"{found} is written in {length_of_varint(found)}, not {count + 1} bytes")
        return found

    def pieces(self, node, data):
        return [f"{self.front}{node.value}{self.behind}"]

    def encoded(self, number, order):  # pylint: disable=unused-argument
        """The bytes that a number is written in, in either order."""
        return varint_bytes(number)

    def written(self, node, data, order):
        return varint_bytes(node.value)


def length_of_varint(number):
    """In how many bytes a number is written."""
    return min(9, max(1, -(-number.bit_length() // 7)))


def varint_bytes(number):
    """The bytes that a number is written in."""
    count = length_of_varint(number) - 1
    front = 0xFF << (8 - count) & 0xFF
    low = number >> 8 * count
    return bytes([front | low]) + (number & (1 << 8 * count) - 1).to_bytes(count, "little")


class Flag(Leaf):
    """`bool`, of which any byte is one."""

    def __init__(self):
        super().__init__("bool", 1)

    def size(self, strict):
        return None if strict else 1

    def decode(self, cursor, at, number, label):
        return flag_of(cursor, at, number, label)

    def pieces(self, node, data):
        return ["true" if node.value else "false"]

    def written(self, node, data, order):
        return bytes([node.value])


def flag_of(cursor, at, number, label):
    """The flag that a byte is."""
    if number > 1 and cursor.strict:
        raise cursor.fault(Kind.NOT_WRITTEN_FORM, at, label, at, f"a flag is written as 00 or 01, not {number:02x}")
    return number != 0


class NonZero(Number):
    """Integers but for 0."""

    def size(self, strict):
        return None

    def decode(self, cursor, at, number, label):
        if number == 0:
            raise cursor.fault(Kind.ZERO_NON_ZERO, at, label, at, f"a `{self.name}` is not 0")
        return super().decode(cursor, at, number, label)


class Float(Leaf):
    """Floats, of which any bits are one."""

    def size(self, strict):
        return self.least

    def pieces(self, node, data):
        return [texts.float_text(node.value, self.least)]


class OneOrder(Leaf):
    """`Big<T>` and `Little<T>`: a number that lies in one order under each context."""

    def __init__(self, name, number, order):
        super().__init__(f"{name}<{number.name}>", number.least)
        self.shown = name
        self.number = number
        self.order = order

    def order_under(self, order):
        return self.order

    def size(self, strict):
        return self.least

    def decode(self, cursor, at, number, label):
        return self.number.decode(cursor, at, number, label)

    def pieces(self, node, data):
        return [f"{self.shown}(", *self.number.pieces(node, data), ")"]


def refuse_others(cursor, is_padding, label, at):
    """Refuses other bytes than zeros among those from `at` on that were taken: of padding only where the canonical
    encoding is asked for."""
    place = next((place for place in range(at, cursor.at) if cursor.data[place]), None)
    if place is None or (is_padding and not cursor.strict):
        return
    why = f"here stands {cursor.data[place]:02x}, not 00"
    if is_padding:
        raise cursor.fault(Kind.NOT_WRITTEN_FORM, place, label, at, why)
    raise cursor.fault(Kind.EXPECTED_CONSTANT, place, label, at, why, constant=[0])


class Blank(Leaf):
    """`Padding<N>` and `Zeros<N>`: bytes that mean nothing, and are written as zeros. Padding may be other bytes."""

    def __init__(self, name, count):
        super().__init__(f"{name}<{count}>", count)
        self.shown = name

    def size(self, strict):
        return self.least if self.shown == "Padding" and not strict else None

    def decode(self, cursor, at, number, label):
        if number != 0:
            refuse_others(cursor, self.shown == "Padding", label, at)
        return 0

    def pieces(self, node, data):
        return [self.shown]

    def written(self, node, data, order):
        return bytes(self.least)


class Char(Leaf):
    """`char`."""

    def __init__(self):
        super().__init__("char", 4)

    def decode(self, cursor, at, number, label):
        if number > 0x10FFFF or 0xD800 <= number <= 0xDFFF:
            raise cursor.fault(Kind.INVALID_CHAR, at, label, at, f"no character has the number {number:#x}")
        return number

    def pieces(self, node, data):
        return [texts.character(chr(node.value))]


class ByteOrder(Leaf):
    """`Endianness`."""

    def __init__(self):
        super().__init__("Endianness", 1)

    def decode(self, cursor, at, number, label):
        if number > 1:
            raise cursor.fault(Kind.INVALID_ENUM_VARIANT, at, label, at,
                               f"an order is 00, the little, or 01, the big, not {number:02x}")
        return number

    def pieces(self, node, data):
        return ["BigEndian" if node.value else "LittleEndian"]


class Address(Leaf):
    """`Ipv4Addr` and `Ipv6Addr`, which are numbers in the context's order."""

    def size(self, strict):
        return self.least

    def pieces(self, node, data):
        return [texts.ipv4(node.value) if self.least == 4 else texts.ipv6(node.value)]


class EitherAddress(Layout):
    """`IpAddr`: a byte that tells which of the two stands behind it."""
    name = "IpAddr"
    least = 5

    def __init__(self):
        self.kinds = (Address("Ipv4Addr", 4), Address("Ipv6Addr", 16))

    def read(self, cursor, label):
        at = cursor.take(1, "the first byte of an `IpAddr`", label)
        which = cursor.data[at]
        if which > 1:
            raise cursor.fault(Kind.INVALID_ENUM_VARIANT, at, label, at,
                               f"an `IpAddr` begins with 00, of four octets, or 01, of sixteen, not {which:02x}")
        kind = self.kinds[which]
        octets = cursor.take(kind.least, f"an `{kind.name}`", label)
        return cursor.leaf(label, self, at, (which, int.from_bytes(cursor.data[octets:cursor.at], cursor.order)))

    def pieces(self, node, data):
        which, number = node.value
        return [(texts.ipv6 if which else texts.ipv4)(number)]


class Octets(Leaf):
    """`Uuid`: bytes that no order changes."""

    def size(self, strict):
        return self.least

    def read(self, cursor, label):
        at = cursor.take(self.least, f"a `{self.name}`", label)
        return cursor.leaf(label, self, at, bytes(cursor.data[at:cursor.at]))

    def pieces(self, node, data):
        return [texts.uuid(node.value)]


class Span(Layout):
    """`Duration`: seconds and nanoseconds, of which each 10^9 carry one into the seconds."""
    name = "Duration"
    least = 12

    def read(self, cursor, label):
        at = cursor.take(12, "a `Duration`", label)
        seconds = int.from_bytes(cursor.data[at:at + 8], cursor.order)
        nanoseconds = int.from_bytes(cursor.data[at + 8:at + 12], cursor.order)
        if cursor.strict and nanoseconds >= SECOND:
            raise cursor.fault(Kind.NOT_WRITTEN_FORM, at + 8, label, at,
                               f"{nanoseconds} nanoseconds are a second and more, which would stand in the seconds")
        carry, nanoseconds = divmod(nanoseconds, SECOND)
        if seconds + carry >= 1 << 64:
            raise cursor.fault(Kind.INVALID_SYSTEM_TIME, at, label, at, "the seconds pass 64 bits with the carry")
        return cursor.leaf(label, self, at, (seconds + carry, nanoseconds))

    def pieces(self, node, data):
        return [texts.duration(*node.value)]

    def written(self, node, data, order):
        seconds, nanoseconds = node.value
        return seconds.to_bytes(8, order) + nanoseconds.to_bytes(4, order)


class Nothing(Layout):
    """`PhantomData`, and what else takes no bytes."""

    def __init__(self, name="()", shown="()"):
        self.name = name
        self.shown = shown

    def size(self, strict):
        return 0

    def read(self, cursor, label):
        return cursor.leaf(label, self, cursor.at, ())

    def pieces(self, node, data):
        return [self.shown]
