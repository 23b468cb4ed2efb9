"""Layouts of parts: options, results, tuples and ranges."""
from layouts import Layout, joined
from leaves import flag_of
from lists import PAST_USIZE, parts_of


def total(sizes):
    """A sum of least sizes, which does not pass a `usize`."""
    return min(sum(sizes), PAST_USIZE - 1)


class Chosen(Layout):
    """A flag, and what stands behind it: an option or a result. Each case is a name and a layout, or None where nothing
    stands behind it; that of `true` comes first."""
    least = 1
    has_rows = True

    def __init__(self, name, cases):
        self.name = name
        self.cases = cases
        self.can_shrink = any(it is not None and it.can_shrink for _, it in cases)

    def chosen(self, cursor, label):
        """Takes the flag, and answers which case it chooses."""
        at = cursor.take(1, f"the flag of `{self.name}`", label)
        return 0 if flag_of(cursor, at, cursor.data[at], label) else 1

    def read(self, cursor, label):
        node = cursor.open(label, self)
        node.value = self.chosen(cursor, "")
        node.head = cursor.at
        name, layout = self.cases[node.value]
        if layout is not None:
            layout.read(cursor, f"::{name}")
        return cursor.close(node)

    def skip(self, cursor):
        layout = self.cases[self.chosen(cursor, "")][1]
        if layout is not None:
            layout.skip(cursor)

    def pieces(self, node, data):
        name = self.cases[node.value][0]
        if not node.parts:
            return [name]
        part = node.parts[0]
        return [name, "(", *part.layout.pieces(part, data), ")"]

    def key(self, node, data):
        """`None` is less than `Some`, and `Ok` than `Err`."""
        inner = node.parts[0].layout.key(node.parts[0], data) if node.parts else ()
        is_option = self.cases[1][1] is None
        return (1 - node.value if is_option else node.value, inner)

    def written(self, node, data, order):
        flag = bytes([1 - node.value])
        return flag + b"".join(part.layout.written(part, data, order) for part in node.parts)

    def summary(self, node, data):
        return "" if node.value is None else self.cases[node.value][0]


def option(inner):
    """`Option<T>`."""
    return Chosen(f"Option<{inner.name}>", (("Some", inner), ("None", None)))


def result(right, wrong):
    """`Result<T, E>`."""
    return Chosen(f"Result<{right.name}, {wrong.name}>", (("Ok", right), ("Err", wrong)))


class Tuple(Layout):
    """Parts, one after another, with their labels."""
    has_rows = True

    def __init__(self, name, parts):
        self.name = name
        self.parts = parts
        self.can_shrink = any(layout.can_shrink for _, layout in parts)

    @property
    def least(self):
        """The sum of the parts' least sizes."""
        return total(layout.least for _, layout in self.parts)

    def size(self, strict):
        sizes = [layout.size(strict) for _, layout in self.parts]
        return None if None in sizes else sum(sizes)

    def read(self, cursor, label):
        node = cursor.open(label, self)
        for name, layout in self.parts:
            layout.read(cursor, name)
        return cursor.close(node)

    def skip(self, cursor):
        for _, layout in self.parts:
            layout.skip(cursor)

    def pieces(self, node, data):
        inner = joined([part.layout.pieces(part, data) for part in node.parts])
        return ["(", *inner, "," if len(self.parts) == 1 else "", ")"]

    def key(self, node, data):
        return tuple(part.layout.key(part, data) for part in node.parts)

    def written(self, node, data, order):
        return b"".join(part.layout.written(part, data, order) for part in parts_of(node, data))


class Pair(Tuple):
    """An entry of a map."""

    def __init__(self, key, value):
        super().__init__("entry", ((".key", key), (".value", value)))

    def pieces(self, node, data):
        return joined([part.layout.pieces(part, data) for part in node.parts], ": ")


class Range(Tuple):
    """`Range<T>` and `RangeInclusive<T>`."""

    def __init__(self, name, inner, between):
        super().__init__(f"{name}<{inner.name}>", ((".start", inner), (".end", inner)))
        self.between = between

    def pieces(self, node, data):
        return joined([part.layout.pieces(part, data) for part in node.parts], self.between)
