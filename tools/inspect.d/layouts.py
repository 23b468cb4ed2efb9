"""What each layout has: how a value is read, passed over, printed, compared and written again."""


class Unordered:
    """Items of a hashed map or set, which are printed and written in any order: each a list of pieces."""

    def __init__(self, items, between):
        self.items = items
        self.between = between


def flat(pieces):
    """Pieces of a text, joined."""
    found = []
    for piece in pieces:
        if isinstance(piece, Unordered):
            found.append(piece.between.join(flat(item) for item in piece.items))
        else:
            found.append(piece)
    return "".join(found)


def joined(items, between=", "):
    """The pieces of several texts, with the same between two."""
    found = []
    for place, item in enumerate(items):
        found += ([between] if place else []) + item
    return found


class Layout:
    """A layout, by the name of its type."""
    name = ""
    # No value has fewer bytes.
    least = 0
    # Whether some bytes of a value are more than it is written in.
    can_shrink = False
    # Whether parts of it stand in rows of their own, where it is no item of a list.
    has_rows = False

    def size(self, strict):  # pylint: disable=unused-argument
        """How many bytes each value has, if any so many bytes are one."""
        return None

    def read(self, cursor, label):
        """Reads a value."""
        raise NotImplementedError

    def skip(self, cursor):
        """Passes over a value, as `read` would, without a tree of it."""
        size = self.size(cursor.strict)
        if size is None:
            cursor.apart(self.read, cursor, "")
        else:
            cursor.take(size, self.name)

    def pieces(self, node, data):
        """A value as `Debug` prints it, in pieces."""
        raise NotImplementedError

    def text(self, node, data):
        """The same as a text."""
        return flat(self.pieces(node, data))

    def key(self, node, data):  # pylint: disable=unused-argument
        """What a value is compared by, as a key of a map."""
        return node.value

    def written(self, node, data, order):  # pylint: disable=unused-argument
        """The bytes that a value is written in, in the order in which it was read."""
        return data[node.at:node.end]

    def summary(self, node, data):
        """What is said of a value in the row of its own bytes, where its parts have rows."""
        return self.name
