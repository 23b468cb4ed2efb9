"""Rows as lines of a terminal or of a file."""
import os

from rows import Tone

RESET, DIM, RED, YELLOW = "\x1b[0m", "\x1b[2m", "\x1b[1;31m", "\x1b[33m"
# By how deep a part lies, one after another.
BY_DEPTH = ("\x1b[1m", "\x1b[36m", "\x1b[32m", "\x1b[35m", "\x1b[34m", "\x1b[33m")
# So wide are the columns of bytes and of paths; a longer one moves what is behind it.
BYTES_WIDTH = 23
MOST_OF_COLUMN = 44


def wanted(stream):
    """Whether lines of a stream are coloured: where it is a terminal, unless `NO_COLOR` says otherwise."""
    return stream.isatty() and not os.environ.get("NO_COLOR") and os.environ.get("TERM") != "dumb"


class Lines:
    """Makes lines of rows."""

    def __init__(self, size, is_coloured):
        self.digits = max(4, len(f"{size:x}"))
        self.is_coloured = is_coloured

    def painted(self, colour, text):
        """A text in a colour."""
        return f"{colour}{text}{RESET}" if self.is_coloured and text else text

    def of_rows(self, rows):
        """The lines of a table."""
        width = min(MOST_OF_COLUMN, max((2 * row.depth + len(row.path) for row in rows if row.value), default=0))
        for row in rows:
            yield self.of_row(row, width)

    def of_row(self, row, width):
        """One line."""
        colour = DIM if row.tone is Tone.FOLDED else BY_DEPTH[row.depth % len(BY_DEPTH)]
        path = "  " * row.depth + row.path
        behind = " " * max(0, width - len(path)) + "  " if row.value else ""
        line = "".join([self.painted(DIM, f"{row.at:0{self.digits}x}"), f"  {row.shown:<{BYTES_WIDTH}}  ",
                        self.painted(colour, path), behind, self.painted(colour, row.value)])
        return line.rstrip()

    def of_note(self, at, text, tone):
        """A line of an error, or of what follows."""
        colour = {Tone.ERROR: RED, Tone.LEFT: YELLOW}.get(tone, "")
        offset = " " * self.digits if at is None else self.painted(DIM, f"{at:0{self.digits}x}")
        return f"{offset}  {self.painted(colour, text) if colour else text}".rstrip()
