#!/usr/bin/env python3
"""Draws the ratios that tools/bench/run leaves as an SVG: a panel a way of reading or writing, a bar a case and order.

usage: tools/bench/draw.py [--overview] JSON.. > FILE

With --overview each way is one line, with a dot a case and order, its mean, its worst and its best case; and so are the
documents beside each other crate, of which there is a dot for what is read and one for what is written.

Of several files the least figures count. A bar begins at 1, where both take the same time: one to the right says that
this crate takes longer than the original, one to the left that it takes less. The scale is logarithmic, and the same in
all panels. A figure of 0 or less says nothing (the read that is taken off a write took longer than it), and neither
does one of the original below 4 ns, for which the compiler left only a constant (an empty round takes 2): such a row is
drawn as a dash, and left out where that is so in both orders.
"""
import json
import math
import sys
from html import escape

PANELS = [
    ("read_from_buffer", "read_from_buffer"),
    ("read_unbuffered", "read_from_stream_unbuffered"),
    ("read_buffered", "read_from_stream_buffered"),
    ("write_to_buffer", "write_to_buffer"),
    ("write_to_vec", "write_to_vec"),
    ("write_to_stream", "write_to_stream"),
    ("bytes_needed", "bytes_needed"),
]
# What only the overview has: the figures of `bench documents`.
PEERS = [
    (f"documents beside {name}", f"documents / {name}")
    for name in ("bincode", "MessagePack", "prost", "rkyv, decoded")
]
ORDERS = [("le", "little byte order", "#2b6cb0"), ("be", "big byte order", "#dd8a1e")]
INK, SOFT, GRID, PAPER = "#1f2328", "#57606a", "#d8dee4", "#ffffff"

LABELS, BARS, END = 190, 290, 30  # the widths of a panel's labels, its bars, and the room for a number at either end
ROW, BAR = 24, 9  # the heights of a case's row and of each of its two bars
STRIP = 34  # the height of a way's line in the overview
MARGIN, HEAD, TITLE, AXIS = 20, 86, 26, 40
COLUMNS = 2
LEAST = -3  # the power of two that the scale begins at, if not above
CONSTANT = 4.0  # the nanoseconds below which the original's loop has nothing left to do


def least_figures(files):
    """Returns (the original's, this crate's) least nanoseconds, by operation, case and order."""
    figures = {}
    for file in files:
        with open(file) as text:
            rows = json.load(text)
        for row in rows:
            key = row["op"], row["case"], row["order"]
            original, port = figures.get(key, (math.inf, math.inf))
            figures[key] = min(original, row["original_ns"]), min(port, row["port_ns"])
    return figures


def ratios_of(figures):
    """Returns the ratio of each row, or None where its figures say nothing."""
    return {
        key: port / original if port > 0 and original >= CONSTANT else None for key, (original, port) in figures.items()
    }


def mean_of(ratios):
    return math.exp(sum(map(math.log, ratios)) / len(ratios))


def shown(ratio):
    return f"{ratio:.0f}" if ratio >= 9.95 else f"{ratio:.1f}" if ratio >= 0.995 else f"{ratio:.2f}"


class Scale:
    """The logarithmic scale of all panels, from a power of two at or below all ratios to one at or above them.

    It begins at LEAST if there are smaller ones, which would leave no room to the others: they are drawn at its edge.
    """

    def __init__(self, ratios, width=BARS):
        self.width = width
        self.low = max(LEAST, min(-1, math.floor(math.log2(min(ratios)))))
        self.high = max(1, math.ceil(math.log2(max(ratios))))

    def has(self, ratio):
        return math.log2(ratio) >= self.low

    def at(self, ratio):
        return self.width * max(math.log2(ratio) - self.low, 0) / (self.high - self.low)

    def ticks(self):
        step = 1 if self.high - self.low <= 8 else 2
        return [2.0**power for power in range(self.low, self.high + 1) if power % step == 0]


def text(x, y, words, size=11, ink=INK, anchor="start", weight="normal"):
    look = f'font-size="{size}" fill="{ink}" text-anchor="{anchor}" font-weight="{weight}"'
    return f'<text x="{x:.1f}" y="{y:.1f}" {look}>{escape(words)}</text>'


def stroke(at, top, bottom, ink, width=1):
    """Draws a vertical line."""
    return f'<line x1="{at:.1f}" y1="{top}" x2="{at:.1f}" y2="{bottom}" stroke="{ink}" stroke-width="{width}"/>'


def grid(scale, left, top, bottom):
    """Draws the scale: a line a tick, with its number below."""
    for tick in scale.ticks():
        at = left + scale.at(tick)
        yield stroke(at, top, bottom, INK if tick == 1 else GRID)
        yield text(at, bottom + 14, f"{tick:g}" if tick >= 1 else f"1/{1 / tick:g}", 10, SOFT, "middle")
    yield text(left, bottom + 26, "← faster", 10, SOFT)
    yield text(left + scale.width, bottom + 26, "slower →", 10, SOFT, "end")


def panel(x, y, name, rows, scale):
    """Draws one panel: rows are (case, the ratio in each order)."""
    known = [ratio for _, both in rows for ratio in both if ratio]
    bars, bottom = x + LABELS, y + TITLE + ROW * len(rows)
    yield text(x, y + 14, name, 13, weight="bold")
    if known:
        yield text(bars + BARS + END, y + 14, f"geometric mean {mean_of(known):.2f}", 11, SOFT, "end")
    yield from grid(scale, bars, y + TITLE - 4, bottom)
    for place, (case, both) in enumerate(rows):
        top = y + TITLE + ROW * place
        yield text(bars - END, top + ROW / 2 + 3, case, 11, anchor="end")
        for half, ((_, _, ink), ratio) in enumerate(zip(ORDERS, both)):
            yield from bar(bars, top + 2 + half * (BAR + 1), ratio, ink, scale)


def bar(bars, top, ratio, ink, scale):
    """Draws a bar from 1 to a ratio, with the number at its end."""
    one = bars + scale.at(1)
    if ratio is None:
        yield text(one + 4, top + BAR - 0.5, "–", 9, SOFT)
        return
    end = bars + scale.at(ratio)
    left, width = min(one, end), max(abs(end - one), 1)
    yield f'<rect x="{left:.1f}" y="{top:.1f}" width="{width:.1f}" height="{BAR}" fill="{ink}"/>'
    if ratio < 1:
        yield text(end - 3, top + BAR - 0.5, shown(ratio), 9, INK, "end")
    else:
        yield text(end + 3, top + BAR - 0.5, shown(ratio), 9, INK)


def legend(words):
    yield text(MARGIN, 30, "Time of this crate, as a multiple of the original's", 17, weight="bold")
    yield text(MARGIN, 50, "Logarithmic scale. " + words, 11, SOFT)
    for place, (_, order, ink) in enumerate(ORDERS):
        x = MARGIN + 150 * place
        yield f'<rect x="{x}" y="60" width="11" height="11" fill="{ink}"/>'
        yield text(x + 17, 70, order, 11)
    yield text(MARGIN + 150 * len(ORDERS), 70, f"at the left edge (◂): below 1/{2**-LEAST}", 11)


def picture(width, height, drawn):
    """Returns the lines of a picture of this size."""
    return [
        f'<svg xmlns="http://www.w3.org/2000/svg" viewBox="0 0 {width} {height}" width="{width}" height="{height}" '
        'font-family="DejaVu Sans, Verdana, Helvetica, Arial, sans-serif">',
        f'<rect width="{width}" height="{height}" rx="6" fill="{PAPER}"/>',
        *drawn,
        "</svg>",
    ]


def draw(ratios):
    """Returns the picture's lines."""
    scale = Scale([ratio for ratio in ratios.values() if ratio])
    panels = []
    for op, name in PANELS:
        cases = dict.fromkeys(case for of, case, _ in ratios if of == op)
        rows = [(case, [ratios.get((op, case, order)) for order, _, _ in ORDERS]) for case in cases]
        rows = [row for row in rows if any(row[1])]
        if rows:
            panels.append((name, rows))
    wide, drawn, y = LABELS + BARS + END + MARGIN, [], HEAD
    for first in range(0, len(panels), COLUMNS):
        beside = panels[first : first + COLUMNS]
        for column, (name, rows) in enumerate(beside):
            drawn.extend(panel(MARGIN + column * wide, y, name, rows, scale))
        y += TITLE + ROW * max(len(rows) for _, rows in beside) + AXIS
    words = "A bar to the left of 1 is faster than the original, one to the right is slower."
    return picture(MARGIN + wide * min(COLUMNS, len(panels)), y, [*legend(words), *drawn])


def strip(y, name, rows, scale):
    """Draws one way of the overview: rows are (case, order, ratio)."""
    left, middle = MARGIN + 190, y + STRIP / 2
    for _, order, ratio in rows:
        ink = next(ink for key, _, ink in ORDERS if key == order)
        # The two orders lie a little apart, so that neither hides the other.
        at = middle + (-4 if order == ORDERS[0][0] else 4)
        if not scale.has(ratio):
            yield text(left - 8, at + 3, "◂", 9, ink)
            continue
        yield f'<circle cx="{left + scale.at(ratio):.1f}" cy="{at:.1f}" r="3.2" fill="{ink}" fill-opacity="0.55"/>'
    ratios = [ratio for _, _, ratio in rows]
    mean, (case, _, worst) = mean_of(ratios), max(rows, key=lambda row: row[2])
    of_best, _, best = min(rows, key=lambda row: row[2])
    at = left + scale.at(mean)
    yield stroke(at, f"{middle - 11:.1f}", f"{middle + 11:.1f}", INK, 2)
    yield text(left - 14, middle + 4, name, 12, anchor="end")
    beside = left + scale.width + 16
    yield text(beside, middle - 2, f"mean {mean:.2f}; worst {shown(worst)}, {case}", 11, SOFT)
    yield text(beside, middle + 11, f"best {shown(best)}, {of_best}", 11, SOFT)


def draw_overview(ratios):
    """Returns the lines of the overview: a way a line, with a dot a case and order."""
    drawn = [op for op, _ in PANELS + PEERS]
    scale = Scale([ratio for (op, _, _), ratio in ratios.items() if ratio and op in drawn], 420)
    left, top, ways = MARGIN + 190, HEAD, []
    for op, name in PANELS + PEERS:
        rows = [(case, order, ratio) for (of, case, order), ratio in ratios.items() if of == op and ratio]
        if rows:
            ways.append((name, rows))
    bottom = top + STRIP * len(ways)
    width, height = left + scale.width + 16 + 290 + MARGIN, bottom + AXIS
    lines = [*grid(scale, left, top, bottom)]
    for place, (name, rows) in enumerate(ways):
        lines.extend(strip(top + STRIP * place, name, rows, scale))
    words = "Each dot is a case; one to the left of 1 is faster than the original. The stroke is the geometric mean."
    if any(name.startswith("documents") for name, _ in ways):
        words += " The documents are beside other crates."
    return picture(width, height, [*legend(words), *lines])


def main():
    files = [argument for argument in sys.argv[1:] if argument != "--overview"]
    if not files or files[0].startswith("-"):
        print(__doc__.strip(), file=sys.stderr)
        return 2
    ratios = ratios_of(least_figures(files))
    if not any(ratios.values()):
        print("no row has two figures", file=sys.stderr)
        return 1
    print("\n".join(draw_overview(ratios) if len(files) < len(sys.argv) - 1 else draw(ratios)))
    return 0


if __name__ == "__main__":
    sys.exit(main())
