"""The command: its words, the bytes, and what it prints."""
import argparse
import re
import sys
from pathlib import Path

import as_json
import colours
import rows
from reading import inspect
from refusal import Refusal
from source import Source


class BadInput(Exception):
    """The command itself is wrong, or its input."""


def options(words, usage):
    """The words of the command."""
    found = argparse.ArgumentParser(prog="tools/inspect", usage=usage, add_help=True)
    found.add_argument("file")
    found.add_argument("type", nargs="?")
    found.add_argument("bytes", nargs="?", default="-")
    for name in ("--big", "--strict", "--all", "--json", "--hex"):
        found.add_argument(name, action="store_true")
    found.add_argument("--at", type=lambda it: int(it, 0), default=0)
    return found.parse_intermixed_args(words)


def bytes_of(asked):
    """The bytes of the file or of standard input."""
    try:
        data = sys.stdin.buffer.read() if asked.bytes == "-" else Path(asked.bytes).read_bytes()
    except OSError as error:
        raise BadInput(f"{asked.bytes}: {error.strerror}") from error
    if not asked.hex:
        return data
    text = re.sub(r"\b0x|[\s:,]", "", data.decode("ascii", "replace"))
    wrong = re.search(r"[^0-9a-fA-F]", text)
    if wrong or len(text) % 2:
        reason = f"`{wrong.group()}` is no hexadecimal digit" if wrong else "a byte has two hexadecimal digits"
        raise BadInput(f"{asked.bytes}: {reason}")
    return bytes.fromhex(text)


def layout_of(asked):
    """The layout of the type that is asked for."""
    try:
        source = Source.of_file(asked.file)
    except (OSError, UnicodeDecodeError) as error:
        raise BadInput(f"{asked.file}: {error}") from error
    except Refusal as refusal:
        raise BadInput(f"{asked.file}:{refusal.line}: {refusal.message}") from refusal
    if source.refusal is not None:
        print(f"note: tools/derive does not take this file: {asked.file}:{source.refusal.line}: "
              f"{source.refusal.message}", file=sys.stderr)
    if asked.type is None:
        raise BadInput(f"{types_of(asked.file, source)}{': name one' if source.names() else ''}")
    try:
        return source.layout(asked.type)
    except Refusal as refusal:
        raise BadInput(f"`{asked.type}`: {refusal.message}: {types_of(asked.file, source)}") from refusal


def types_of(file, source):
    """Which types a file has, in words."""
    names = source.names()
    return f"{file} has the types {', '.join(names)}" if names else f"{file} has no type that is read or written"


def lines_of(read, shows_all):
    """The lines that a person reads."""
    made = colours.Lines(len(read.data), colours.wanted(sys.stdout))
    yield from made.of_rows(rows.Table(read, shows_all).rows)
    if read.fault is not None:
        for place, (at, text) in enumerate(rows.of_fault(read.fault, read.data)):
            yield made.of_note(at, text, rows.Tone.ERROR if place < 2 else rows.Tone.FIELD)
        return
    for place, (at, text) in enumerate(rows.of_left(read)):
        yield made.of_note(at, text, rows.Tone.LEFT if place == 0 else rows.Tone.FIELD)


def run(asked):
    """Runs the command, and is its status: 1 where the bytes are refused."""
    layout, data = layout_of(asked), bytes_of(asked)
    if not 0 <= asked.at <= len(data):
        raise BadInput(f"{asked.bytes} has {len(data)} bytes, and none at {asked.at}")
    order = "big" if asked.big else "little"
    read = inspect(layout, data, order, asked.strict, asked.all or asked.json, asked.at)
    if asked.json:
        print(as_json.text(read, asked.strict))
    else:
        for line in lines_of(read, asked.all):
            print(line)
    sys.stdout.flush()
    return 0 if read.fault is None else 1


def main(words, usage):
    """The command, whose status is 2 where it is wrong."""
    try:
        return run(options(words, usage))
    except BadInput as error:
        print(f"error: {error}", file=sys.stderr)
        return 2
    except BrokenPipeError:
        # What reads the lines has ended.
        sys.stderr.close()
        return 0
