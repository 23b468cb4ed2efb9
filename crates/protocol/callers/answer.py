"""Answers lines `TYPE ORDER BYTES`, as run-examples says, by protocol.py. Made by `tools/derive --library`."""
import sys

import protocol

TYPES = {
    "start": protocol.Start.check,
    "header": protocol.Header.check,
    "header2": protocol.Header2.check,
    "reading": protocol.Reading.check,
    "message": protocol.Message.check,
    "framed_message": protocol.FramedMessage.check,
    "framed_bytes": protocol.FramedBytes.check,
}


def shown(value):
    """A value as words."""
    if value is None:
        return " none"
    if isinstance(value, (bytes, str)):
        return f" {(value.encode() if isinstance(value, str) else value).hex() or '-'}"
    if isinstance(value, tuple):
        return "".join(map(shown, value))
    return f" {int(value)}"


def show(kind, data, order):
    """Reads what was checked, and says what it is."""
    if kind not in SHOWN:
        return ""
    read, say = SHOWN[kind]
    value = read(data, order)[0]
    text = say(value)
    return text + text + (" =" + shown(value.to_bytes(order)) if hasattr(value, "to_bytes") else "")


def say_start(it):
    """A value as words."""
    return "".join((
        shown(it.header),
    ))


def say_header(it):
    """A value as words."""
    return "".join((
        shown(it.version),
        shown(it.flags),
    ))


def say_header2(it):
    """A value as words."""
    return "".join((
        shown(it.version),
        shown(it.flags),
        shown(it.session),
    ))


def say_reading(it):
    """A value as words."""
    return "".join((
        shown(it.second),
        shown(it.value),
    ))


def say_message(it):
    """A value as words."""
    if isinstance(it, protocol.Message.Ping):
        return "".join((
            " Ping",
        ))
    if isinstance(it, protocol.Message.Hello):
        return "".join((
            " Hello",
            shown(it.name),
            (shown(None) if it.mail is None else " some" + shown(it.mail)),
        ))
    if isinstance(it, protocol.Message.Readings):
        return "".join((
            " Readings",
            shown(it.sensor),
            "".join((shown(len(it.list)), *(say_reading(it) for it in it.list))),
        ))
    if isinstance(it, protocol.Message.Blob):
        return "".join((
            " Blob",
            shown(it.t0),
        ))
    if isinstance(it, protocol.Message.Failure):
        return "".join((
            " Failure",
            shown(it.code),
            shown(it.text),
        ))
    if isinstance(it, protocol.Message.Bye):
        return "".join((
            " Bye",
        ))
    raise ValueError(it)


def say_framed_message(it):
    """A value as words."""
    return "".join((
        shown(it.size),
        say_message(it.message),
    ))


def say_framed_bytes(it):
    """A value as words."""
    return "".join((
        shown(it.bytes),
    ))

SHOWN = {
    "start": (protocol.Start.read, say_start),
    "header": (protocol.Header.read, say_header),
    "header2": (protocol.Header2.read, say_header2),
    "reading": (protocol.Reading.read, say_reading),
    "message": (protocol.Message.read, say_message),
    "framed_message": (protocol.FramedMessage.read, say_framed_message),
    "framed_bytes": (protocol.FramedBytes.read, say_framed_bytes),
}


def main():
    """Answers standard input."""
    for line in sys.stdin:
        kind, order, data = line.split()
        data = bytes.fromhex("" if data == "-" else data)
        try:
            print(0, TYPES[kind](data, int(order)) or 0, end="")
            print(show(kind, data, int(order)))
        except protocol.Refused as refused:
            print(int(refused.kind), refused.at)


main()
