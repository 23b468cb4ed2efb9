"""Answers lines `TYPE ORDER BYTES`, as run-examples says, by telemetry.py. Made by `tools/derive --library`."""
import sys

import telemetry

TYPES = {
    "reading": telemetry.Reading.check,
    "message": telemetry.Message.check,
    "line": telemetry.Line.check_whole,
}


def shown(value):
    """A value as words."""
    if value is None:
        return " none"
    if isinstance(value, (bytes, str)):
        return f" {(value.encode() if isinstance(value, str) else value).hex() or '-'}"
    if isinstance(value, tuple):
        return "".join(map(shown, value))
    return f" {int(value)}"


def show(kind, data, order):
    """Reads what was checked, and says what it is."""
    if kind not in SHOWN:
        return ""
    read, say = SHOWN[kind]
    value = read(data, order)[0]
    text = say(value)
    return text + text + (" =" + shown(value.to_bytes(order)) if hasattr(value, "to_bytes") else "")


def say_reading(it):
    """A value as words."""
    return "".join((
        shown(it.second),
        shown(it.value),
        shown(it.is_exact),
    ))


def say_message(it):
    """A value as words."""
    if isinstance(it, telemetry.Message.Ping):
        return "".join((
            " Ping",
        ))
    if isinstance(it, telemetry.Message.Hello):
        return "".join((
            " Hello",
            shown(it.name),
            shown(it.version),
            (shown(None) if it.mail is None else " some" + shown(it.mail)),
        ))
    if isinstance(it, telemetry.Message.Measured):
        return "".join((
            " Measured",
            shown(it.sensor),
            say_reading(it.reading),
        ))
    if isinstance(it, telemetry.Message.Blob):
        return "".join((
            " Blob",
            shown(it.t0),
        ))
    if isinstance(it, telemetry.Message.Measurements):
        return "".join((
            " Measurements",
            shown(it.sensor),
            "".join((shown(len(it.readings)), *(say_reading(it) for it in it.readings))),
        ))
    raise ValueError(it)

SHOWN = {
    "reading": (telemetry.Reading.read, say_reading),
    "message": (telemetry.Message.read, say_message),
}


def main():
    """Answers standard input."""
    for line in sys.stdin:
        kind, order, data = line.split()
        data = bytes.fromhex("" if data == "-" else data)
        try:
            print(0, TYPES[kind](data, int(order)) or 0, end="")
            print(show(kind, data, int(order)))
        except telemetry.Refused as refused:
            print(int(refused.kind), refused.at)


main()
