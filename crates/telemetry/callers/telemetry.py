"""The types of `messages.rs`, by the calls of `libtelemetry.so`, whose proofs `rt lib` checks.

Made from `messages.rs` by `tools/derive --library`: change that, and make this again.

The library lies in the folder `build` beside this file, or where the environment variable TELEMETRY_LIBRARY says.

What sensors send: who they are, and what they measured.
"""
import ctypes
import dataclasses
import enum
import os
import pathlib

SOURCE = 2946043619


class Order(enum.IntEnum):
    """A byte order."""

    LITTLE_ENDIAN = 0
    BIG_ENDIAN = 1


_LITTLE = Order.LITTLE_ENDIAN


class Kind(enum.IntEnum):
    """Why bytes are refused."""

    # a number that should be a character is none
    INVALID_CHAR = 1
    # a tag that no variant has, or in a view a flag that is neither 0 nor 1
    INVALID_ENUM_VARIANT = 2
    # a text is not UTF-8
    INVALID_UTF8 = 3
    # the seconds of a time do not fit into 64 bits
    INVALID_SYSTEM_TIME = 4
    # a number that must not be zero is zero
    ZERO_NON_ZERO = 5
    # a length or a size does not fit, or in a view bytes are not so many items of a list
    OUT_OF_RANGE_LENGTH = 6
    # a size does not fit into 64 bits, which never comes
    OUT_OF_RANGE_USIZE = 7
    # the bytes end too soon: with more of them there may be a value
    UNEXPECTED_END_OF_INPUT = 8
    # a buffer has no room, which no call answers
    UNEXPECTED_END_OF_OUTPUT_BUFFER = 9
    # the bytes are fewer than any value has: with more of them there may be one
    INPUT_BUFFER_IS_TOO_SMALL = 10
    # the buffer is shorter than what is written
    OUTPUT_BUFFER_IS_TOO_SMALL = 11
    # a length is another than the field says that tells it
    LENGTH_IS_NOT_THE_SAME_AS_LENGTH_ATTRIBUTE = 12
    # other bytes stand where a constant should
    EXPECTED_CONSTANT = 13
    # a value that borrows is read where nothing is lent, which no check answers
    UNSIZED = 14
    # numbers lie in the other byte order
    ENDIANNESS_MISMATCH = 15
    # the encoding is not the canonical one, which no check answers
    NOT_WRITTEN_FORM = 16
    # a call of a device failed, which no check answers
    IO_ERROR = 17
    # memory lacks, and nothing is known of the bytes
    OUT_OF_MEMORY = 18
    # an error of the type's own
    CUSTOM = 19
    # the number of the byte order is none of the two
    UNKNOWN_ORDER = 100


class Refused(ValueError):
    """Bytes that were refused: of which `kind`, and `at` how many bytes were read before that."""

    def __init__(self, answer, at=0):
        self.kind = Kind(answer)
        self.at = at
        super().__init__(f"{self.kind.name} after {at} bytes")

    @property
    def ends_too_soon(self):
        """Whether the bytes ended too soon, so that more of them may help."""
        return self.kind in (Kind.UNEXPECTED_END_OF_INPUT, Kind.INPUT_BUFFER_IS_TOO_SMALL)


def _loaded():
    """The library, which was made of the same file as this module."""
    beside = pathlib.Path(__file__).resolve().parent / "build" / "libtelemetry.so"
    library = ctypes.CDLL(os.environ.get("TELEMETRY_LIBRARY", str(beside)))
    library.telemetry_source.restype = ctypes.c_uint32
    library.telemetry_source.argtypes = ()
    if library.telemetry_source() != SOURCE:
        raise ImportError("libtelemetry.so was made of another file than telemetry.py: make both again")
    return library


_LIBRARY = _loaded()


def _check(name, data, order):
    """How many bytes the encoding has that the bytes begin with."""
    data = bytes(data)
    size = ctypes.c_size_t()
    call = getattr(_LIBRARY, name)
    call.restype = ctypes.c_uint32
    call.argtypes = (ctypes.c_char_p, ctypes.c_size_t, ctypes.c_uint32, ctypes.POINTER(ctypes.c_size_t))
    answer = call(data, len(data), order, ctypes.byref(size))
    if answer:
        raise Refused(answer, size.value)
    return size.value


def _check_whole(name, data, order):
    """Refuses bytes that are not, all of them, an encoding."""
    data = bytes(data)
    call = getattr(_LIBRARY, name)
    call.restype = ctypes.c_uint32
    call.argtypes = (ctypes.c_char_p, ctypes.c_size_t, ctypes.c_uint32)
    answer = call(data, len(data), order)
    if answer:
        raise Refused(answer)


class _Bytes(ctypes.Structure):
    _fields_ = [("at", ctypes.c_void_p), ("length", ctypes.c_size_t)]

    def get(self):
        """A copy of the bytes."""
        return ctypes.string_at(self.at, self.length) if self.length else b""

    @staticmethod
    def of(data, kept):
        """Where the bytes lie, for as long as `kept` is there."""
        data = bytes(memoryview(data))
        kept.append(data)
        return _Bytes(ctypes.cast(data, ctypes.c_void_p).value, len(data))


def _number(value, kind):
    """A number that is one of its kind of ctypes."""
    if kind(value).value != value:
        raise ValueError(f"{value} is out of range")
    return value


def _array(value, kind):
    """An array of numbers, as many as its kind of ctypes has."""
    if len(value) != kind._length_:
        raise ValueError(f"{len(value)} items, where {kind._length_} are wanted")
    return kind(*(_number(it, kind._type_) for it in value))


def _maybe(raw, value, of):
    """An option, whose value is given by a function."""
    return raw() if value is None else raw(1, of(value))


def _read(name, raw, data, order, at):
    """What a view shows of the value at a place of the bytes, where they lie, and how many bytes it has."""
    size, view = ctypes.c_size_t(), raw()
    call = getattr(_LIBRARY, name)
    call.restype = ctypes.c_uint32
    call.argtypes = (ctypes.c_void_p, ctypes.c_size_t, ctypes.c_uint32, ctypes.POINTER(raw),
                     ctypes.POINTER(ctypes.c_size_t))
    start = ctypes.cast(data, ctypes.c_void_p).value + at
    answer = call(start, len(data) - at, order, ctypes.byref(view), ctypes.byref(size))
    if answer:
        raise Refused(answer, size.value)
    return view, size.value


def _walk(read, data, order):
    """The values that stand one after another. Where one is refused, `at` is where it begins."""
    at = 0
    while at < len(data):
        try:
            value, size = read(data, order, at)
        except Refused as refused:
            raise Refused(refused.kind, at) from None
        if size == 0:
            return
        at += size
        yield value


class _List(ctypes.Structure):
    _fields_ = [("items", _Bytes), ("count", ctypes.c_size_t), ("order", ctypes.c_uint32)]

    def get(self, name, raw, of=lambda it: it.value_of()):
        """The items, by the call that takes one, and a function of what that shows."""
        left, view = _Bytes(self.items.at, self.items.length), raw()
        call = getattr(_LIBRARY, name)
        call.restype = ctypes.c_uint32
        call.argtypes = (ctypes.POINTER(_Bytes), ctypes.c_uint32, ctypes.POINTER(raw))
        found = []
        for _ in range(self.count):
            answer = call(ctypes.byref(left), self.order, ctypes.byref(view))
            if answer:
                raise Refused(answer)
            found.append(of(view))
        return found

    @staticmethod
    def of(values, name, raw, kept):
        """Where the items lie, which a call writes, for as long as `kept` is there."""
        items = [_written(name, raw.of(it, kept), _LITTLE) for it in values]
        return _List(_Bytes.of(b"".join(items), kept), len(items), _LITTLE)


def _written(name, raw, order):
    """The bytes that a call writes of a view."""
    size, room = ctypes.c_size_t(), 64
    call = getattr(_LIBRARY, name)
    call.restype = ctypes.c_uint32
    call.argtypes = (ctypes.POINTER(type(raw)), ctypes.c_uint32, ctypes.c_void_p, ctypes.c_size_t,
                     ctypes.POINTER(ctypes.c_size_t))
    while True:
        buffer = ctypes.create_string_buffer(room)
        answer = call(ctypes.byref(raw), order, buffer, room, ctypes.byref(size))
        if answer == 0:
            return buffer.raw[:size.value]
        if answer != Kind.OUTPUT_BUFFER_IS_TOO_SMALL:
            raise Refused(answer)
        room = size.value


class _RawReading(ctypes.Structure):
    _fields_ = [
        ("second", ctypes.c_uint32),
        ("value", ctypes.c_int32),
        ("is_exact", ctypes.c_uint8),
    ]

    def value_of(self):
        return Reading(
            second=self.second,
            value=self.value,
            is_exact=bool(self.is_exact),
        )

    @staticmethod
    def of(value, kept):
        """The view of a value, for as long as `kept` is there."""
        raw = _RawReading()
        raw.second = _number(value.second, ctypes.c_uint32)
        raw.value = _number(value.value, ctypes.c_int32)
        raw.is_exact = int(bool(value.is_exact))
        return raw


class _RawMaybeText(ctypes.Structure):
    _fields_ = [
        ("is_some", ctypes.c_uint8),
        ("value", _Bytes),
    ]


class _RawMessageHello(ctypes.Structure):
    _fields_ = [
        ("name", _Bytes),
        ("version", ctypes.c_uint8 * 3),
        ("mail", _RawMaybeText),
    ]


class _RawMessageMeasured(ctypes.Structure):
    _fields_ = [
        ("sensor", ctypes.c_uint16),
        ("reading", _RawReading),
    ]


class _RawMessageBlob(ctypes.Structure):
    _fields_ = [
        ("t0", _Bytes),
    ]


class _RawMessageMeasurements(ctypes.Structure):
    _fields_ = [
        ("sensor", ctypes.c_uint16),
        ("readings", _List),
    ]


class _RawMessage(ctypes.Structure):
    _fields_ = [
        ("tag", ctypes.c_uint32),
        ("hello", _RawMessageHello),
        ("measured", _RawMessageMeasured),
        ("blob", _RawMessageBlob),
        ("measurements", _RawMessageMeasurements),
    ]

    def value_of(self):
        if self.tag == 1:
            return Message.Ping()
        if self.tag == 2:
            return Message.Hello(
                name=self.hello.name.get().decode(),
                version=bytes(self.hello.version),
                mail=(self.hello.mail.value.get().decode() if self.hello.mail.is_some else None),
            )
        if self.tag == 3:
            return Message.Measured(
                sensor=self.measured.sensor,
                reading=self.measured.reading.value_of(),
            )
        if self.tag == 4:
            return Message.Blob(
                t0=self.blob.t0.get(),
            )
        if self.tag == 5:
            return Message.Measurements(
                sensor=self.measurements.sensor,
                readings=self.measurements.readings.get("telemetry_reading_next", _RawReading),
            )
        raise ValueError("the library shows a tag that this module does not know")

    @staticmethod
    def of(value, kept):
        """The view of a value, for as long as `kept` is there."""
        raw = _RawMessage()
        if isinstance(value, Message.Ping):
            raw.tag = 1
        elif isinstance(value, Message.Hello):
            raw.tag = 2
            raw.hello.name = _Bytes.of(value.name.encode(), kept)
            raw.hello.version = _array(value.version, ctypes.c_uint8 * 3)
            raw.hello.mail = _maybe(_RawMaybeText, value.mail, lambda it: _Bytes.of(it.encode(), kept))
        elif isinstance(value, Message.Measured):
            raw.tag = 3
            raw.measured.sensor = _number(value.sensor, ctypes.c_uint16)
            raw.measured.reading = _RawReading.of(value.reading, kept)
        elif isinstance(value, Message.Blob):
            raw.tag = 4
            raw.blob.t0 = _Bytes.of(value.t0, kept)
        elif isinstance(value, Message.Measurements):
            raw.tag = 5
            raw.measurements.sensor = _number(value.sensor, ctypes.c_uint16)
            raw.measurements.readings = _List.of(value.readings, "telemetry_reading_write", _RawReading, kept)
        else:
            raise TypeError(f"{value!r} is no `Message`")
        return raw


@dataclasses.dataclass(frozen=True)
class Reading:
    """What a sensor measured."""

    second: object
    value: object
    is_exact: object

    @staticmethod
    def check(data, order=_LITTLE):
        """How many bytes the encoding has that the bytes begin with, or `Refused` where they begin with none."""
        return _check("telemetry_reading_check", data, order)

    @staticmethod
    def read(data, order=_LITTLE):
        """The value that the bytes begin with, and how many bytes it has. Where there is none, `Refused` is raised."""
        return Reading._read(bytes(data), order, 0)

    @staticmethod
    def _read(data, order, at):
        view, size = _read("telemetry_reading_read", _RawReading, data, order, at)
        return view.value_of(), size

    @staticmethod
    def walk(data, order=_LITTLE):
        """The values that stand one after another, up to the end of the bytes."""
        return _walk(Reading._read, bytes(data), order)

    def to_bytes(self, order=_LITTLE):
        """The canonical encoding of the value. Where it has none, `Refused` is raised."""
        kept = []
        return _written("telemetry_reading_write", _RawReading.of(self, kept), order)


class Message:
    """A message."""

    @dataclasses.dataclass(frozen=True)
    class Ping:
        def to_bytes(self, order=_LITTLE):
            """The canonical encoding of the value. Where it has none, `Refused` is raised."""
            kept = []
            return _written("telemetry_message_write", _RawMessage.of(self, kept), order)

    @dataclasses.dataclass(frozen=True)
    class Hello:
        name: object
        version: object
        mail: object

        def to_bytes(self, order=_LITTLE):
            """The canonical encoding of the value. Where it has none, `Refused` is raised."""
            kept = []
            return _written("telemetry_message_write", _RawMessage.of(self, kept), order)

    @dataclasses.dataclass(frozen=True)
    class Measured:
        sensor: object
        reading: object

        def to_bytes(self, order=_LITTLE):
            """The canonical encoding of the value. Where it has none, `Refused` is raised."""
            kept = []
            return _written("telemetry_message_write", _RawMessage.of(self, kept), order)

    @dataclasses.dataclass(frozen=True)
    class Blob:
        t0: object

        def to_bytes(self, order=_LITTLE):
            """The canonical encoding of the value. Where it has none, `Refused` is raised."""
            kept = []
            return _written("telemetry_message_write", _RawMessage.of(self, kept), order)

    @dataclasses.dataclass(frozen=True)
    class Measurements:
        sensor: object
        readings: object

        def to_bytes(self, order=_LITTLE):
            """The canonical encoding of the value. Where it has none, `Refused` is raised."""
            kept = []
            return _written("telemetry_message_write", _RawMessage.of(self, kept), order)

    @staticmethod
    def check(data, order=_LITTLE):
        """How many bytes the encoding has that the bytes begin with, or `Refused` where they begin with none."""
        return _check("telemetry_message_check", data, order)

    @staticmethod
    def read(data, order=_LITTLE):
        """The value that the bytes begin with, and how many bytes it has. Where there is none, `Refused` is raised."""
        return Message._read(bytes(data), order, 0)

    @staticmethod
    def _read(data, order, at):
        view, size = _read("telemetry_message_read", _RawMessage, data, order, at)
        return view.value_of(), size

    @staticmethod
    def walk(data, order=_LITTLE):
        """The values that stand one after another, up to the end of the bytes."""
        return _walk(Message._read, bytes(data), order)


class Line:
    """A line of a log: a level, and a text up to the end of the bytes."""

    @staticmethod
    def check_whole(data, order=_LITTLE):
        """Raises `Refused` where the bytes, all of them, are no encoding."""
        _check_whole("telemetry_line_check_whole", data, order)
