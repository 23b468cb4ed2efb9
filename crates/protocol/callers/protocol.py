"""The types of `crates/speedy_protocol/messages.rs`, by the calls of `libprotocol.so`, whose proofs `rt lib` checks.

Made from `crates/speedy_protocol/messages.rs` by `tools/derive --library`: change that, and make this again.

The library lies in the folder `build` beside this file, or where the environment variable PROTOCOL_LIBRARY says.

What a small protocol says: a header, of one version or the other, and then messages.
"""
import ctypes
import dataclasses
import enum
import os
import pathlib

SOURCE = 116202973


class Order(enum.IntEnum):
    """A byte order."""

    LITTLE_ENDIAN = 0
    BIG_ENDIAN = 1


_LITTLE = Order.LITTLE_ENDIAN


class Kind(enum.IntEnum):
    """Why bytes are refused."""

    # a number that should be a character is none
    INVALID_CHAR = 1
    # a tag that no variant has, or in a view a flag that is neither 0 nor 1
    INVALID_ENUM_VARIANT = 2
    # a text is not UTF-8
    INVALID_UTF8 = 3
    # the seconds of a time do not fit into 64 bits
    INVALID_SYSTEM_TIME = 4
    # a number that must not be zero is zero
    ZERO_NON_ZERO = 5
    # a length or a size does not fit, or in a view bytes are not so many items of a list
    OUT_OF_RANGE_LENGTH = 6
    # a size does not fit into 64 bits, which never comes
    OUT_OF_RANGE_USIZE = 7
    # the bytes end too soon: with more of them there may be a value
    UNEXPECTED_END_OF_INPUT = 8
    # a buffer has no room, which no call answers
    UNEXPECTED_END_OF_OUTPUT_BUFFER = 9
    # the bytes are fewer than any value has: with more of them there may be one
    INPUT_BUFFER_IS_TOO_SMALL = 10
    # the buffer is shorter than what is written
    OUTPUT_BUFFER_IS_TOO_SMALL = 11
    # a length is another than the field says that tells it
    LENGTH_IS_NOT_THE_SAME_AS_LENGTH_ATTRIBUTE = 12
    # other bytes stand where a constant should
    EXPECTED_CONSTANT = 13
    # a value that borrows is read where nothing is lent, which no check answers
    UNSIZED = 14
    # numbers lie in the other byte order
    ENDIANNESS_MISMATCH = 15
    # the encoding is not the canonical one, which no check answers
    NOT_WRITTEN_FORM = 16
    # a call of a device failed, which no check answers
    IO_ERROR = 17
    # memory lacks, and nothing is known of the bytes
    OUT_OF_MEMORY = 18
    # an error of the type's own
    CUSTOM = 19
    # the number of the byte order is none of the two
    UNKNOWN_ORDER = 100


class Refused(ValueError):
    """Bytes that were refused: of which `kind`, and `at` how many bytes were read before that."""

    def __init__(self, answer, at=0):
        self.kind = Kind(answer)
        self.at = at
        super().__init__(f"{self.kind.name} after {at} bytes")

    @property
    def ends_too_soon(self):
        """Whether the bytes ended too soon, so that more of them may help."""
        return self.kind in (Kind.UNEXPECTED_END_OF_INPUT, Kind.INPUT_BUFFER_IS_TOO_SMALL)


def _loaded():
    """The library, which was made of the same file as this module."""
    beside = pathlib.Path(__file__).resolve().parent / "build" / "libprotocol.so"
    library = ctypes.CDLL(os.environ.get("PROTOCOL_LIBRARY", str(beside)))
    library.protocol_source.restype = ctypes.c_uint32
    library.protocol_source.argtypes = ()
    if library.protocol_source() != SOURCE:
        raise ImportError("libprotocol.so was made of another file than protocol.py: make both again")
    return library


_LIBRARY = _loaded()


def _check(name, data, order):
    """How many bytes the encoding has that the bytes begin with."""
    data = bytes(data)
    size = ctypes.c_size_t()
    call = getattr(_LIBRARY, name)
    call.restype = ctypes.c_uint32
    call.argtypes = (ctypes.c_char_p, ctypes.c_size_t, ctypes.c_uint32, ctypes.POINTER(ctypes.c_size_t))
    answer = call(data, len(data), order, ctypes.byref(size))
    if answer:
        raise Refused(answer, size.value)
    return size.value


class _Bytes(ctypes.Structure):
    _fields_ = [("at", ctypes.c_void_p), ("length", ctypes.c_size_t)]

    def get(self):
        """A copy of the bytes."""
        return ctypes.string_at(self.at, self.length) if self.length else b""

    @staticmethod
    def of(data, kept):
        """Where the bytes lie, for as long as `kept` is there."""
        data = bytes(memoryview(data))
        kept.append(data)
        return _Bytes(ctypes.cast(data, ctypes.c_void_p).value, len(data))


def _number(value, kind):
    """A number that is one of its kind of ctypes."""
    if kind(value).value != value:
        raise ValueError(f"{value} is out of range")
    return value


def _array(value, kind):
    """An array of numbers, as many as its kind of ctypes has."""
    if len(value) != kind._length_:
        raise ValueError(f"{len(value)} items, where {kind._length_} are wanted")
    return kind(*(_number(it, kind._type_) for it in value))


def _maybe(raw, value, of):
    """An option, whose value is given by a function."""
    return raw() if value is None else raw(1, of(value))


def _read(name, raw, data, order, at):
    """What a view shows of the value at a place of the bytes, where they lie, and how many bytes it has."""
    size, view = ctypes.c_size_t(), raw()
    call = getattr(_LIBRARY, name)
    call.restype = ctypes.c_uint32
    call.argtypes = (ctypes.c_void_p, ctypes.c_size_t, ctypes.c_uint32, ctypes.POINTER(raw),
                     ctypes.POINTER(ctypes.c_size_t))
    start = ctypes.cast(data, ctypes.c_void_p).value + at
    answer = call(start, len(data) - at, order, ctypes.byref(view), ctypes.byref(size))
    if answer:
        raise Refused(answer, size.value)
    return view, size.value


def _walk(read, data, order):
    """The values that stand one after another. Where one is refused, `at` is where it begins."""
    at = 0
    while at < len(data):
        try:
            value, size = read(data, order, at)
        except Refused as refused:
            raise Refused(refused.kind, at) from None
        if size == 0:
            return
        at += size
        yield value


class _List(ctypes.Structure):
    _fields_ = [("items", _Bytes), ("count", ctypes.c_size_t), ("order", ctypes.c_uint32)]

    def get(self, name, raw, of=lambda it: it.value_of()):
        """The items, by the call that takes one, and a function of what that shows."""
        left, view = _Bytes(self.items.at, self.items.length), raw()
        call = getattr(_LIBRARY, name)
        call.restype = ctypes.c_uint32
        call.argtypes = (ctypes.POINTER(_Bytes), ctypes.c_uint32, ctypes.POINTER(raw))
        found = []
        for _ in range(self.count):
            answer = call(ctypes.byref(left), self.order, ctypes.byref(view))
            if answer:
                raise Refused(answer)
            found.append(of(view))
        return found

    @staticmethod
    def of(values, name, raw, kept):
        """Where the items lie, which a call writes, for as long as `kept` is there."""
        items = [_written(name, raw.of(it, kept), _LITTLE) for it in values]
        return _List(_Bytes.of(b"".join(items), kept), len(items), _LITTLE)


def _written(name, raw, order):
    """The bytes that a call writes of a view."""
    size, room = ctypes.c_size_t(), 64
    call = getattr(_LIBRARY, name)
    call.restype = ctypes.c_uint32
    call.argtypes = (ctypes.POINTER(type(raw)), ctypes.c_uint32, ctypes.c_void_p, ctypes.c_size_t,
                     ctypes.POINTER(ctypes.c_size_t))
    while True:
        buffer = ctypes.create_string_buffer(room)
        answer = call(ctypes.byref(raw), order, buffer, room, ctypes.byref(size))
        if answer == 0:
            return buffer.raw[:size.value]
        if answer != Kind.OUTPUT_BUFFER_IS_TOO_SMALL:
            raise Refused(answer)
        room = size.value


class _RawStart(ctypes.Structure):
    _fields_ = [
        ("header", _Bytes),
    ]

    def value_of(self):
        return Start(
            header=self.header.get(),
        )

    @staticmethod
    def of(value, kept):
        """The view of a value, for as long as `kept` is there."""
        raw = _RawStart()
        raw.header = _Bytes.of(value.header, kept)
        return raw


class _RawHeader(ctypes.Structure):
    _fields_ = [
        ("version", ctypes.c_uint16),
        ("flags", ctypes.c_uint16),
    ]

    def value_of(self):
        return Header(
            version=self.version,
            flags=self.flags,
        )

    @staticmethod
    def of(value, kept):
        """The view of a value, for as long as `kept` is there."""
        raw = _RawHeader()
        raw.version = _number(value.version, ctypes.c_uint16)
        raw.flags = _number(value.flags, ctypes.c_uint16)
        return raw


class _RawHeader2(ctypes.Structure):
    _fields_ = [
        ("version", ctypes.c_uint16),
        ("flags", ctypes.c_uint16),
        ("session", ctypes.c_uint64),
    ]

    def value_of(self):
        return Header2(
            version=self.version,
            flags=self.flags,
            session=self.session,
        )

    @staticmethod
    def of(value, kept):
        """The view of a value, for as long as `kept` is there."""
        raw = _RawHeader2()
        raw.version = _number(value.version, ctypes.c_uint16)
        raw.flags = _number(value.flags, ctypes.c_uint16)
        raw.session = _number(value.session, ctypes.c_uint64)
        return raw


class _RawReading(ctypes.Structure):
    _fields_ = [
        ("second", ctypes.c_uint32),
        ("value", ctypes.c_int32),
    ]

    def value_of(self):
        return Reading(
            second=self.second,
            value=self.value,
        )

    @staticmethod
    def of(value, kept):
        """The view of a value, for as long as `kept` is there."""
        raw = _RawReading()
        raw.second = _number(value.second, ctypes.c_uint32)
        raw.value = _number(value.value, ctypes.c_int32)
        return raw


class _RawMaybeText(ctypes.Structure):
    _fields_ = [
        ("is_some", ctypes.c_uint8),
        ("value", _Bytes),
    ]


class _RawMessageHello(ctypes.Structure):
    _fields_ = [
        ("name", _Bytes),
        ("mail", _RawMaybeText),
    ]


class _RawMessageReadings(ctypes.Structure):
    _fields_ = [
        ("sensor", ctypes.c_uint16),
        ("list", _List),
    ]


class _RawMessageBlob(ctypes.Structure):
    _fields_ = [
        ("t0", _Bytes),
    ]


class _RawMessageFailure(ctypes.Structure):
    _fields_ = [
        ("code", ctypes.c_uint32),
        ("text", _Bytes),
    ]


class _RawMessage(ctypes.Structure):
    _fields_ = [
        ("tag", ctypes.c_uint32),
        ("hello", _RawMessageHello),
        ("readings", _RawMessageReadings),
        ("blob", _RawMessageBlob),
        ("failure", _RawMessageFailure),
    ]

    def value_of(self):
        if self.tag == 1:
            return Message.Ping()
        if self.tag == 2:
            return Message.Hello(
                name=self.hello.name.get().decode(),
                mail=(self.hello.mail.value.get().decode() if self.hello.mail.is_some else None),
            )
        if self.tag == 3:
            return Message.Readings(
                sensor=self.readings.sensor,
                list=self.readings.list.get("protocol_reading_next", _RawReading),
            )
        if self.tag == 4:
            return Message.Blob(
                t0=self.blob.t0.get(),
            )
        if self.tag == 5:
            return Message.Failure(
                code=self.failure.code,
                text=self.failure.text.get().decode(),
            )
        if self.tag == 255:
            return Message.Bye()
        raise ValueError("the library shows a tag that this module does not know")

    @staticmethod
    def of(value, kept):
        """The view of a value, for as long as `kept` is there."""
        raw = _RawMessage()
        if isinstance(value, Message.Ping):
            raw.tag = 1
        elif isinstance(value, Message.Hello):
            raw.tag = 2
            raw.hello.name = _Bytes.of(value.name.encode(), kept)
            raw.hello.mail = _maybe(_RawMaybeText, value.mail, lambda it: _Bytes.of(it.encode(), kept))
        elif isinstance(value, Message.Readings):
            raw.tag = 3
            raw.readings.sensor = _number(value.sensor, ctypes.c_uint16)
            raw.readings.list = _List.of(value.list, "protocol_reading_write", _RawReading, kept)
        elif isinstance(value, Message.Blob):
            raw.tag = 4
            raw.blob.t0 = _Bytes.of(value.t0, kept)
        elif isinstance(value, Message.Failure):
            raw.tag = 5
            raw.failure.code = _number(value.code, ctypes.c_uint32)
            raw.failure.text = _Bytes.of(value.text.encode(), kept)
        elif isinstance(value, Message.Bye):
            raw.tag = 255
        else:
            raise TypeError(f"{value!r} is no `Message`")
        return raw


class _RawFramedMessage(ctypes.Structure):
    _fields_ = [
        ("size", ctypes.c_uint16),
        ("message", _RawMessage),
    ]

    def value_of(self):
        return FramedMessage(
            size=self.size,
            message=self.message.value_of(),
        )

    @staticmethod
    def of(value, kept):
        """The view of a value, for as long as `kept` is there."""
        raw = _RawFramedMessage()
        raw.size = _number(value.size, ctypes.c_uint16)
        raw.message = _RawMessage.of(value.message, kept)
        return raw


class _RawFramedBytes(ctypes.Structure):
    _fields_ = [
        ("bytes", _Bytes),
    ]

    def value_of(self):
        return FramedBytes(
            bytes=self.bytes.get(),
        )

    @staticmethod
    def of(value, kept):
        """The view of a value, for as long as `kept` is there."""
        raw = _RawFramedBytes()
        raw.bytes = _Bytes.of(value.bytes, kept)
        return raw


@dataclasses.dataclass(frozen=True)
class Start:
    """What a stream begins with: a magic number, and a header of any version after the number of its bytes."""

    header: object

    @staticmethod
    def check(data, order=_LITTLE):
        """How many bytes the encoding has that the bytes begin with, or `Refused` where they begin with none."""
        return _check("protocol_start_check", data, order)

    @staticmethod
    def read(data, order=_LITTLE):
        """The value that the bytes begin with, and how many bytes it has. Where there is none, `Refused` is raised."""
        return Start._read(bytes(data), order, 0)

    @staticmethod
    def _read(data, order, at):
        view, size = _read("protocol_start_read", _RawStart, data, order, at)
        return view.value_of(), size

    @staticmethod
    def walk(data, order=_LITTLE):
        """The values that stand one after another, up to the end of the bytes."""
        return _walk(Start._read, bytes(data), order)

    def to_bytes(self, order=_LITTLE):
        """The canonical encoding of the value. Where it has none, `Refused` is raised."""
        kept = []
        return _written("protocol_start_write", _RawStart.of(self, kept), order)


@dataclasses.dataclass(frozen=True)
class Header:
    """The header of version 1."""

    version: object
    flags: object

    @staticmethod
    def check(data, order=_LITTLE):
        """How many bytes the encoding has that the bytes begin with, or `Refused` where they begin with none."""
        return _check("protocol_header_check", data, order)

    @staticmethod
    def read(data, order=_LITTLE):
        """The value that the bytes begin with, and how many bytes it has. Where there is none, `Refused` is raised."""
        return Header._read(bytes(data), order, 0)

    @staticmethod
    def _read(data, order, at):
        view, size = _read("protocol_header_read", _RawHeader, data, order, at)
        return view.value_of(), size

    @staticmethod
    def walk(data, order=_LITTLE):
        """The values that stand one after another, up to the end of the bytes."""
        return _walk(Header._read, bytes(data), order)

    def to_bytes(self, order=_LITTLE):
        """The canonical encoding of the value. Where it has none, `Refused` is raised."""
        kept = []
        return _written("protocol_header_write", _RawHeader.of(self, kept), order)


@dataclasses.dataclass(frozen=True)
class Header2:
    """The header of version 2 has a field more, at its end."""

    version: object
    flags: object
    session: object

    @staticmethod
    def check(data, order=_LITTLE):
        """How many bytes the encoding has that the bytes begin with, or `Refused` where they begin with none."""
        return _check("protocol_header2_check", data, order)

    @staticmethod
    def read(data, order=_LITTLE):
        """The value that the bytes begin with, and how many bytes it has. Where there is none, `Refused` is raised."""
        return Header2._read(bytes(data), order, 0)

    @staticmethod
    def _read(data, order, at):
        view, size = _read("protocol_header2_read", _RawHeader2, data, order, at)
        return view.value_of(), size

    @staticmethod
    def walk(data, order=_LITTLE):
        """The values that stand one after another, up to the end of the bytes."""
        return _walk(Header2._read, bytes(data), order)

    def to_bytes(self, order=_LITTLE):
        """The canonical encoding of the value. Where it has none, `Refused` is raised."""
        kept = []
        return _written("protocol_header2_write", _RawHeader2.of(self, kept), order)


@dataclasses.dataclass(frozen=True)
class Reading:
    """What a sensor measured."""

    second: object
    value: object

    @staticmethod
    def check(data, order=_LITTLE):
        """How many bytes the encoding has that the bytes begin with, or `Refused` where they begin with none."""
        return _check("protocol_reading_check", data, order)

    @staticmethod
    def read(data, order=_LITTLE):
        """The value that the bytes begin with, and how many bytes it has. Where there is none, `Refused` is raised."""
        return Reading._read(bytes(data), order, 0)

    @staticmethod
    def _read(data, order, at):
        view, size = _read("protocol_reading_read", _RawReading, data, order, at)
        return view.value_of(), size

    @staticmethod
    def walk(data, order=_LITTLE):
        """The values that stand one after another, up to the end of the bytes."""
        return _walk(Reading._read, bytes(data), order)

    def to_bytes(self, order=_LITTLE):
        """The canonical encoding of the value. Where it has none, `Refused` is raised."""
        kept = []
        return _written("protocol_reading_write", _RawReading.of(self, kept), order)


class Message:
    """A message. Its texts and bytes lie in what it is read from."""

    @dataclasses.dataclass(frozen=True)
    class Ping:
        def to_bytes(self, order=_LITTLE):
            """The canonical encoding of the value. Where it has none, `Refused` is raised."""
            kept = []
            return _written("protocol_message_write", _RawMessage.of(self, kept), order)

    @dataclasses.dataclass(frozen=True)
    class Hello:
        name: object
        mail: object

        def to_bytes(self, order=_LITTLE):
            """The canonical encoding of the value. Where it has none, `Refused` is raised."""
            kept = []
            return _written("protocol_message_write", _RawMessage.of(self, kept), order)

    @dataclasses.dataclass(frozen=True)
    class Readings:
        sensor: object
        list: object

        def to_bytes(self, order=_LITTLE):
            """The canonical encoding of the value. Where it has none, `Refused` is raised."""
            kept = []
            return _written("protocol_message_write", _RawMessage.of(self, kept), order)

    @dataclasses.dataclass(frozen=True)
    class Blob:
        t0: object

        def to_bytes(self, order=_LITTLE):
            """The canonical encoding of the value. Where it has none, `Refused` is raised."""
            kept = []
            return _written("protocol_message_write", _RawMessage.of(self, kept), order)

    @dataclasses.dataclass(frozen=True)
    class Failure:
        code: object
        text: object

        def to_bytes(self, order=_LITTLE):
            """The canonical encoding of the value. Where it has none, `Refused` is raised."""
            kept = []
            return _written("protocol_message_write", _RawMessage.of(self, kept), order)

    @dataclasses.dataclass(frozen=True)
    class Bye:
        def to_bytes(self, order=_LITTLE):
            """The canonical encoding of the value. Where it has none, `Refused` is raised."""
            kept = []
            return _written("protocol_message_write", _RawMessage.of(self, kept), order)

    @staticmethod
    def check(data, order=_LITTLE):
        """How many bytes the encoding has that the bytes begin with, or `Refused` where they begin with none."""
        return _check("protocol_message_check", data, order)

    @staticmethod
    def read(data, order=_LITTLE):
        """The value that the bytes begin with, and how many bytes it has. Where there is none, `Refused` is raised."""
        return Message._read(bytes(data), order, 0)

    @staticmethod
    def _read(data, order, at):
        view, size = _read("protocol_message_read", _RawMessage, data, order, at)
        return view.value_of(), size

    @staticmethod
    def walk(data, order=_LITTLE):
        """The values that stand one after another, up to the end of the bytes."""
        return _walk(Message._read, bytes(data), order)


@dataclasses.dataclass(frozen=True)
class FramedMessage:
    """A message behind the number of its bytes, for callers in other languages."""

    size: object
    message: object

    @staticmethod
    def check(data, order=_LITTLE):
        """How many bytes the encoding has that the bytes begin with, or `Refused` where they begin with none."""
        return _check("protocol_framed_message_check", data, order)

    @staticmethod
    def read(data, order=_LITTLE):
        """The value that the bytes begin with, and how many bytes it has. Where there is none, `Refused` is raised."""
        return FramedMessage._read(bytes(data), order, 0)

    @staticmethod
    def _read(data, order, at):
        view, size = _read("protocol_framed_message_read", _RawFramedMessage, data, order, at)
        return view.value_of(), size

    @staticmethod
    def walk(data, order=_LITTLE):
        """The values that stand one after another, up to the end of the bytes."""
        return _walk(FramedMessage._read, bytes(data), order)

    def to_bytes(self, order=_LITTLE):
        """The canonical encoding of the value. Where it has none, `Refused` is raised."""
        kept = []
        return _written("protocol_framed_message_write", _RawFramedMessage.of(self, kept), order)


@dataclasses.dataclass(frozen=True)
class FramedBytes:
    """A frame with whatever stands in it."""

    bytes: object

    @staticmethod
    def check(data, order=_LITTLE):
        """How many bytes the encoding has that the bytes begin with, or `Refused` where they begin with none."""
        return _check("protocol_framed_bytes_check", data, order)

    @staticmethod
    def read(data, order=_LITTLE):
        """The value that the bytes begin with, and how many bytes it has. Where there is none, `Refused` is raised."""
        return FramedBytes._read(bytes(data), order, 0)

    @staticmethod
    def _read(data, order, at):
        view, size = _read("protocol_framed_bytes_read", _RawFramedBytes, data, order, at)
        return view.value_of(), size

    @staticmethod
    def walk(data, order=_LITTLE):
        """The values that stand one after another, up to the end of the bytes."""
        return _walk(FramedBytes._read, bytes(data), order)

    def to_bytes(self, order=_LITTLE):
        """The canonical encoding of the value. Where it has none, `Refused` is raised."""
        kept = []
        return _written("protocol_framed_bytes_write", _RawFramedBytes.of(self, kept), order)
