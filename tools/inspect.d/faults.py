"""How bytes are refused: the library's kinds of errors, and where and why it was."""
from enum import Enum


class Kind(Enum):
    """The kinds that bytes can be refused with, by the library's names, each with the text that it has there."""
    UNEXPECTED_END_OF_INPUT = ("UnexpectedEndOfInput", "unexpected end of input")
    INPUT_BUFFER_IS_TOO_SMALL = ("InputBufferIsTooSmall", "input buffer is too small")
    INVALID_UTF8 = ("InvalidUtf8", "encountered invalid utf-8")
    INVALID_CHAR = ("InvalidChar", "out of range char")
    INVALID_ENUM_VARIANT = ("InvalidEnumVariant", "invalid enum variant")
    ZERO_NON_ZERO = ("ZeroNonZero", "a field which is supposed to be non-zero is zero")
    INVALID_SYSTEM_TIME = ("InvalidSystemTime", "encountered invalid system time object")
    EXPECTED_CONSTANT = ("ExpectedConstant", "expected a predefined constant")
    OUT_OF_RANGE_LENGTH = ("OutOfRangeLength", "out of range length")
    NOT_WRITTEN_FORM = ("NotWrittenForm", "spelling is not the written one")

    @property
    def title(self):
        """Its name in the library."""
        return self.value[0]

    @property
    def words(self):
        """Its text in the library."""
        return self.value[1]


class Fault(Exception):
    """The bytes are refused. `at` is the byte at which that shows, `begin` where the part begins that is refused,
    `path` is that part, `why` says what was wrong there, and `fields` are those that the kind has in the library."""

    def __init__(self, kind, at, begin, path, why, fields=None):
        super().__init__(why)
        self.kind = kind
        self.at = at
        self.begin = begin
        self.path = path
        self.why = why
        self.fields = fields or {}

    def debug(self):
        """The kind as the library's `Debug` prints it."""
        inner = ", ".join(f"{name}: {value}" for name, value in self.fields.items())
        return f"{self.kind.title} {{ {inner} }}" if inner else self.kind.title
