"""The numbers that calls of a library answer, as `exports.rt` of `speedy` gives them, and what each of them means."""

# Each kind of error, by its number from 1 on.
KINDS = (
    ("InvalidChar", "a number that should be a character is none"),
    ("InvalidEnumVariant", "a tag that no variant has, or in a view a flag that is neither 0 nor 1"),
    ("InvalidUtf8", "a text is not UTF-8"),
    ("InvalidSystemTime", "the seconds of a time do not fit into 64 bits"),
    ("ZeroNonZero", "a number that must not be zero is zero"),
    ("OutOfRangeLength", "a length or a size does not fit, or in a view bytes are not so many items of a list"),
    ("OutOfRangeUsize", "a size does not fit into 64 bits, which never comes"),
    ("UnexpectedEndOfInput", "the bytes end too soon: with more of them there may be a value"),
    ("UnexpectedEndOfOutputBuffer", "a buffer has no room, which no call answers"),
    ("InputBufferIsTooSmall", "the bytes are fewer than any value has: with more of them there may be one"),
    ("OutputBufferIsTooSmall", "the buffer is shorter than what is written"),
    ("LengthIsNotTheSameAsLengthAttribute", "a length is another than the field says that tells it"),
    ("ExpectedConstant", "other bytes stand where a constant should"),
    ("Unsized", "a value that borrows is read where nothing is lent, which no check answers"),
    ("EndiannessMismatch", "numbers lie in the other byte order"),
    ("NotWrittenForm", "the encoding is not the canonical one, which no check answers"),
    ("IoError", "a call of a device failed, which no check answers"),
    ("OutOfMemory", "memory lacks, and nothing is known of the bytes"),
    ("Custom", "an error of the type's own"),
)
# What is no kind of error.
UNKNOWN_ORDER = ("UnknownOrder", 100, "the number of the byte order is none of the two")
# The numbers that say that the bytes ended too soon.
TOO_SOON = (8, 10)


def snake_upper(name):
    """`SomeName` as `SOME_NAME`."""
    return "".join("_" + it if it.isupper() and at else it for at, it in enumerate(name)).upper()


def answers():
    """All answers but 0: the name, the number and the meaning of each."""
    return [(name, at, about) for at, (name, about) in enumerate(KINDS, 1)] + [UNKNOWN_ORDER]
