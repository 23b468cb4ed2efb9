"""Values as the library's `Debug` prints them."""
import struct
from decimal import ROUND_HALF_UP, Context, Decimal

ESCAPES = {"\t": "\\t", "\r": "\\r", "\n": "\\n", "\\": "\\\\", "\0": "\\0"}


def escaped(sign, quote):
    """A character of a literal in these quotes."""
    if sign == quote:
        return "\\" + sign
    if sign in ESCAPES:
        return ESCAPES[sign]
    return sign if sign.isprintable() else f"\\u{{{ord(sign):x}}}"


def quoted(text):
    """A text."""
    return '"' + "".join(escaped(sign, '"') for sign in text) + '"'


def character(sign):
    """A character."""
    return "'" + escaped(sign, "'") + "'"


def byte_text(data):
    """Bytes as a literal, of which those that are ASCII show as that."""
    return 'b"' + "".join(byte_sign(byte) for byte in data) + '"'


def byte_sign(byte):
    """A byte in such a literal."""
    sign = chr(byte)
    if sign in '"\\':
        return "\\" + sign
    if sign in ESCAPES:
        return ESCAPES[sign]
    return sign if 32 <= byte < 127 else f"\\x{byte:02x}"


def float_text(bits, width):
    """The float of these bits; a NaN with its bits."""
    code, number = ("<f", "<I") if width == 4 else ("<d", "<Q")
    value = struct.unpack(code, struct.pack(number, bits))[0]
    if value != value:
        return f"NaN({bits:x})"
    if value in (float("inf"), float("-inf")):
        return "inf" if value > 0 else "-inf"
    digits, exponent = shortest(value, code)
    sign = "-" if bits >> (width * 8 - 1) else ""
    if value != 0 and not 1e-4 <= abs(value) < 1e16:
        rest = "." + digits[1:] if len(digits) > 1 else ""
        return f"{sign}{digits[0]}{rest}e{exponent}"
    return sign + plain(digits, exponent)


def shortest(value, code):
    """The fewest digits that tell a float from each other one of its width, and the exponent of the first."""
    exact, wanted = Decimal(abs(value)), struct.pack(code, abs(value))
    for count in range(1, 18):
        rounded = Context(prec=count, rounding=ROUND_HALF_UP).create_decimal(exact)
        if reads_as(float(rounded), code) == wanted:
            break
    _, digits, exponent = rounded.as_tuple()
    text = "".join(map(str, digits))
    return text.rstrip("0") or "0", exponent + len(text) - 1


def reads_as(value, code):
    """The bytes of the float of this width that a number is read as, None past the greatest."""
    try:
        return struct.pack(code, value)
    except OverflowError:
        return None


def plain(digits, exponent):
    """Digits as a number without an exponent, with at least one behind the point."""
    if exponent < 0:
        return "0." + "0" * (-exponent - 1) + digits
    whole = digits[:exponent + 1].ljust(exponent + 1, "0")
    return f"{whole}.{digits[exponent + 1:] or '0'}"


def duration(seconds, nanoseconds):
    """A duration, in its greatest unit."""
    if seconds:
        return decimal(seconds, nanoseconds, 9) + "s"
    for unit, power in (("ms", 6), ("µs", 3)):
        if nanoseconds >= 10 ** power:
            return decimal(*divmod(nanoseconds, 10 ** power), power) + unit
    return f"{nanoseconds}ns"


def decimal(whole, fraction, digits):
    """A number with so many digits behind the point, without zeros at its end."""
    behind = f"{fraction:0{digits}}".rstrip("0")
    return f"{whole}.{behind}" if behind else str(whole)


def ipv4(number):
    """An address of four octets."""
    return ".".join(str(byte) for byte in number.to_bytes(4, "big"))


def ipv6(number):
    """An address of sixteen octets: the longest row of zeros is left out, if it has two and more."""
    if number >> 32 == 0xFFFF:
        return "::ffff:" + ipv4(number & 0xFFFF_FFFF)
    groups = [number >> shift & 0xFFFF for shift in range(112, -1, -16)]
    best, length = 0, 0
    for first in range(8):
        count = next((at for at in range(first, 8) if groups[at]), 8) - first
        if count > length:
            best, length = first, count
    if length < 2:
        return ":".join(f"{it:x}" for it in groups)
    before, behind = groups[:best], groups[best + length:]
    return ":".join(f"{it:x}" for it in before) + "::" + ":".join(f"{it:x}" for it in behind)


def uuid(data):
    """A UUID."""
    digits = bytes(data).hex()
    return "-".join(digits[first:last] for first, last in ((0, 8), (8, 12), (12, 16), (16, 20), (20, 32)))
