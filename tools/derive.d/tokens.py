"""Cuts the text of a Rust file into tokens, each with its line."""
import re
import unicodedata
from dataclasses import dataclass

from refusal import Refusal

# The longer ones come first, since the first that fits is taken. `>` stands alone, as two may close two lists.
MARKS = ["..=", "...", "<<=", "::", "->", "=>", "==", "!=", "<=", "&&", "||", "..", "<<",
         "+=", "-=", "*=", "/=", "%=", "^=", "&=", "|="]
NAME = re.compile(r"[A-Za-z_][A-Za-z0-9_]*")
DIGITS = "0123456789"
# A number of more digits is past each type.
MOST_DIGITS = 130
NUMBER = re.compile(r"0x[0-9a-fA-F_]+|0o[0-7_]+|0b[01_]+|[0-9][0-9_]*")
FLOAT = re.compile(r"[0-9][0-9_]*(?:\.[0-9][0-9_]*(?:[eE][+-]?[0-9_]+)?|[eE][+-]?[0-9_]+)(?:f32|f64)?|"
                   r"[0-9][0-9_]*(?:f32|f64)")
RAW = re.compile(r'b?r(#*)"')
ESCAPES = {"n": "\n", "t": "\t", "r": "\r", "0": "\0", "\\": "\\", "'": "'", '"': '"'}


@dataclass(frozen=True)
class Token:
    """A token. `text` is how it stands in the source; `value` is what a literal or a comment says."""
    kind: str
    text: str
    line: int
    value: object = None
    suffix: str = ""


class Cutter:
    """Goes through a text once."""

    def __init__(self, text):
        self.text = text.removeprefix("\ufeff")
        self.at = 0
        self.line = 1

    def refuse(self, message):
        """The error that the text is none of Rust at this place."""
        return Refusal(self.line, message)

    def peek(self, what):
        """Whether the text goes on with this."""
        return self.text.startswith(what, self.at)

    def take(self, end):
        """Takes the text up to there, and counts its lines."""
        taken = self.text[self.at:end]
        self.at = end
        self.line += taken.count("\n")
        return taken

    def tokens(self):
        """All tokens, and one of the kind `end` behind them."""
        found = []
        while self.at < len(self.text):
            token = self.next()
            if token is not None:
                found.append(token)
        found.append(Token("end", "the end of the file", self.line))
        return found

    def next(self):
        """The token here, or None where blanks or a comment stand."""
        sign = self.text[self.at]
        if sign.isspace():
            self.take(self.at + 1)
            return None
        if self.peek("//") or self.peek("/*"):
            return self.comment()
        if RAW.match(self.text, self.at):
            return self.raw_text()
        if self.peek("r#"):
            return self.raw_name()
        if self.peek('b"') or sign == '"':
            return self.text_literal()
        if self.peek("b'"):
            return self.character(2)
        if sign == "'":
            return self.quote()
        if sign in DIGITS:
            return self.number()
        return self.name_or_mark()

    def comment(self):
        """A comment, which is a token where it is documentation."""
        line = self.line
        if self.peek("//"):
            end = self.text.find("\n", self.at)
            text = self.take(len(self.text) if end < 0 else end).rstrip()
            if text.startswith("//!"):
                return Token("inner_doc", text, line, [clean(text[3:])])
            if text.startswith("///") and not text.startswith("////"):
                return Token("doc", text, line, [clean(text[3:])])
            return None
        text = self.block_comment()
        for start, kind in (("/*!", "inner_doc"), ("/**", "doc")):
            if text.startswith(start) and not text.startswith("/***") and len(text) > 4:
                return Token(kind, text, line, block_lines(text[3:-2]))
        return None

    def block_comment(self):
        """A comment between `/*` and `*/`, which may hold others."""
        depth, at = 0, self.at
        while True:
            opened, closed = self.text.find("/*", at), self.text.find("*/", at)
            if closed < 0:
                raise self.refuse("this comment has no end")
            if 0 <= opened < closed:
                depth, at = depth + 1, opened + 2
            else:
                depth, at = depth - 1, closed + 2
            if depth == 0:
                return self.take(at)

    def raw_name(self):
        """A name that may be a keyword, as `r#type`."""
        line = self.line
        name = NAME.match(self.text, self.at + 2)
        if not name:
            raise self.refuse("behind `r#` a name is missing")
        self.take(name.end())
        return Token("name", name.group(), line, suffix="raw")

    def raw_text(self):
        """A text or byte string without escapes."""
        line = self.line
        start = RAW.match(self.text, self.at)
        closing = '"' + start.group(1)
        end = self.text.find(closing, start.end())
        if end < 0:
            raise self.refuse("this text has no end")
        inner = self.text[start.end():end]
        is_bytes = self.peek("b")
        return self.text_token(line, self.take(end + len(closing)), inner, is_bytes)

    def text_literal(self):
        """A text or byte string."""
        line, start = self.line, self.at
        is_bytes = self.peek("b")
        self.at += 2 if is_bytes else 1
        parts = []
        while not self.peek('"'):
            if self.at >= len(self.text):
                raise Refusal(line, "this text has no end")
            parts.append(self.one_character(is_bytes, True))
        self.at += 1
        return self.text_token(line, self.text[start:self.at], "".join(parts), is_bytes)

    def text_token(self, line, source, inner, is_bytes):
        """A token of a text: of its characters, or for byte strings of its bytes."""
        if not is_bytes:
            return Token("text", source, line, inner)
        if any(ord(sign) > 255 for sign in inner):
            raise Refusal(line, "a byte string holds bytes alone")
        return Token("bytes", source, line, bytes(ord(sign) for sign in inner))

    def one_character(self, is_byte, in_text):
        """A character of a literal, or what its escape stands for."""
        if not self.peek("\\"):
            sign = self.take(self.at + 1)
            if is_byte and ord(sign) > 127:
                raise self.refuse("a byte string holds ASCII and escapes alone")
            return sign
        return self.escape(is_byte, in_text)

    def escape(self, is_byte, in_text):
        """What an escape stands for."""
        hexed = re.compile(r"\\x([0-9a-fA-F]{2})").match(self.text, self.at)
        if hexed:
            self.at = hexed.end()
            number = int(hexed.group(1), 16)
            if number > 127 and not is_byte:
                raise self.refuse("`\\x` goes up to 7f in a text")
            return chr(number)
        long = re.compile(r"\\u\{([0-9a-fA-F_]{1,8})\}").match(self.text, self.at)
        if long and not is_byte:
            self.at = long.end()
            number = int(long.group(1).replace("_", ""), 16)
            if number > 0x10FFFF or 0xD800 <= number <= 0xDFFF:
                raise self.refuse("this escape is no character")
            return chr(number)
        skipped = re.compile(r"\\\r?\n\s*").match(self.text, self.at)
        if skipped and in_text:
            self.take(skipped.end())
            return ""
        sign = self.text[self.at + 1:self.at + 2]
        if sign not in ESCAPES or not sign:
            raise self.refuse(f"`\\{sign}` is no escape")
        self.at += 2
        return ESCAPES[sign]

    def quote(self):
        """A character, or the name of a lifetime."""
        name = NAME.match(self.text, self.at + 1)
        if name and not self.text.startswith("'", name.end()):
            line = self.line
            return Token("lifetime", self.take(name.end()), line)
        return self.character(1)

    def character(self, ahead):
        """A character or a byte, between quotes."""
        line, start = self.line, self.at
        self.at += ahead
        if self.at >= len(self.text) or self.peek("'") or self.peek("\n"):
            raise self.refuse("here a character is missing")
        value = self.one_character(ahead == 2, False)
        if not self.peek("'"):
            raise self.refuse("a character stands alone between its quotes")
        self.at += 1
        kind = "byte" if ahead == 2 else "char"
        return Token(kind, self.text[start:self.at], line, ord(value) if ahead == 2 else value)

    def number(self):
        """A number, with its type behind it."""
        line = self.line
        found = FLOAT.match(self.text, self.at)
        if found and not self.text.startswith("0x", self.at):
            return Token("float", self.take(found.end()), line)
        digits = NUMBER.match(self.text, self.at)
        behind = NAME.match(self.text, digits.end())
        suffix = behind.group() if behind else ""
        if suffix not in ("", "u8", "u16", "u32", "u64", "u128", "usize", "i8", "i16", "i32", "i64", "i128", "isize"):
            raise self.refuse(f"`{digits.group()}{suffix}` is no number")
        cleaned = digits.group().replace("_", "")
        if len(cleaned) > MOST_DIGITS:
            raise self.refuse("this number is past each type")
        if cleaned in ("0x", "0b", "0o"):
            raise self.refuse(f"`{digits.group()}` is no number")
        value = int(cleaned, 0) if cleaned[:2] in ("0x", "0b", "0o") else int(cleaned)
        return Token("integer", self.take((behind or digits).end()), line, value, suffix)

    def name_or_mark(self):
        """A name, a keyword or a mark."""
        line = self.line
        name = NAME.match(self.text, self.at)
        if name:
            return Token("name", self.take(name.end()), line)
        for mark in MARKS:
            if self.peek(mark):
                return Token("mark", self.take(self.at + len(mark)), line)
        sign = self.text[self.at]
        if sign.isidentifier():
            raise self.refuse("Rattle's names have ASCII letters alone: give this another name")
        if sign not in "#![](){}<>,;:=&|+-*/%^.?@$~":
            raise self.refuse(f"`{sign}` is no token of Rust")
        return Token("mark", self.take(self.at + 1), line)


def clean(text):
    """A line of documentation, with blanks for tabs and without what else no line holds."""
    shown = (sign for sign in text.rstrip().expandtabs(4) if not unicodedata.category(sign) in ("Cc", "Cf", "Zl", "Zp"))
    return "".join(shown).rstrip()


def block_lines(text):
    """The lines of documentation between `/**` and `*/`, without the stars before them."""
    lines = [line.strip() for line in text.splitlines()]
    found = [line[1:] if place and line.startswith("*") else f" {line}" for place, line in enumerate(lines)]
    while found and not found[-1].strip():
        found.pop()
    while found and not found[0].strip():
        found.pop(0)
    return [clean(line) for line in found]


def cut(text):
    """The tokens of a Rust file."""
    return Cutter(text).tokens()
