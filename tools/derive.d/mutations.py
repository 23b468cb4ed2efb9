"""Broken Rust files: sources with a few random changes, which are made or refused without a traceback."""
import re

TOKEN = re.compile(r"\s+|//[^\n]*|[A-Za-z_][A-Za-z0-9_]*|'[a-z_]+|[0-9][0-9A-Za-z_]*|\"(?:\\.|[^\"\\])*\"|::|.",
                   re.DOTALL)
WORDS = ("struct enum pub where use type const fn impl mod trait crate self super Self as for if else match "
         "let mut ref dyn unsafe async static extern u8 u64 i128 isize usize f32 str String Vec Option Result "
         "Box Cow HashMap BTreeMap PhantomData Duration 'a 'static '_ T N length length_type constant_prefix "
         "skip varint tag tag_type peek_tag default_on_eof depth derive speedy repr serde cfg Readable "
         "Writable true false _ A").split()
MARKS = ("( ) [ ] { } < > , ; : :: = == => -> & && | || + - * / % ^ ! ? . .. ..= ... # #! $ @ ~ ' \" "
         "\\ ` ´ //  /* */ /// //! << >>").split()
ODD = ["²", "½", "٣", "λ", "🦀", "\ufeff", "\u200b", "\u202e", "\0", "\x0c", "\x7f", "\r", "\t", "\u00a0", "\u2028",
       "ß", "é",
       "e\u0301", "\ud7ff", "\U0010ffff", "’", "“", "一"]
NUMBERS = ["0", "00", "-1", "256", "65536", "18446744073709551616", "9" * 40, "1" + "0" * 4300, "0x" + "f" * 4000,
           "0b2", "0x",
           "0o8", "1e5", "1.5", "1.", "1..2", "1_u9", "1__", "_1", "0xu8", "1f32", "1.e", "256u8", "-128i8", "0b",
           "1u1280",
           "340282366920938463463374607431768211456", "1_000_000_000_000", "2usize", "0x1_0", "08"]
LITERALS = ['""', '"\\q"', '"\\u{110000}"', '"\\u{}"', '"\\x80"', 'b"é"', "''", "'ab'", "'\\''", "b'é'", 'r"', 'r#"',
            'r#""#',
            'br##"a"#"##', "'\\u{d800}'", "\"\\\n   a\"", "b'\\u{41}'", "r#type", "r#0", "c\"a\"", "b", "'", "b'",
            '"\\']
TYPES = ["Vec<'a>", "Vec<5>", "Vec<>", "Vec", "Option<'a, u8>", "Cow<u8>", "Cow<'_, str>", "Cow<'static, [u8]>",
         "&str", "&'a",
         "&mut u8", "[u8]", "[u8; ]", "[u8; -1]", "[u8; N * 2]", "[u8; {1}]", "[u8; 'a']", "(,)", "((u8))", "fn()",
         "*const u8",
         "!", "_", "Self", "Self::A", "crate::A", "self::A", "super::super::A", "::std::vec::Vec<u8>", "<A as B>::C",
         "dyn A",
         "impl A", "A<A<A<A>>>", "HashMap<u8>", "HashMap<f32, u8>", "BTreeMap<Vec<f64>, ()>", "Result<u8>", "Box<>",
         "Box<[u8]>",
         "SmallVec<u8>", "SmallVec<[u8; 0]>", "Range<str>", "T<u8>", "std::u8", "u8::MAX", "String<u8>", "str", "A!()",
         "A()",
         "Fn(u8) -> u8", "for<'b> u8", "Vec<u8>::A", "Option<Option<Option<u8>>>", "PhantomData<A>",
         "std::marker::PhantomData"]


def tokens(source):
    """The text as pieces, of which blanks and comments are some."""
    return TOKEN.findall(source)


def deep(random):
    """A type or an expression that nests deep, or that is very long."""
    count = random.choice([50, 100, 150, 200, 400])
    return random.choice([
        "Vec<" * count + "u8" + ">" * count, "(" * count + "u8," + ",)" * (count - 1) + ")",
        "[" * count + "u8" + "; 1]" * count,
        "&'a " * count + "u8", "(" * count + "1" + ")" * count, "-" * count + "1", "[" * count + "]" * count,
        " + ".join(["1"] * count * 10), " as usize".join(["1"] + [""] * count), "{" * count + "}" * count,
        "#[a]" * count, "/*" * count + "*/" * count, "A::" * count + "A", "(u8, " * count + "u8" + ")" * count,
        "Option<Box<" * count + "A" + ">>" * count, "<" * count, ")" * count, "!" * count + "true"])


class Mutation:
    """Changes one source."""

    def __init__(self, random, sources):
        self.random = random
        self.sources = sources
        self.source = random.choice(sources)

    def text(self):
        """The source with one to four changes."""
        for _ in range(self.random.choice([1, 1, 1, 2, 2, 3, 4])):
            change = self.random.choice([self.of_tokens, self.of_tokens, self.of_tokens, self.of_characters,
                                         self.of_lines,
                                         self.of_places, self.of_places, self.of_the_end])
            self.source = change(self.source)
        return self.source

    def piece(self):
        """A piece of a file, of one of the kinds that break things."""
        kind = self.random.choice([WORDS, WORDS, MARKS, MARKS, ODD, NUMBERS, LITERALS, TYPES, None])
        if kind is None:
            return deep(self.random) if self.random.random() < 0.3 else self.random.choice(tokens(self.other()) or [""])
        return self.random.choice(kind)

    def other(self):
        """Another source."""
        return self.random.choice(self.sources)

    def of_tokens(self, source):
        """Tokens that are deleted, doubled, swapped, put in or changed."""
        found = tokens(source)
        solid = [place for place, it in enumerate(found) if not it.isspace()]
        if not solid:
            return self.piece()
        place, other = self.random.choice(solid), self.random.choice(solid)
        way = self.random.randrange(6)
        if way == 0:
            del found[place:place + self.random.choice([1, 1, 2, 5])]
        elif way == 1:
            found.insert(place, found[place] + self.random.choice(["", " "]))
        elif way == 2:
            found[place], found[other] = found[other], found[place]
        elif way == 3:
            found.insert(place, f" {self.piece()} ")
        elif way == 4:
            found[place] = self.piece()
        else:
            found[place:place] = found[min(place, other):max(place, other)][:40]
        return "".join(found)

    def of_characters(self, source):
        """Characters that are deleted, put in or changed."""
        place = self.random.randrange(len(source) + 1)
        sign = self.random.choice([*ODD, *MARKS, "a", "0", "\n"])
        return source[:place] + self.random.choice(["", sign, sign]) + source[place + self.random.choice([0, 1, 1, 3]):]

    def of_lines(self, source):
        """Lines that are deleted, doubled, swapped, or taken from another file."""
        lines, others = source.splitlines(keepends=True) or [""], self.other().splitlines(keepends=True) or [""]
        place, other = self.random.randrange(len(lines)), self.random.randrange(len(lines))
        way = self.random.randrange(4)
        if way == 0:
            del lines[place]
        elif way == 1:
            lines.insert(other, lines[place])
        elif way == 2:
            lines[place], lines[other] = lines[other], lines[place]
        else:
            lines.insert(place, self.random.choice(others))
        return "".join(lines)

    def of_places(self, source):
        """Another type of a field, another value of a setting, a number, a name: mostly what is still Rust."""
        found = list(re.finditer(self.random.choice([r"(?<=: )[^,\n{}()]+", r"(?<== )[^,\])\n]+", r"\b[0-9]\w*\b",
                                                     r"\b[a-z_]\w*\b", r"(?<=\()[^()\n]+", r"(?<=<)[^<>\n]+"]), source))
        if not found:
            return source
        place = self.random.choice(found)
        put = self.random.choice([self.piece(), self.random.choice(TYPES), self.random.choice(NUMBERS),
                                  deep(self.random),
                                  *(self.random.choice(found).group() for _ in range(4))])
        return source[:place.start()] + put + source[place.end():]

    def of_the_end(self, source):
        """A file that is cut short, or begins late, or stands twice."""
        place = self.random.randrange(len(source) + 1)
        return self.random.choice([source[:place], source[:place], source[place:], source + source])


def shrunk(source, is_same, tries=400):
    """A short source that is still the same: lines are left out, then tokens, as long as that holds."""
    for split in (lambda text: text.splitlines(keepends=True), tokens):
        pieces = split(source)
        size = max(len(pieces) // 2, 1)
        while size and tries > 0:
            place = 0
            while place < len(pieces) and tries > 0:
                tries -= 1
                shorter = pieces[:place] + pieces[place + size:]
                if is_same("".join(shorter)):
                    pieces = shorter
                else:
                    place += size
            size //= 2
        source = "".join(pieces)
    return source
