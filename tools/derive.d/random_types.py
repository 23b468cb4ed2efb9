"""Random Rust files of types that derive `Readable` and `Writable`, as users of the original crate write them.

`random_file(seed)` is one; `shapes()` gives one for each production, a small one that holds it; `covering(..)` gives
few files that hold all of them. Productions have names: those of `CHANCES` are drawn each time that they could stand,
those of the tables of types, shapes, widths and constants by their weights. What `REFUSED` names is left out where only
that is wanted which the generator takes.
"""
from random_fields import PREFIXES, WIDTHS, Fields
from random_items import SHAPES, VARIANT_SHAPES, Item
from random_kinds import COUNTED, COUNTED_LOANS, FORMS, HELD, KEYS, LEAVES, SKIPPED, TOLD, TOLD_MAPS
from random_source import CHANCES, OF_TYPES, REFUSED, Source
from random_words import CONSTANTS, ODD_TYPES, TYPES

# A pair of types, one of which may have the name that made code gives to a helper of the other.
COLLISIONS = (("Message", "MessageHello"), ("Wire", "WIRE"), ("Header", "HeaderParts"), ("Kind", "KindCases"),
              ("Entry", "BeforeEntryData"), ("A", "AABLength"), ("Table", "TableDataLength"))
VALUES = (("4", 4), ("2 * (1 + 2)", 6), ("0x10", 16), ("1_2", 12), ("32 / 4 - 1", 7), ("1 << 3", 8), ("0b101 | 2", 7),
          ("b'\\t' as usize", 9), ("3usize", 3))
# How many tries a production has to come up in a file of its own.
TRIES = 400


class File:
    """One file."""

    def __init__(self, seed, only_taken=False, features=None, wanted=None):
        self.source = Source(seed, only_taken, features, wanted)
        self.random = self.source.random
        self.words = self.source.words
        self.readable = self.writable = ""

    def text(self):
        """All of it."""
        self.set_derives()
        plan = self.plan()
        self.source.names |= {name for name, _ in plan}
        found = self.constants() + self.aliases()
        if self.source.draws("key_types"):
            name = self.words.pick(["Key", "Place", "Code"], ["Key"], "odd_types", self.source.names)
            found.append(Item(self.source, name, self.random.random() < 0.5, keyed=True).text())
        for is_enum in [it == "recursive_enums" for it in ("recursive_structs", "recursive_enums")
                        if self.source.draws(it)]:
            name = self.words.pick(["Node", "Tree", "Expr"], ["Node"], "odd_types", self.source.names)
            found.append(Item(self.source, name, is_enum, recursive=True).text())
        found += [Item(self.source, name, is_enum).text() for name, is_enum in plan]
        found += self.words.other_items([it.name for it in self.source.types if not it.parameters and not it.loans])
        self.random.shuffle(found)
        head = self.words.header() + "".join(f"{line}\n" for line in self.source.uses()) + "\n"
        text = head + "\n".join(self.words.comment("") + item.rstrip("\n") + "\n" for item in found)
        text = text.replace("\n", "\r\n") if self.source.draws("crlf") else text
        return "\ufeff" + text if self.source.draws("bom") else text

    def set_derives(self):
        """How the two derives are named in this file."""
        source = self.source
        source.readable, source.writable = "Readable", "Writable"
        if source.draws("derive_paths"):
            source.readable, source.writable = "speedy::Readable", "speedy::Writable"
        elif source.draws("use_star"):
            source.brought.add("speedy::*")
        elif source.draws("derive_renames"):
            source.readable, source.writable = "Read_", "Write_"
            source.brought |= {"speedy::Readable as Read_", "speedy::Writable as Write_"}
        else:
            source.brought |= {"speedy::Readable", "speedy::Writable"}
            if source.draws("use_self"):
                source.brought.add("speedy")

    def plan(self):
        """The names of the types, and whether each is an enum."""
        taken, draws = set(), self.source.draws
        count = self.random.choice([1, 1, 1, 2, 2, 3, 4])
        if self.source.wanted is not None:
            count = 3 if self.source.wanted in OF_TYPES else 1
        found = [(self.words.pick(TYPES, ODD_TYPES, "odd_types", taken), draws("enums")) for _ in range(count)]
        if draws("collisions"):
            pair = self.random.choice(COLLISIONS)
            found = [(name, draws("enums")) for name in pair] + [it for it in found if it[0] not in pair][:1]
        return found

    def constants(self):
        """Constants, of which lengths of arrays and tags are made."""
        found, source = [], self.source
        if not source.draws("constants"):
            return found
        for _ in range(self.random.randint(1, 2)):
            name = self.words.pick(CONSTANTS, CONSTANTS, "constants", source.names)
            text, value = self.random.choice(VALUES)
            if source.constants and self.random.random() < 0.3:
                other = next(iter(source.constants))
                text, value = f"{other} + 1", source.constants[other] + 1
            source.constants[name] = value
            found.append(f"{self.words.docs('')}{self.words.visibility()}const {name}: usize = {text};\n")
        return found

    def aliases(self):
        """Aliases of types without parameters."""
        found = []
        while len(found) < 2 and self.source.draws("aliases"):
            name = ("Id", "Names")[len(found)]
            self.source.names.add(name)
            kind = Fields(Item(self.source, name, False, keyed=True), "named").kinds.kind(1)
            self.source.aliases.append(type(kind)(name, kind.traits))
            found.append(f"{self.words.docs('')}{self.words.visibility()}type {name} = {kind.text};\n")
        return found


def random_file(seed, only_taken=False, features=None):
    """A Rust file, the same for the same seed. `features` are the names of all productions that may stand in it."""
    return File(seed, only_taken, features).text()


def productions():
    """The names of all productions."""
    tables = (CHANCES, LEAVES, FORMS, KEYS, COUNTED, COUNTED_LOANS, TOLD, TOLD_MAPS, SKIPPED, HELD, SHAPES,
              VARIANT_SHAPES, WIDTHS, PREFIXES)
    return list(dict.fromkeys(name for table in tables for name in table))


def shapes(only_taken=False):
    """For each production its name and a short file that holds it, or None where none came up."""
    for name in productions():
        if not (only_taken and name in REFUSED):
            yield name, shape(name, only_taken)


def shape(name, only_taken=False):
    """A short file that holds a production, or None where none came up."""
    found = []
    for place in range(TRIES):
        file = File(f"{name} {place}", only_taken, None, name)
        text = file.text()
        if name in file.source.used:
            found.append(text)
        if len(found) == 12:
            break
    return min(found, key=len) if found else None


def covering(seed, count, is_made):
    """Files that hold each production, as `shapes` gives them: few of the first ones of a seed, of which so many are
    looked at and `is_made` says which ones the generator takes, and a short file of each production that none holds."""
    files, left = [], set(productions()) - REFUSED
    for place in range(count):
        file = File(f"{seed}/{place}", True)
        text = file.text()
        if is_made(text):
            files.append((f"r{place}", text, file.source.used & left))
    while files:
        # A longer file costs more to compile.
        name, text, used = max(files, key=lambda it: len(it[2] & left) / (2000 + len(it[1])))
        if not used & left:
            break
        left -= used
        yield name, text
    for name in productions():
        if name in left or name in REFUSED:
            yield f"shape_{name}", shape(name)
