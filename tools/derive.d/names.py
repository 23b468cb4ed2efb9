"""Names that what is made may give: none of them is one of the source's, and none stands for two things."""
from words import CLAUSE_WORDS, KEYWORDS, NOWHERE, NO_PARAMETER, TACTICS

# What the bodies of made functions name besides fields.
OF_BODIES = ("reader", "writer", "error", "tag", "parts", "alloc", "self")


class Fresh:
    """Gives names that are not taken. Rattle tells no two names apart that differ in case alone."""

    def __init__(self, taken=()):
        self.taken = {name.lower() for name in taken}

    def is_free(self, name):
        """Whether a name is not taken."""
        return name.lower() not in self.taken

    def take(self, *names):
        """Takes names, whatever they are."""
        self.taken |= {name.lower() for name in names}

    def name(self, wanted, joined=""):
        """The name that is wanted, or one like it with a number behind it. It is taken then."""
        name, count = wanted, 2
        while not self.is_free(name):
            name, count = f"{wanted}{joined}{count}", count + 1
        self.take(name)
        return name


def field_name(name):
    """The name of a field of the source in Rattle, which has no raw names."""
    return name + "_" if name in KEYWORDS | NOWHERE else name


def quoted(name):
    """The name of a field behind a dot in a clause. There a word of clauses stands as it is too, but the kit warns of
    one that the code has before a colon."""
    return f"«{name}»" if name in CLAUSE_WORDS else name


def camel(name):
    """`some_name` as `SomeName`."""
    return "".join(part.capitalize() for part in name.split("_"))


def variables(fields, values):
    """What each field is bound to, by its name or its place: no name that a body has, or a value of the module."""
    fresh, found = Fresh(OF_BODIES), []
    for place, field in enumerate(fields):
        wanted = field_name(field.name) if field.name else f"t{place}"
        if wanted in values or not fresh.is_free(wanted):
            wanted += "_"
        found.append(fresh.name(wanted))
    return found


def parameter(name):
    """The name of a parameter of a made function, which its clauses may name."""
    return name + "_" if name in CLAUSE_WORDS | NO_PARAMETER | TACTICS else name
