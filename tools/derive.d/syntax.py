"""What a file of types is made of: items, types, generics, attributes and the expressions of constants."""
from dataclasses import dataclass, field


# Expressions.

@dataclass(frozen=True)
class Literal:
    """A literal, as its token."""
    token: object

    @property
    def line(self):
        """Where it stands."""
        return self.token.line


@dataclass(frozen=True)
class Mention:
    """A constant, a field or another value by its name."""
    line: int
    path: tuple


@dataclass(frozen=True)
class Unary:
    """A sign before an expression."""
    line: int
    sign: str
    inner: object


@dataclass(frozen=True)
class Binary:
    """Two expressions with a sign between them."""
    line: int
    sign: str
    left: object
    right: object


@dataclass(frozen=True)
class Cast:
    """`inner as target`."""
    line: int
    inner: object
    target: object


@dataclass(frozen=True)
class Items:
    """`[a, b, c]`."""
    line: int
    items: tuple


@dataclass(frozen=True)
class Apply:
    """A call of a function by its path, or of a method, whose receiver is then the first of the arguments."""
    line: int
    name: tuple
    arguments: tuple
    is_method: bool = False


@dataclass(frozen=True)
class Inner:
    """`value.name`."""
    line: int
    value: object
    name: str


@dataclass(frozen=True)
class Choice:
    """`if condition { yes } else { no }`."""
    line: int
    condition: object
    yes: object
    no: object


@dataclass(frozen=True)
class Open:
    """`..`, which as a length stands for all that is left."""
    line: int


# Types.

@dataclass(frozen=True)
class Lifetime:
    """A lifetime, with its quote."""
    line: int
    name: str


@dataclass(frozen=True)
class Named:
    """A type by its path, with what it is applied to."""
    line: int
    path: tuple
    arguments: tuple = ()


@dataclass(frozen=True)
class Reference:
    """`&'a T` or `&'a mut T`."""
    line: int
    lifetime: object
    mutable: bool
    target: object


@dataclass(frozen=True)
class Slice:
    """`[T]`."""
    line: int
    item: object


@dataclass(frozen=True)
class Array:
    """`[T; N]`."""
    line: int
    item: object
    length: object


@dataclass(frozen=True)
class Tuple:
    """`(A, B)`, or `()`."""
    line: int
    parts: tuple


def paths_in(kind):
    """The paths of the names in a type."""
    if isinstance(kind, Tuple):
        inner = kind.parts
    elif isinstance(kind, (Array, Slice)):
        inner = (kind.item,)
    elif isinstance(kind, Reference):
        inner = (kind.target,)
    else:
        inner = kind.arguments if isinstance(kind, Named) else ()
    found = {kind.path} if isinstance(kind, Named) else set()
    return found.union(*(paths_in(it) for it in inner))


# Generics.

@dataclass(frozen=True)
class Unsized:
    """The bound `?Sized`."""
    line: int


@dataclass(frozen=True)
class Parameter:
    """A lifetime, a type or a constant (`kind`) that an item is generic in."""
    line: int
    kind: str
    name: str
    bounds: tuple = ()
    default: object = None
    constant_type: object = None


@dataclass(frozen=True)
class Where:
    """A line of a `where`."""
    line: int
    subject: object
    bounds: tuple


# Items.

@dataclass(frozen=True)
class Attribute:
    """`#[name tokens]`; of `name(..)` the tokens are those between the brackets."""
    line: int
    name: str
    tokens: tuple


@dataclass
class Field:
    """A part of a struct or of a variant; of a tuple it has no name."""
    line: int
    docs: list
    visibility: str
    name: object
    type: object
    attributes: list
    options: object = None


@dataclass
class Variant:
    """A variant of an enum. `shape` is `unit`, `tuple` or `named`."""
    line: int
    docs: list
    name: str
    shape: str
    fields: list
    discriminant: object
    attributes: list
    tag: object = None


@dataclass
class Declared:
    """A struct or an enum: what both have."""
    line: int
    docs: list
    attributes: list
    visibility: str
    name: str
    parameters: list
    wheres: list
    derives: list = field(default_factory=list)
    # Derives that are not of std, each with its line.
    left_out: list = field(default_factory=list)
    kept: list = field(default_factory=list)
    readable: bool = False
    writable: bool = False
    # What its declaration asks of its parameters: pairs of a name and a role.
    asked: list = field(default_factory=list)
    # Why it is not read further, where it is not.
    refusal: object = None
    # How many levels its values have at most, where they hold values of the type itself.
    depth: int = 0
    # Whether a list holds it that lies where it was read, and whether such a list, or what that holds, does.
    in_list: bool = False
    in_place: bool = False


@dataclass
class Struct(Declared):
    """A struct. `shape` is `unit`, `tuple` or `named`."""
    shape: str = "unit"
    fields: list = field(default_factory=list)


@dataclass
class Enum(Declared):
    """An enum."""
    variants: list = field(default_factory=list)
    tag_type: str = "u32"


def is_plain(item):
    """Whether a type derives neither of the two traits."""
    return not item.readable and not item.writable


def variants_of(item):
    """What an item has fields in: an enum in its variants, a struct in itself, and others nowhere."""
    return item.variants if isinstance(item, Enum) else [item] if isinstance(item, Struct) else []


@dataclass
class Use:
    """One name that a `use` brings."""
    line: int
    visibility: str
    path: tuple
    name: str


@dataclass
class Constant:
    """`const NAME: TYPE = VALUE;`."""
    line: int
    docs: list
    visibility: str
    name: str
    type: object
    value: object


@dataclass
class Alias:
    """`type NAME<..> = TYPE;`."""
    line: int
    docs: list
    visibility: str
    name: str
    type: object
    parameters: list


@dataclass
class Module:
    """`mod NAME { .. }`."""
    line: int
    docs: list
    attributes: list
    visibility: str
    name: str
    file: object


@dataclass
class File:
    """The items of a file or of a module in it, and notes on what is passed by, each with its line."""
    docs: list = field(default_factory=list)
    uses: list = field(default_factory=list)
    items: list = field(default_factory=list)
    notes: list = field(default_factory=list)
