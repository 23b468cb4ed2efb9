"""How long the compiler searches for the impls by which a type is read: at a limit it ends with `overflowing-bound`.
What a type is made of is searched for twice, so the time doubles where types nest, and grows fivefold in a list. The
weights were measured, in the time of a number, and are rounded up."""
import rattle
import syntax
from lengths import depth_of
from parts import is_nested, is_taken_apart, moves_array
from rattle import Foreign, Listed, Own, is_listed
from refusal import Refusal
from sizes import SIGNED, is_copied

# Nested options, tuples and numbers are found up to 735, and not from 757 on. Where the fields tell the types of the
# parts, one thing alone is asked of all parts together, which is found up to 1,593, and not from 1,630 on.
LIMIT = 735
LIMIT_TOLD = 1470
# What may be missing at the end was found up to 876, and not from 1,375 on.
LIMIT_ENDS = 900
NUMBER = 1.07
# A number that is checked is read by way of another; these are found by way of their parts.
SLOWER = {"bool": 1.52, "char": 1.52, "usize": 1.52, "Ipv4Addr": 1.52, "Endianness": 1.52, "Magic": 1.52,
          "Duration": 6.6}
MAPS = ("BTreeMap", "HashMap", "IndexMap")
LISTS = ("Vec", "BoxedSlice", "SmallVec", "CowSlice", "BTreeSet", "HashSet", "IndexSet")


def check(item, taken, is_variant=False):
    """Refuses parts for which the compiler would search too long. Those of a short tuple whose types the fields tell
    are searched for one by one, in its pattern."""
    if not taken.is_told():
        check_each(item, [taken.type()])
        return
    if is_taken_apart(taken, is_variant):
        check_each(item, [taken.type()], LIMIT_TOLD)
    if not (is_nested(taken.tree) or moves_array(taken)):
        check_each(item, [part.type for part in taken.parts])


def check_each(item, kinds, limit=LIMIT):
    """Refuses types for one of which the compiler would search too long."""
    refuse_past(item, max(map(weight, kinds), default=0), limit)


def check_ends(item, last):
    """Refuses parts at the end that may be missing, of which each is searched for twice with all those behind it, in
    writing. What is not copied is written by way of a part, in which little more is searched for the deeper it is."""
    found = 0
    for kind in reversed(last):
        is_bare = is_copied(kind) and not is_listed(kind, *SIGNED)
        found = NUMBER + 2 * (NUMBER * (1 if is_bare else 1 + depth_of(kind)) + found)
    refuse_past(item, found, LIMIT_ENDS)


def refuse_past(item, found, limit):
    """Refuses what takes the compiler longer than a limit."""
    if found > limit:
        raise Refusal(item.line, f"the types within the parts of `{item.name}` are so many, or nest so deep, that "
                                 "Rattle's compiler gives up its search for their impls: put the deepest of them, or "
                                 "some of the fields, into a struct of its own")


def weight(kind):
    """How long the impl is searched for by which a type is read."""
    if isinstance(kind, syntax.Tuple):
        return NUMBER + 2 * sum(weight(part) for part in kind.parts)
    if isinstance(kind, syntax.Array):
        return of_list(kind.item)
    if isinstance(kind, (Own, Foreign)):
        return NUMBER + sum(of_list(it) for it in rattle.parts_of(kind) if not isinstance(it, (syntax.Lifetime, str)))
    return of_listed(kind) if isinstance(kind, Listed) else NUMBER


def of_listed(kind):
    """That of a type of the kit or of the library."""
    inner = [it for it in kind.arguments if not isinstance(it, (syntax.Lifetime, str))]
    if kind.name in SLOWER:
        return SLOWER[kind.name]
    if kind.name in LISTS:
        return of_list(inner[0])
    if kind.name in MAPS:
        return 2.2 + 2.5 * weight(inner[0]) + 2.1 * weight(inner[1])
    if kind.name == "Prefixed":
        return 1 + weight(inner[1])
    if kind.name in ("WithLength", "WithFrame"):
        return 1.5 + of_holder(inner[1]) + weight(inner[2])
    return NUMBER + 2 * sum(weight(it) for it in inner)


def of_list(item):
    """That of a list of items."""
    is_list = isinstance(item, syntax.Array) or is_listed(item, *LISTS)
    return 2 + (4.9 if is_list else 5.7) * weight(item)


def of_holder(kind):
    """That of parts which hold the numbers that tell a length."""
    if isinstance(kind, syntax.Tuple):
        return 0.8 + sum(of_holder(part) for part in kind.parts)
    if is_listed(kind, "Other"):
        return 1.8 + 2.2 * weight(kind.arguments[0])
    return weight(kind)
