"""Which arrays get no proof as parts: the kit's borrow checker does not cover some yet, and of some it is not known
that they have a size."""
import syntax
from derives import OWNING
from rattle import Foreign, Own, Variable, is_listed, names_in, parts_of, type_text
from refusal import Refusal

# What holds the values of its arguments where it lies itself.
INLINE = ("Option", "Result", "Range", "RangeInclusive")


def check(item, scope, field, kind):
    """Refuses a field with such an array. Keeps which types of the file hold one whose type names a lifetime, or whose
    size a parameter says, and which own memory."""
    holds_lent = has_lent_array(kind, scope)
    if holds_lent:
        scope.with_lent_arrays.add(item.name)
    if is_open(kind, scope, item):
        scope.with_open_arrays.add(item.name)
    scope.owning[item.name] = scope.owning.get(item.name, False) or owns_memory(kind, scope)
    reason, advice = fault(item, scope, field, kind, holds_lent)
    if reason:
        raise Refusal(field.line, f"`{type_text(kind)}` {reason}, which finds no proof: {advice}")


IN_A_BOX = "hold it in a `Box`, which has the same bytes"
IN_A_TUPLE = "hold it in a tuple of one part, which has the same bytes"


def fault(item, scope, field, kind, holds_lent):
    """What is wrong with the arrays in a type, and what to write instead; or nothing."""
    if isinstance(item, syntax.Enum) and holds_lent:
        return "holds an array that borrows, and stands in a variant", IN_A_BOX
    if not field.options.skip and has_far_array(kind, scope, item):
        return ("holds an array elsewhere in memory whose size a parameter says",
                "write a number for that parameter, or hold the array where the type itself lies")
    if not isinstance(kind, syntax.Array):
        return None, None
    if kind.item == syntax.Tuple(kind.item.line, ()):
        return "is an array of what has no bytes", "leave the field out"
    owns = owns_memory(kind.item, scope)
    if owns and has_lifetime(kind):
        return "is an array of what both owns memory and borrows", IN_A_BOX
    if any(it.kind == "lifetime" for it in item.parameters):
        if {it.name for it in item.parameters if it.kind == "type"} & names_in(kind.item):
            return "is an array of a parameter beside what borrows", IN_A_TUPLE
        if owns and any(it.name == kind.length for it in item.parameters):
            return "is an array of what owns memory, as long as a parameter says, beside what borrows", IN_A_TUPLE
    return None, None


def has_far_array(kind, scope, item):
    """Whether a type has an array behind a pointer whose size a parameter of an item says."""
    inner = [it for it in parts_of(kind) if not isinstance(it, (syntax.Lifetime, str))]
    if isinstance(kind, (syntax.Tuple, syntax.Array, Own)) or is_listed(kind, "SmallVec", *INLINE):
        return any(has_far_array(it, scope, item) for it in inner)
    return any(is_open(it, scope, item) for it in inner)


def has_lifetime(kind):
    """Whether a type names a lifetime."""
    return any(name.startswith("'") for name in names_in(kind))


def has_lent_array(kind, scope):
    """Whether a value of a type has an array in it whose type names a lifetime."""
    if isinstance(kind, syntax.Array):
        return has_lifetime(kind)
    if isinstance(kind, Own) and kind.name in scope.with_lent_arrays:
        return True
    if isinstance(kind, (syntax.Tuple, Own)) or is_listed(kind, *INLINE):
        return any(has_lent_array(it, scope) for it in parts_of(kind) if not isinstance(it, (syntax.Lifetime, str)))
    return False


def is_open(kind, scope, item):
    """Whether a type has an array in it whose size a parameter of an item says, by its length or its items."""
    is_array = isinstance(kind, syntax.Array) or isinstance(kind, Own) and kind.name in scope.with_open_arrays
    if is_array and {it.name for it in item.parameters if it.kind != "lifetime"} & names_in(kind):
        return True
    return any(is_open(it, scope, item) for it in parts_of(kind) if not isinstance(it, (syntax.Lifetime, str)))


def owns_memory(kind, scope):
    """Whether values of a type own memory, as far as that is known here."""
    if isinstance(kind, (Variable, Foreign)):
        return True
    if isinstance(kind, syntax.Reference):
        return False
    if is_listed(kind, "Cow", *OWNING) or (isinstance(kind, Own) and scope.owning.get(kind.name, True)):
        return True
    return any(owns_memory(it, scope) for it in parts_of(kind) if not isinstance(it, (syntax.Lifetime, str)))
