"""What types ask of the parameters in them and of what else stands there, and the bounds that a declaration needs."""
import derives
import keys
import syntax
from defaults import parameters_of_default
from known import HASHED, ITEM, KNOWN, MADE, ORDERED, PART
from rattle import Foreign, Listed, Own, Variable, is_listed, names_in, type_text
from refusal import Refusal

# What is asked of a parameter in a field that is skipped: to be let go, and a default.
HELD, DEFAULTED = "held", "defaulted"
# What is asked of a parameter where it is declared: to be ordered or hashed, or to have a value of its own that is made
# with an allocator or without one.
SORTED, TABLED, EMPTIED, PRESET = "sorted", "tabled", "emptied", "preset"
# The traits that a type needs that is no parameter, and the place that it stands in.
TRAITS = {ORDERED: ("Ord",), SORTED: ("Ord",), HASHED: ("Eq", "Hash"), TABLED: ("Eq", "Hash"), PRESET: ("Default",),
          DEFAULTED: ("Default",)}
PLACES = dict.fromkeys((ORDERED, SORTED, HASHED, TABLED), "is no key of a map and no item of a set") \
    | dict.fromkeys((PRESET, DEFAULTED), "stands where a type with a default has to")
DECLARED = {ORDERED: SORTED, HASHED: TABLED, MADE: EMPTIED}


def places(kind, scope, roles=(PART,)):
    """Each type in a type, with what it has to be there: pairs of a type and a role."""
    found = [(kind, role) for role in roles]
    for inner, asked in inner_places(kind, scope, roles):
        found += places(inner, scope, asked)
    return found


def inner_places(kind, scope, roles):
    """The types that a type is made of, each with its roles."""
    if isinstance(kind, syntax.Tuple):
        return [(part, roles_of_part(roles)) for part in kind.parts]
    if isinstance(kind, (syntax.Array, syntax.Slice)):
        return [(kind.item, (ITEM,) + keys_of(roles))]
    if isinstance(kind, syntax.Reference):
        return [] if is_listed(kind.target, "str") else [(kind.target, roles_of_part(roles))]
    if not isinstance(kind, (Listed, Own, Foreign)):
        return []
    inner = scope.asked.get(kind.name, ()) if isinstance(kind, Own) else arguments_of(kind.name)
    lifetimes = tuple(it.name for it in kind.arguments if isinstance(it, syntax.Lifetime)) \
        if is_listed(kind, "CowSlice") else ()
    types = [it for it in kind.arguments if not isinstance(it, (syntax.Lifetime, str))]
    return [(argument, tuple(inner[place] if place < len(inner) else (PART,)) + keys_of(roles) + lifetimes)
            for place, argument in enumerate(types)]


def roles_of_part(roles):
    """What is asked of the parts of a tuple, and of what is lent. What has a value of its own is looked at as a
    whole."""
    return tuple(role for role in roles if role not in (MADE, EMPTIED, PRESET, DEFAULTED))


def keys_of(roles):
    """What is asked of the parts of a key, too."""
    return tuple(role for role in roles if role in (ORDERED, HASHED, SORTED, TABLED))


def arguments_of(name):
    """What a listed type asks of its arguments."""
    if name in ("CowSlice", "BoxedSlice", "EncodedList"):
        return ((ITEM,),)
    return next((known.arguments for known in KNOWN.values() if known.name == name), ())


def asks(kind, scope):
    """What a type asks of each parameter in it: pairs of a name and what it has to be."""
    found = []
    for it, role in places(kind, scope):
        if isinstance(it, Variable):
            found.append((it.name, role))
        elif role == DEFAULTED:
            found += [(name, role) for name in parameters_of_default(it)]
    return found


# What a declaration asks.

def of_declaration(kinds, scope):
    """What the types of fields ask of parameters where these are declared: pairs of a name and a role."""
    found = []
    for it, role in [place for kind in kinds for place in places(kind, scope)]:
        role = DECLARED.get(role, role)
        if role not in (*DECLARED.values(), PRESET):
            continue
        if isinstance(it, Variable):
            found.append((it.name, role))
        elif role == PRESET or (role == EMPTIED and not is_listed(it, "SmallVec", *derives.EMPTY)):
            found += [(name, PRESET) for name in parameters_of_default(it)]
    return list(dict.fromkeys(found))


def bounds_of(role, scope):
    """The bounds that a role asks for in a declaration, each with those that have it too."""
    default = scope.prelude("Default")
    if role == SORTED:
        return {scope.prelude("Ord"): ()}
    if role == TABLED:
        return {scope.prelude("Eq"): (scope.prelude("Ord"),), scope.need("std::hash", "Hash"): ()}
    if role == PRESET:
        return {default: ()}
    made = f"{scope.need('std::default', 'MadeWith')}<{scope.need('std::alloc', 'Global')}>"
    return {made: (default,)}


def of_impls(item, scope, parts, skipped):
    """What is asked of each parameter, by its name. `skipped` has the types of fields that are skipped, each with the
    parameters that need a default."""
    found = {it.name: [] for it in item.parameters if it.kind == "type"}
    asked = [it for part in parts for it in asks(part.type, scope)]
    for kind, defaulted in skipped:
        asked += [(name, HELD) for name in names_in(kind)] + [(name, DEFAULTED) for name in defaulted]
    asked += of_declaration([kind for kind, _ in skipped] + [part.type for part in parts], scope)
    for name, role in asked:
        if name in found and role not in found[name]:
            found[name].append(role)
    unused = [name for name, roles in found.items() if not roles]
    if unused:
        raise Refusal(item.line, f"the parameter `{unused[0]}` stands in no part: leave it out")
    scope.asked[item.name] = tuple(tuple(found[it.name]) for it in item.parameters if it.kind == "type")
    return found


def of_plain(item, scope):
    """Keeps what a type without impls asks of its parameters."""
    scope.asked[item.name] = tuple((HELD, *(role for name, role in item.asked if name == it.name))
                                   for it in item.parameters if it.kind == "type")


# What is asked of types that are no parameters.

def check(kind, scope, field, readable):
    """Refuses a type in a place where it is not what it has to be there. One of another module is taken to be that."""
    for it, role in places(kind, scope):
        if isinstance(it, Own) and it.name not in scope.asked:
            check_later(it, field)
        if isinstance(it, Variable):
            continue
        if role in (ORDERED, HASHED) and not field.options.skip:
            keys.check(it, scope, field.line)
        for trait in TRAITS.get(role, ()):
            lacking = derives.prevents(trait, it, scope.derives.kept)
            if lacking:
                raise Refusal(field.line, f"`{type_text(it)}` {PLACES[role]}, and in Rattle `{lacking}` has no "
                                          f"`{trait}`")
        if role in (MADE, EMPTIED) and (readable or role == EMPTIED) \
                and derives.prevents_empty(it, scope.derives.kept):
            raise Refusal(field.line, f"the room of a `SmallVec` is filled with defaults, and `{type_text(it)}` has "
                                      "none in Rattle: take a `Vec`")


def check_later(kind, field):
    """Refuses a type in a field that is skipped, where it holds what has the field and what it asks is told later."""
    if any(not isinstance(it, (syntax.Lifetime, str)) for it in kind.arguments):
        raise Refusal(field.line, f"`{kind.name}` holds in turn what has this field: leave the field out, or declare "
                                  f"`{kind.name}` by hand in a `.rt` file")
