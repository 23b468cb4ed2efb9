"""The parameters of a type, and what its impls ask of them."""
import asked
import rattle
import syntax
from asked import DEFAULTED, HELD
from known import HASHED, HASHER, ITEM, ORDERED, PART
from names import Fresh
from rattle import names_in, type_text
from refusal import Refusal


class Generics:
    """What a type is generic in."""

    def __init__(self, item, scope, kinds, reads_lent=False):
        self.item = item
        self.scope = scope
        self.parameters = item.parameters
        self.lifetimes = [it.name for it in item.parameters if it.kind == "lifetime"]
        if len(self.lifetimes) > 1 and item.readable:
            raise Refusal(item.line, f"`{item.name}` has {len(self.lifetimes)} lifetimes, and is read from one input: "
                                     "name one")
        self.bounds = {it.name: [scope.bound(bound) for bound in it.bounds] for it in item.parameters}
        self.wheres = [(self.subject(it), [scope.bound(bound) for bound in it.bounds]) for it in item.wheres]
        # The bounds that Rattle asks for and the source has not, by parameters.
        self.added = {}
        for name, role in item.asked:
            self.add(name, role)
        fresh = Fresh(scope.fresh.taken)
        fresh.take(*set().union(*(names_in(it) for it in kinds)))
        self.lent, self.context, self.reader, self.writer = (fresh.name(it) for it in "LCRW")
        # The lifetime of what a reader lends, or None where that may be anything.
        self.lending = self.lifetimes[0] if self.lifetimes else "'a" if reads_lent else None

    def add(self, name, role):
        """Adds the bounds of a role to a parameter, where the declaration has them not."""
        have = set(self.bounds[name]).union(*(bounds for subject, bounds in self.wheres if subject == name))
        more = [bound for bound, others in asked.bounds_of(role, self.scope).items() if not have & {bound, *others}]
        if more:
            self.bounds[name] += more
            self.added.setdefault(name, []).extend(more)

    def is_copied(self, kind):
        """Whether a type is a parameter that is `Copy`."""
        name = type_text(kind)
        bounds = [*self.bounds.get(name, ()), *(it for subject, its in self.wheres if subject == name for it in its)]
        return name in self.bounds and any(it.rpartition("::")[2] == "Copy" for it in bounds)

    def subject(self, where):
        """What a line of a `where` is about."""
        if isinstance(where.subject, syntax.Lifetime):
            return where.subject.name
        return type_text(self.scope.convert(where.subject, self.item.parameters, True))

    # Lists of parameters and arguments.

    def constant(self, parameter):
        """A parameter that is a number."""
        return f"const {parameter.name}: {type_text(self.scope.convert(parameter.constant_type))}"

    def declared(self):
        """The parameters as the type declares them."""
        found = []
        for it in self.parameters:
            if it.kind == "const":
                found.append(self.constant(it))
                continue
            bound = f": {' + '.join(self.bounds[it.name])}" if self.bounds[it.name] else ""
            default = f" = {type_text(self.scope.convert(it.default, self.parameters))}" if it.default else ""
            found.append(it.name + bound + default)
        return rattle.listed(found)

    def arguments(self, names=None):
        """`<'a, T, N>`, or nothing; those of an alias that names some alone."""
        return rattle.listed([it.name for it in self.parameters if names is None or it.name in names])

    def of_alias(self, names):
        """The parameters of an alias that names these alone."""
        return rattle.listed([self.constant(it) if it.kind == "const" else it.name
                              for it in self.parameters if it.name in names])

    def of_impl(self, asked, base, front=()):
        """The parameters of an impl: `base` says what each role asks, `front` stands behind the lifetimes."""
        found = [self.with_bounds(it.name, []) for it in self.parameters if it.kind == "lifetime"] + list(front)
        for it in self.parameters:
            if it.kind == "const":
                found.append(self.constant(it))
            elif it.kind == "type":
                found.append(self.with_bounds(it.name, self.bounds_of(asked.get(it.name, ()), base)))
        return found

    def of_keys(self, bounds):
        """The parameters of an impl that compares: with these bounds alone, and those of the declaration."""
        found = [self.with_bounds(it.name, []) for it in self.parameters if it.kind == "lifetime"]
        for it in self.parameters:
            if it.kind == "const":
                found.append(self.constant(it))
            elif it.kind == "type":
                found.append(self.with_bounds(it.name, bounds[it.name]))
        return found

    def with_bounds(self, name, more):
        """A parameter with the bounds of its declaration and others."""
        bounds, key = list(more), self.scope.locals.get(("speedy", "SameKey"))
        for bound in self.bounds[name]:
            if bound not in bounds and not (bound in ("Eq", "PartialEq") and key in bounds):
                bounds.append(bound)
        return f"{name}: {' + '.join(bounds)}" if bounds else name

    # The trait impls' own.

    def lender(self):
        """What a reader lends."""
        return f"&{self.lending} [u8]" if self.lending else self.lent

    def reading(self):
        """What bounds ask of parameters in reading: of a part, of an item, and whether a lifetime is asked for."""
        lent = self.lender()
        return {PART: ("ReadFrom", f"<{lent}, {self.context}>"), ITEM: ("ReadMany", f"<{lent}, {self.context}>"),
                HASHER: ("BuildHasher", "Default", "Drop"), DEFAULTED: "Default", HELD: "Drop", "outlives": True}

    def writing(self):
        """What bounds ask of parameters in writing."""
        writable = ("Writable", f"<{self.context}>")
        return {PART: writable, ITEM: writable, HASHER: ("BuildHasher",)}

    @staticmethod
    def laying_out():
        """What bounds ask of parameters in the layout."""
        return {PART: ("Layout", ""), ITEM: ("Layout", ""), HASHER: ("BuildHasher",)}

    def bounds_of(self, roles, base):
        """The bounds of a parameter that has these roles."""
        need, prelude = self.scope.need, self.scope.prelude
        keys = [name for role, name in ((ORDERED, "Ord"), (HASHED, "Hash")) if role in roles]
        found = []
        if ITEM in roles or PART in roles:
            trait, arguments = base[ITEM if ITEM in roles else PART]
            if not (keys and trait == "Layout"):
                found.append(need("speedy", trait) + arguments)
        if keys:
            found.append(need("speedy", "SameKey"))
            found += [need("std::hash", it) if it == "Hash" else prelude(it) for it in keys]
        if HASHER in roles:
            found += [need("std::hash", it) if it == "BuildHasher" else prelude(it) for it in base[HASHER]]
        if DEFAULTED in roles and base.get(DEFAULTED) and prelude("Default") not in found:
            found.append(prelude("Default"))
        if HELD in roles and base.get(HELD) and not (ITEM in roles or PART in roles or HASHER in roles):
            found.append(prelude("Drop"))
        if base.get("outlives"):
            found.extend(sorted(role for role in roles if role.startswith("'")))
        return found

    def wheres_text(self):
        """The `where`, for the declaration and each impl, or nothing."""
        lines = ", ".join(f"{subject}: {' + '.join(bounds)}" for subject, bounds in self.wheres)
        return f" where {lines}" if lines else ""
