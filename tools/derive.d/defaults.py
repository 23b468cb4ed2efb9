"""What a field that is skipped is given in reading."""
import derives
import syntax
from rattle import Foreign, Listed, Own, Variable, is_listed, parts_of, type_text
from refusal import Refusal

ALLOC = "reader.alloc()"
# Those that are made empty, whatever they hold.
EMPTY = ("String", "Vec", "BTreeMap", "BTreeSet", "SmallVec")
# Those of any hasher, which is a parameter or the default one: with so many arguments they name it.
HASHED = {"HashMap": 3, "HashSet": 2, "IndexMap": 3, "IndexSet": 2}
# Where names are that the expressions call.
MAKERS = {"String": "std::string", "Vec": "std::vec"}


def default(kind, scope, line):
    """The expression of a type's default, and the parameters that need one of their own."""
    found = Default(scope)
    made = found.made(kind)
    if made is None:
        name = getattr(kind, "name", "this type")
        raise Refusal(line, f"Rattle has no default of `{name}`, which a field with `skip` is given in reading: leave "
                            "the field out, or hold it in an `Option`")
    return made, tuple(found.parameters)


def parameters_of_default(kind):
    """The parameters that a default of this type asks for one."""
    if isinstance(kind, Variable):
        return [kind.name]
    if is_listed(kind, *derives.FREE_OF_ARGUMENTS["Default"]):
        return []
    if isinstance(kind, (Listed, Own, Foreign)):
        return [name for it in kind.arguments for name in parameters_of_default(it)]
    if isinstance(kind, (syntax.Tuple, syntax.Array)):
        return [name for it in parts_of(kind) for name in parameters_of_default(it)]
    return []


def clause(kind, scope):
    """What holds of each default of a type, as a clause has it: a function of the value."""
    if derives.prevents("Default", kind, scope.derives.kept) is None:
        return f"⟦<{type_text(kind)} as {scope.prelude('Default')}>⟧.is_default"
    if is_listed(kind, *EMPTY, *HASHED):
        made = f"{scope.need('std::default', 'MadeWith')}<{scope.need('std::alloc', 'Global')}>"
        return f"⟦<{type_text(kind)} as {made}>⟧.is_made_with"
    if is_listed(kind, "BoxedStr", "BoxedSlice", "CowStr", "CowSlice"):
        scope.ghosts |= {"◌≡◌", "[]"}
        return f"(λ it. ⟦<{type_text(kind)} as {scope.need('speedy', 'Layout')}>⟧.seen it ≡ [])"
    if is_listed(kind, "Range"):
        inner = clause(kind.arguments[0], scope)
        return f"(λ it. {inner} it.start × {inner} it.end)"
    if isinstance(kind, syntax.Tuple):
        inner = " × ".join(f"{clause(it, scope)} it.{place}" for place, it in enumerate(kind.parts))
        return f"(λ it. {inner})"
    if isinstance(kind, syntax.Array):
        scope.ghosts.add("All")
        return f"(All {clause(kind.item, scope)})"
    return "(λ _. ⊤)"


class Default:
    """Makes the expression of a default."""

    def __init__(self, scope):
        self.scope = scope
        self.parameters = []

    def made(self, kind):
        """The expression, or None where there is none."""
        if derives.prevents("Default", kind, self.scope.derives.kept) is None:
            self.parameters += parameters_of_default(kind)
            return f"{self.scope.prelude('Default')}::default()"
        if isinstance(kind, Listed):
            return self.listed(kind)
        if isinstance(kind, syntax.Tuple):
            inner = [self.made(it) for it in kind.parts]
            return None if None in inner else f"({', '.join(inner)}{',' if len(inner) == 1 else ''})"
        if isinstance(kind, syntax.Array) and kind.length.isdigit() and int(kind.length) <= 32:
            inner = self.made(kind.item)
            return None if inner is None else f"[{', '.join([inner] * int(kind.length))}]"
        return None

    def listed(self, kind):
        """That of a type of the kit, which asks for an allocator."""
        name, local = kind.name, kind.local
        types = [it for it in kind.arguments if not isinstance(it, syntax.Lifetime)]
        if name in EMPTY:
            if name == "SmallVec" and derives.prevents_empty(kind, self.scope.derives.kept):
                return None
            return f"{local}::new({ALLOC})"
        if name in HASHED:
            if len(types) < HASHED[name]:
                return f"{local}::new({ALLOC})"
            self.parameters += parameters_of_default(types[-1])
            return f"{local}::with_hasher({ALLOC}, {types[-1].name}::default())"
        if name in ("BoxedStr", "BoxedSlice"):
            maker, boxed = ("String", "str") if name == "BoxedStr" else ("Vec", "slice")
            return f"{self.scope.prelude(maker)}::new({ALLOC}).into_boxed_{boxed}()"
        if name in ("CowStr", "CowSlice"):
            return f'{local}::Borrowed({{}})'.format('""' if name == "CowStr" else "&[]")
        return self.holder(name, local, types)

    def holder(self, name, local, types):
        """That of a type that holds one value."""
        if name not in ("Box", "Cow", "Range"):
            return None
        inner = self.made(types[-1])
        if inner is None:
            return None
        if name == "Cow":
            return f"{local}::Owned({inner})"
        if name == "Range":
            return f"{local} {{ start: {inner}, end: {inner} }}"
        ok, err = self.scope.variant("Ok"), self.scope.variant("Err")
        refused = self.scope.need("speedy::private", "error_out_of_memory")
        return f"match {local}::new({ALLOC}, {inner}) {{ {ok}(made) => made, {err}(_) => return {err}({refused}()), }}"
