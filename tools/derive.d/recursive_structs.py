"""Structs with `depth`, whose values hold values of their own type."""
from dataclasses import replace

from names import Fresh
from parts import accesses_of_struct
from rattle import Let, clause_lines, type_text
from recursion import LAYERS, Fields, LevelShape
from recursive_answers import answers
from sizes import least


class RecursiveStructShape(LevelShape):
    """What the impls of a struct with `depth` are made of."""

    def __init__(self, item, scope, place):
        super().__init__(item, scope, place)
        accesses = [of_value(it) for it in accesses_of_struct(item.fields, scope)]
        self.fields = Fields(self.holding, item.name, item.fields, accesses)
        self.shaped([self.fields], scope)
        self.read_shape = self.lent_shape = ""
        # What has the same least size: the type of the parts, where what holds the type holds nothing.
        self.tuple_type = self.fields.least()
        self.parts_type = type_text(self.tuple_type)
        scope.least[item.name] = least(self.tuple_type, scope)
        scope.layered.add(item.name)

    def shapes(self):
        """Names what values are read and written as."""
        name = self.item.name
        self.holding.used.add("layer_of")
        self.scope.ghost_paths.add(f"{LAYERS}.layer_of")
        self.read_shape = self.alias(f"{name}Parts", f"How a [`{name}`] holds others.", self.fields.read_shape(), ())
        if self.item.writable:
            self.lent_shape = self.lent_alias(f"{name}Lent", self.fields.lent_shape())

    def recursive_lines(self):
        """The clause that a value has the layer of its parts."""
        out, layer = f"out-{self.item.name}", f"{self.quoted_shape(self.read_shape)}.layer"
        head = f"ghost layer = {{ layer_of {layer} (λ value. let it = {out} value in "
        return [self.declared(self.item.name, out), "", *clause_lines(4, head, self.fields.seen(), ") };")]

    def read_body(self):
        """What reads a value."""
        names = Fresh(it.bound for it in self.fields.accesses)
        pattern, made = self.fields.read(names, (self.item.name, self.item.shape))
        return self.read_match(self.read_below(self.read_shape), pattern, made)

    def write_body(self):
        """What writes a value."""
        return f"{Let('parts', self.fields.written())} {self.write_below(self.lent_shape, '&parts')}"

    def answers(self):
        """The proofs that a search does not find."""
        return answers(self)


def of_value(access):
    """How a field is named where the struct is `value`."""
    return replace(access, reference=access.reference.replace("self.", "value.", 1),
                   value=access.value.replace("self.", "value.", 1))
