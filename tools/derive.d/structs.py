"""The impls of a struct: it has the layout of the tuple of its parts, is read as that and written as it."""
import holders
import impl_search
import in_place
import keys
import whole
from answers import answers_of_struct
from impls import Shape
from parts import (PartMaker, accesses_of_struct, built, outline, read_arm, seen_of_parts, write_statements, written)
from rattle import Block, Call, Match, clause_lines, type_text
from recursive_structs import RecursiveStructShape
from sizes import is_copied, is_layered, least

# So many numbers are read where they are called for.
FEW = 8


class StructShape(Shape):
    """What the impls of a struct are made of."""

    def __init__(self, item, scope):
        accesses = accesses_of_struct(item.fields, scope)
        self.taken = PartMaker(item, scope, item.name).taken(item.fields, accesses)
        super().__init__(item, scope, [self.taken])
        if item.readable:
            impl_search.check(item, self.taken)
        kind = self.tuple_type = self.taken.type()
        scope.least[item.name] = least(kind, scope)
        if is_layered(kind, scope):
            scope.layered.add(item.name)
        # A single part of a short type needs no other name.
        if isinstance(self.taken.tree, list) or len(type_text(kind)) > 24:
            self.parts_type = self.alias(f"{item.name}Parts", f"What [`{item.name}`] is read and written as.", kind,
                                         self.names())
        else:
            self.parts_type = type_text(kind)
        if item.name in scope.telling:
            scope.holding[item.name] = holders.Holding(outline(self.taken), scope.telling[item.name], scope)

    def lines(self):
        """The impls."""
        found = self.layout(self.seen()) + keys.add_struct(self, self.taken)
        if self.item.readable:
            # LLVM leaves it out of line where several loops call it, which costs a list ten times as long.
            hints = ["    #[inline(always)]"] if self.is_few_numbers() else []
            found += self.read_from(self.read_body(), hints)
        if self.item.writable:
            body = Block(write_statements(self.taken), f"writer.write_value({written(self.taken, self.scope)})")
            found += self.writing("speedy", "Writable", self.writer("write_to", " ".join(map(str, body.statements))
                                                                    + " " + str(body.value)))
        if self.item.name in self.scope.holding:
            found += holders.impls(self, self.scope.holding[self.item.name])
        return found + in_place.impls(self, self.parts_type)

    def is_few_numbers(self):
        """Whether the parts are numbers, flags and characters alone, and few."""
        return 0 < len(self.kinds) <= FEW and all(map(is_copied, self.kinds))

    def seen(self):
        """What is seen of a struct: what is of its parts."""
        if not self.taken.parts:
            return ["    ghost seen = { λ _. tt };"]
        before, tree = seen_of_parts(self.taken, self.parts_type, self.scope)
        return clause_lines(4, f"ghost seen = {{ λ it. {before}", tree, " };")

    def read_body(self):
        """The tuple of parts, taken apart. An error is passed on by a `match`, since with `?` the search for proofs
        meets its step limit in a struct that holds others."""
        ok, err = self.scope.variant("Ok"), self.scope.variant("Err")
        read = "reader.read_value()" if self.taken.is_told() else f"reader.read_value::<{self.parts_type}>()"
        pattern, value = read_arm(self.taken, lambda: Call(ok, (built(self.item.name, self.item.shape, self.taken),)))
        return str(Match(read, ((Call(ok, (pattern,)), value), (f"{err}(error)", f"{err}(error)"))))


def struct_lines(item, scope, place):
    """The impls of a struct. `place` is the path of the module that holds it."""
    if item.depth:
        return RecursiveStructShape(item, scope, place).lines()
    if whole.ends_with_input(item):
        shape = whole.WholeShape(item, scope)
        found = answers_of_struct(shape, shape.first, place)
    else:
        shape = StructShape(item, scope)
        found = answers_of_struct(shape, shape.taken, place)
    scope.answers.update(found)
    return shape.lines()
