"""What the impls of structs and enums have in common: their heads, and `impl Layout`."""
import syntax
from asked import of_impls
from generics import Generics
from rattle import function, impl, names_in, type_text
from sizes import least

# How the kit writes the arguments of traits that have some, each of which may be any type.
ARGUMENTS = {"ReadFrom": "AnyAny", "ReadCases": "AnyAny", "Writable": "Any", "WriteCases": "Any", "WriteToEnd": "Any"}


class Shape:
    """What the impls of a type are made of: `takens` are its fields, those of each variant or of the struct."""
    ends_with_input = False

    def __init__(self, item, scope, takens):
        self.item = item
        self.scope = scope
        parts = [part for taken in takens for part in taken.parts]
        skipped = [it for taken in takens for it in taken.skipped]
        self.kinds = [part.type for part in parts]
        names = set().union(*(names_in(kind) for kind in self.kinds))
        reads_lent = item.readable and bool(names & scope.reads_lent)
        if reads_lent:
            scope.reads_lent.add(item.name)
        self.generics = Generics(item, scope, self.kinds + [kind for kind, _ in skipped], reads_lent)
        self.asked = of_impls(item, scope, parts, skipped)
        self.self_type = item.name + self.generics.arguments()
        # What the parts are read and written as, by its name.
        self.parts_type = ""
        self.tuple_type = None

    def names(self):
        """The names that the parts name."""
        return set().union(*(names_in(kind) for kind in self.kinds))

    def quoted(self, kind, trait="Layout", module="speedy"):
        """What an impl says of a type, as a clause quotes it."""
        return f"⟦<{kind} as {self.scope.need(module, trait)}>⟧"

    def alias(self, wanted, about, kind, names, visibility=""):
        """An alias of a type, beside the type that is made now: what it is applied to here."""
        name = self.scope.fresh.name(wanted)
        head = f"{visibility}type {name}{self.generics.of_alias(names)}"
        self.scope.beside += [f"/// {about}", f"{head} = {type_text(kind)};", ""]
        return name + self.generics.arguments(names)

    def impl_name(self, module, trait, behind="", of="", types=0):
        """What the kit calls an impl of a trait, for the type or for another: by the name that the trait is imported
        under. Where a type or an alias of the module is called so, the arguments of the trait stand behind it, or those
        of the type within it, if that has so many which are types."""
        item, local = of or self.item.name, self.scope.need(module, trait)
        name = f"{item}{local}{behind}"
        if self.scope.fresh.is_free(name):
            return name
        return f"{item}{'Any' * types}{local}{behind}" if types else name + ARGUMENTS.get(trait, "Impl")

    def derived_impl_name(self, trait):
        """What the kit calls an impl that it derives for the type."""
        name = f"{self.item.name}{trait}"
        return name if self.scope.fresh.is_free(name) else f"{name}Impl"

    # Heads.

    def laying_out(self, trait, body):
        """An impl of a trait that says a layout."""
        generics = self.generics
        return impl(generics.of_impl(self.asked, generics.laying_out()), trait, self.self_type,
                    generics.wheres_text(), body)

    def layout(self, seen):
        """`impl Layout`, of the layout of the parts."""
        quoted = self.quoted(self.parts_type)
        return self.laying_out(self.scope.need("speedy", "Layout"),
                               [f"    ghost Seen = {{ {quoted}.Seen }};", "", *seen, "",
                                f"    ghost layout = {{ {quoted}.layout }};"])

    def lent(self):
        """What a reader lends."""
        return self.generics.lender()

    def reading_parameters(self):
        """The parameters of an impl that reads."""
        generics, scope = self.generics, self.scope
        front = [f"{generics.context}: {scope.need('speedy', 'Context')}"]
        if generics.lending and not generics.lifetimes:
            front.insert(0, generics.lending)
        elif not generics.lifetimes:
            bound = f"{scope.need('std::convert', 'AsSlice')}<u8> + {scope.prelude('Drop')}"
            front.insert(0, f"{generics.lent}: {bound}")
        return generics.of_impl(self.asked, generics.reading(), front)

    def reading(self, module, trait, body):
        """An impl of a trait that reads."""
        trait = f"{self.scope.need(module, trait)}<{self.lent()}, {self.generics.context}>"
        return impl(self.reading_parameters(), trait, self.self_type, self.generics.wheres_text(), body)

    def writing(self, module, trait, body):
        """An impl of a trait that writes."""
        generics, scope = self.generics, self.scope
        front = [f"{generics.context}: {scope.need('speedy', 'Context')}"]
        return impl(generics.of_impl(self.asked, generics.writing(), front),
                    f"{scope.need(module, trait)}<{generics.context}>", self.self_type, generics.wheres_text(), body)

    # Functions.

    def result(self, value):
        """A result whose error is that of the context."""
        return f"{self.scope.prelude('Result')}<{value}, {self.generics.context}::Error>"

    def reader_head(self, name, before, parameters=()):
        """The head of a function that reads, which has these parameters beside the reader's type."""
        generics = self.generics
        bound = f"{generics.reader}: {self.scope.need('speedy', 'LendingReader')}<{self.lent()}, {generics.context}>"
        return f"fn {name}<{', '.join([*parameters, bound])}>({before}reader: &mut {generics.reader})"

    def reader(self, name, before, body):
        """A function that reads."""
        return function(self.reader_head(name, before), self.result(self.self_type), body)

    def writer(self, name, body):
        """A function that writes."""
        generics = self.generics
        bound = f"{generics.writer}: {self.scope.need('speedy', 'Writer')}<{generics.context}>"
        return function(f"fn {name}<{bound}>(&self, writer: &mut {generics.writer})", self.result("()"), body)

    def read_from(self, body, hints=()):
        """`impl ReadFrom`."""
        strategy = self.scope.need("speedy", "ItemByItem")
        return self.reading("speedy", "ReadFrom", [
            f"    type Strategy = {strategy}<{self.generics.context}>;", "", *hints,
            *self.reader("read_from", "", body), "", *self.least_lines()])

    def least_of(self, kind):
        """The least size of a type, as its impl says it."""
        trait = self.scope.need("speedy", "ReadFrom")
        return f"<{kind} as {trait}<{self.lent()}, {self.generics.context}>>::minimum_bytes_needed()"

    def sum_of_least(self, kind):
        """The least size of a tuple, part by part: a call at the tuple would owe that an array in it has a size, which
        a parameter says."""
        known = least(kind, self.scope)
        if known is not None:
            return f"{known}_usize"
        if not isinstance(kind, syntax.Tuple):
            return self.least_of(type_text(kind))
        found = self.sum_of_least(kind.parts[-1])
        for part in reversed(kind.parts[:-1]):
            found = f"{self.sum_of_least(part)}.saturating_add({found})"
        return found

    def least_lines(self, name="minimum_bytes_needed"):
        """The least size: as a number where it is known here, since a call at the type of the parts takes longer to
        prove, or else that of the parts, as where these hold a type with `depth`. With a lifetime it needs its clause,
        which a trait does not give there."""
        known = self.scope.least[self.item.name]
        if known is not None and (self.item.depth or self.item.name not in self.scope.layered):
            body = str(known)
        elif self.item.name in self.scope.with_open_arrays:
            body = self.sum_of_least(self.tuple_type)
        else:
            body = self.least_of(self.parts_type)
        ensures = []
        if self.generics.lending:
            self.scope.ghosts.add("◌≡◌")
            ensures = [("", f"result ≡ {self.quoted(self.parts_type)}.layout.least")]
        return function(f"fn {name}()", "usize", body, ensures)
