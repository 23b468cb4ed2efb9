"""The impls of a struct that ends where the bytes do: by a rest without a length, or parts that may be missing."""
import arrays
import asked
import defaults
import impl_search
import rattle
import syntax
from impls import Shape
from lengths import TEXTS_AND_LISTS, WITHOUT_PARAMETERS
from names import Fresh, parameter
from parts import (Part, PartMaker, Taken, accesses_of_struct, built, is_lent_list, read_pattern, seen_of_parts,
                   write_statements, written_among)
from rattle import Block, Call, Let, Match, clause_lines, clause_text, is_listed, names_in, type_text
from refusal import Refusal
from sizes import SIGNED, is_copied


# So many fields that may be missing name parameters.
MOST_NAMING = 2


def ends_with_input(item):
    """Whether a struct has such parts."""
    return any(it.options.is_rest or it.options.may_be_missing for it in item.fields)


def ends_early(item):
    """Whether a struct has parts that may be missing. What makes it of its parts names them where others see that."""
    return isinstance(item, syntax.Struct) and any(it.options.may_be_missing for it in item.fields)


def refuse_in_variant(variant):
    """Refuses such parts in a variant."""
    for it in variant.fields:
        if it.options.is_rest or it.options.may_be_missing:
            raise Refusal(it.line, "a variant does not end where the bytes do: put this field into a struct of its "
                                   "own, and hold that behind the number of its bytes, in a `Framed`")


class WholeShape(Shape):
    """What the impls of such a struct are made of: the parts with a layout that stand first, and those at the end."""
    ends_with_input = True

    def __init__(self, item, scope):
        accesses = accesses_of_struct(item.fields, scope)
        place = next(at for at, it in enumerate(item.fields) if it.options.is_rest or it.options.may_be_missing)
        for it in item.fields[place:]:
            if not (it.options.is_rest or it.options.may_be_missing or it.options.skip):
                raise Refusal(it.line, "behind a field that ends with the input stand such fields alone")
        maker = PartMaker(item, scope, item.name)
        self.first = maker.taken(item.fields[:place], accesses[:place])
        self.last = [(it, access, scope.convert(it.type, item.parameters, not item.readable))
                     for it, access in zip(item.fields[place:], accesses[place:])]
        for it, _, kind in self.last:
            asked.check(kind, scope, it, item.readable)
            arrays.check(item, scope, it, kind)
        self.check_last()
        # What is bound to the parts at the end that are there.
        self.more = Fresh(access.bound for access in accesses).name("more")
        kinds = [Part(kind, access.bound) for it, access, kind in self.last]
        ends = Taken(item, [], [], parts=kinds)
        super().__init__(item, scope, [self.first, ends])
        if item.readable:
            impl_search.check_each(item, [syntax.Tuple(item.line, tuple(self.kinds))])
        if item.writable and not self.is_rest():
            impl_search.check_ends(item, [kind for _, _, kind in self.last])
            self.check_parameters()
        end = "Rest" if self.is_rest() else "UnlessEnd"
        used = ("Whole", "EndsWithInput", end, *(() if self.is_rest_alone() else ("Followed",)))
        self.names_of_whole = {name: scope.need("speedy::whole", name) for name in used}
        kind = self.end_type() if self.is_rest_alone() \
            else f"{self.names_of_whole['Followed']}<{type_text(self.first.type())}, {self.end_type()}>"
        about = f"What [`{item.name}`] is read and written as."
        self.parts_type = self.alias(f"{item.name}Parts", about, kind, self.names(),
                                     scope.helpers_shown)

    def check_last(self):
        """Refuses what does not end with the input."""
        for it, _, kind in self.last:
            if it.options.skip:
                raise Refusal(it.line, "a field with `skip` stands before those that end with the input")
            if it.options.is_rest and not (is_listed(kind, *TEXTS_AND_LISTS) or is_lent_list(kind)):
                raise Refusal(it.line, "`length = ..` is taken of `String`, `Vec<T>`, `Box<str>`, `Box<[T]>`, `&str`, "
                                       "`&[u8]`, `Cow<str>` and `Cow<[T]>`")
        if len(self.last) > 1 and any(it.options.is_rest for it, _, _ in self.last):
            raise Refusal(self.last[0][0].line, "a rest with `length = ..` is the last field, and stands behind none "
                                                "with `default_on_eof`")

    def check_parameters(self):
        """Refuses many parts that may be missing of types that name parameters: how long these live is searched for in
        writing, and the search meets its limit."""
        names = {it.name for it in self.item.parameters if it.kind != "const"}
        naming = [it for it, _, kind in self.last if names_in(kind) & names]
        if len(naming) > MOST_NAMING:
            raise Refusal(naming[-1].line, "so many fields with `default_on_eof` that name parameters find no proof: "
                                           + WITHOUT_PARAMETERS)

    def is_rest(self):
        """Whether the end is a rest, and no parts that may be missing."""
        return self.last[0][0].options.is_rest

    def is_rest_alone(self):
        """Whether a rest is all that is read and written."""
        return self.is_rest() and not self.first.parts

    def end_type(self):
        """The type of the end."""
        if self.is_rest():
            return f"{self.names_of_whole['Rest']}<{type_text(self.last[0][2])}>"
        found = "()"
        for _, _, kind in reversed(self.last):
            found = f"{self.names_of_whole['UnlessEnd']}<{type_text(kind)}, {found}>"
        return found

    def lines(self):
        """The impls."""
        found = self.laying_out(self.names_of_whole["Whole"], self.whole())
        if self.item.readable:
            found += self.read_to_end() if self.is_rest() else self.from_parts()
        if self.item.writable:
            body = Block(write_statements(self.first), f"{self.written()}.write_to_end(writer)")
            text = " ".join(map(str, body.statements)) + " " + str(body.value)
            found += self.writing("speedy::whole", "WriteToEnd", self.writer("write_to_end", text))
        return found

    def whole(self):
        """The lines of `impl Whole`."""
        quoted = self.quoted(self.parts_type, "Whole", "speedy::whole")
        before, tree = ("", "tt") if not self.first.parts else \
            seen_of_parts(self.first, type_text(self.first.type()), self.scope)
        first = before + clause_text(tree) if before else tree
        seen = self.end_seen() if self.is_rest_alone() else [first, self.end_seen()]
        return [f"    type Ends = {self.names_of_whole['EndsWithInput']};", "",
                f"    ghost Seen = {{ {quoted}.Seen }};", "",
                *clause_lines(4, "ghost seen = { λ it. ", seen, " };"), "",
                f"    ghost whole = {{ {quoted}.whole }};"]

    def end_seen(self):
        """What is seen of the end."""
        if self.is_rest():
            _, access, kind = self.last[0]
            return f"{self.quoted(type_text(kind), 'OfLength', 'speedy::lengths')}.seen {access.seen}"
        self.scope.ghosts.add("Some")
        found = "tt"
        for _, access, kind in reversed(self.last):
            found = f"Some ({self.quoted(type_text(kind))}.seen {access.seen},\n        {found})"
        return found.replace(",\n        tt)", ", tt)")

    # Reading.

    def value(self, first, last):
        """The struct, with these values of the first fields and of those at the end."""
        whole = Taken(self.item, self.item.fields, [], values=[*first, *last])
        return built(self.item.name, self.item.shape, whole)

    def read_to_end(self):
        """`impl ReadToEnd`: the parts are read, and put together."""
        ok, err = self.scope.variant("Ok"), self.scope.variant("Err")
        bound, lets = read_pattern(self.first)
        rest = Call(self.names_of_whole["Rest"], (self.last[0][1].bound,))
        value = Call(ok, (self.value(self.first.values, [self.last[0][1].bound]),))
        if self.is_rest_alone():
            pattern, made = Call(ok, (rest,)), value
        else:
            # No pattern of a `match` moves two parts out of a value in another.
            read = Fresh(["parts", *(it.bound for it in self.first.accesses), self.last[0][1].bound]).name("read")
            taken = Let(Call(self.names_of_whole["Followed"], (bound, rest)), read)
            pattern, made = Call(ok, (read,)), Block((taken, *lets), value)
        trait = self.scope.need("speedy::whole", "ReadToEnd")
        generics = self.generics
        read = f"<{self.parts_type} as {trait}<{self.lent()}, {generics.context}>>::read_to_end(reader)"
        body = Match(read, ((pattern, made), (f"{err}(error)", f"{err}(error)")))
        memory = f"{self.scope.need('speedy::whole', 'MemoryReader')}<{self.lent()}, {generics.context}>"
        head = f"    fn read_to_end<{generics.reader}: {memory}>(reader: &mut {generics.reader})"
        lines = [f"{head} -> {self.result(self.self_type)} {{ {body} }}"]
        return self.reading("speedy::whole", "ReadToEnd", lines)

    def from_parts(self):
        """The struct of its parts: what is missing has its default."""
        alloc = self.scope.need("std::alloc", "Global")
        bound, lets = read_pattern(self.first)
        head = Call(self.names_of_whole["Followed"], (bound, Call(self.names_of_whole["UnlessEnd"], (self.more,))))
        first = [self.without_reader(it, value) for it, value in zip(self.first.fields, self.first.values)]
        body = Block((Let(head, "parts"), *lets), self.unless_end(first, 0, []))
        wheres = self.generics.wheres_text()
        needed = {name for it, _, kind in self.last for name in defaults.default(kind, self.scope, it.line)[1]}
        bounds = {it.name: self.generics.bounds_of(self.asked[it.name], self.generics.laying_out())
                  + [self.scope.prelude("Default")] * (it.name in needed)
                  for it in self.item.parameters if it.kind == "type"}
        listed = rattle.listed(self.generics.of_keys(bounds))
        text = " ".join(map(str, body.statements)) + " " + str(body.value)
        made = rattle.function(f"pub fn from_parts(alloc: {alloc}, parts: {self.parts_type})", self.self_type, text,
                               self.clauses_of_parts())
        about = "    /// The value of the parts that were read. What is missing at the end has its default."
        return [f"impl{listed} {self.self_type}{wheres} {{", about, *made, "}", ""]

    def clauses_of_parts(self):
        """What is promised of it: the parts that stand first, and each of the last ones, or its default."""
        found, scope, names = [], self.scope, Fresh(["result", "more"])
        # What may borrow has a value where the function begins, and another where it ends.
        parts = "parts.entry" if self.generics.lifetimes else "parts"
        if self.first.parts:
            before, tree = seen_of_parts(self.first, type_text(self.first.type()), scope)
            first = (before + clause_text(tree)).replace(" it.", " result.").replace("(it.", "(result.")
            scope.ghosts.add("◌≡◌")
            quoted = self.quoted(self.parts_type, "Whole", "speedy::whole")
            found.append((names.name("first"), f"{first}\n            ≡ ({quoted}.seen {parts}).0"))
        option = "Rattle.std.specs.Option"
        scope.ghost_paths |= {f"{option}.UnwrapsOrElse", f"{option}.option_map"}
        more = f"{parts}.1.0"
        for place, (_, access, kind) in enumerate(self.last):
            if place:
                scope.ghost_paths.add(f"{option}.option_and_then")
                more = f"(option_and_then (λ more. more.1.0)\n            {more})"
            value = access.seen.replace("it.", "result.", 1)
            default = defaults.clause(kind, scope)
            default = default.replace(" × ", "\n            × ") if len(default) > 90 else default
            found.append((names.name(parameter(access.bound)),
                          f"UnwrapsOrElse (option_map (λ more. more.0) {more})\n            {default} {value}"))
        return found

    def unless_end(self, first, place, values):
        """The struct, with these values of its first fields, where so many of the last parts are there."""
        if place == len(self.last):
            return self.value(first, values)
        some, none = self.scope.variant("Some"), self.scope.variant("None")
        missing = [self.without_reader(it, defaults.default(kind, self.scope, it.line)[0])
                   for it, _, kind in self.last[place:]]
        bound = self.last[place][1].bound
        is_last = place + 1 == len(self.last)
        behind = "_" if is_last else Call(self.names_of_whole["UnlessEnd"], (self.more,))
        more = self.unless_end(first, place + 1, [*values, bound])
        return Match(self.more, ((none, self.value(first, values + missing)),
                                 (Call(some, (Call("", (bound, behind)),)), more)))

    @staticmethod
    def without_reader(it, value):
        """The value of a field where there is no reader, but an allocator. A default that may find no memory is
        refused: no error says so there."""
        if not isinstance(value, str):
            return value
        if "error_out_of_memory" in value:
            raise Refusal(it.line, "the default of this type takes memory, for want of which `from_parts` has no "
                                   "answer: hold it in an `Option`, whose default takes none")
        return value.replace(defaults.ALLOC, "alloc")

    # Writing.

    def written(self):
        """What is written."""
        if self.is_rest_alone():
            return self.end_written()
        first = written_among(self.first, self.scope) if self.first.parts else "()"
        return Call(self.names_of_whole["Followed"], (first, self.end_written()))

    def end_written(self):
        """What is written of the end."""
        if self.is_rest():
            return Call(self.names_of_whole["Rest"], (Call(self.scope.need("speedy", "Part"),
                                                           (self.last[0][1].reference,)),))
        found, some = "()", self.scope.variant("Some")
        for _, access, kind in reversed(self.last):
            value = access.value if is_copied(kind) and not is_listed(kind, *SIGNED) \
                else Call(self.scope.need("speedy", "Part"), (access.reference,))
            found = Call(self.names_of_whole["UnlessEnd"], (Call(some, (Call("", (value, found)),)),))
        return found
