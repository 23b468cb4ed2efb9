"""Groups of cases: an enum of many variants is read by several functions, each of which knows the cases of its group.

Each arm of a function is proved beside what the function has of all its arms, so the time of one function grows faster
than their number. The first group is read by `read_case`, and each other one by a function that is called where no
group before it has the tag."""
import in_place
import rattle
from arms import CASES
from trees import chained, grouped, halved

# So many cases one function reads at most, if there are more than MOST_WHOLE. Beside larger groups the search leaves
# open what holds of all other tags; in smaller ones the impls that calls rest on are named again more often.
GROUP = 20
MOST_WHOLE = 24


def groups_of(item, items):
    """What belongs to the variants of an enum, in its groups. Proofs name the cases of a group, which they cannot where
    parameters are types or numbers: such an enum is one group, and so is one that is not read."""
    is_split = item.readable and all(it.kind == "lifetime" for it in item.parameters)
    return grouped(items, GROUP if is_split and len(items) > MOST_WHOLE else len(items))


def tree_of(item, items):
    """What belongs to the variants, as the tree of the cases: each group is halved, and stands beside later ones."""
    return chained([halved(some) for some in groups_of(item, items)])


class Later:
    """A group behind others, with all later ones: the type that has their cases, and the function that reads them.
    `number` counts the groups from 1, and `later` is the next, or None."""

    def __init__(self, shape, number, cases, later):
        self.shape, self.cases, self.later, self.number = shape, cases, later, number
        self.type = shape.scope.fresh.name(f"{shape.item.name}Cases{number}")
        self.function = shape.scope.fresh.name(f"read_{shape.item.name.lower()}_cases_{number}")
        self.self_type = self.type + shape.generics.arguments()
        self.add_type()

    def add_type(self):
        """Writes the type beside the enum, and the alias of its tree."""
        shape, scope = self.shape, self.shape.scope
        names = set().union(*(rattle.names_in(part.type) for case in self.cases for part in case.taken.parts))
        names |= set(shape.generics.lifetimes) if self.later else set()
        about = f"The cases of [`{shape.item.name}`] in its group {self.number} and later ones, each with its tag."
        own = halved(self.cases)
        kind = shape.kinds_of((own, self.later) if self.later else own)
        tree = shape.alias(f"{shape.item.name}Tree{self.number}", about, kind, names)
        lifetimes = "".join(f"&{it} " for it in shape.generics.lifetimes)
        held = f"{scope.need('std::marker', 'PhantomData')}<{lifetimes}()>"
        quoted = shape.quoted(tree, "CaseTree", CASES)
        scope.beside += [f"/// {about}", f"struct {self.self_type} {{", f"    cases: {held},", "}", "",
                         *rattle.impl(shape.generics.lifetimes, scope.need(CASES, "CaseTree"), self.self_type, "",
                                      [f"    ghost Seen = {{ {quoted}.Seen }};", "",
                                       f"    ghost choices = {{ {quoted}.choices }};"]),
                         *in_place.group_impls(shape, self.self_type, tree)]

    def behind(self, case_of):
        """What stands behind a tag, as a case of the whole enum."""
        sides = self.number - 1
        return "right_case (" * sides, case_of, ")" * sides

    def function_lines(self):
        """The function that reads a value of the case with a tag."""
        shape = self.shape
        generics = shape.generics
        shape.scope.ghost_paths |= {"Rattle.speedy.specs.ReadCases.ReadsCase",
                                    "Rattle.speedy.specs.Choices.right_case"}
        before, case_of, after = self.behind(f"{shape.quoted(self.self_type, 'CaseTree', CASES)}.choices.case_of tag")
        seen = f"{shape.quoted(shape.self_type, 'Cases', CASES)}.seen"
        behind, states = f"        ({before}{case_of}{after})", "result reader.old reader.new"
        if len(behind) + len(states) + 3 > rattle.CLAUSE_WIDTH:
            behind = f"        ({before}\n        {case_of}\n        {after})"
        clause = f"ReadsCase {generics.context}.Error.IsEof {generics.reader}.state {seen}\n{behind} {states}"
        head = shape.reader_head(self.function, "tag: usize, ", shape.reading_parameters())
        return [f"/// Reads a value of the case with this tag, which no group before the group {self.number} has.",
                *rattle.function(head, shape.result(shape.self_type), str(shape.read_match(self.cases, self.later)),
                                 [("", clause)]), ""]


def later_groups(shape):
    """The groups behind the first."""
    groups, found = groups_of(shape.item, shape.cases), []
    for place in range(len(groups) - 1, 0, -1):
        found.insert(0, Later(shape, place + 1, groups[place], found[0] if found else None))
    return found
