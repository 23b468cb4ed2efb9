"""The impls of a type that a list holds which lies where it was read, and of the types that such a type holds."""
from rattle import function, impl

MODULE, LISTS = "speedy::in_place", "speedy::encoded"


def impls(shape, kind, trait="InPlace", before=""):
    """The impls: as this type says them by its impl of a trait, behind what stands before."""
    item, scope = shape.item, shape.scope
    if not item.in_place:
        return []
    quoted = shape.quoted(kind, trait, MODULE)
    found = impl(shape.generics.lifetimes, scope.need(MODULE, "InPlace"), shape.self_type, "", [
        f"    ghost Seen = {{ {quoted}.Seen }};", "", f"    ghost in_place = {{ {before}{quoted}.in_place }};"])
    return found + (list_impls(shape) if item.in_list else [])


def enum_impls(shape):
    """Those of an enum, whose cases stand behind a tag."""
    if not shape.item.in_place:
        return []
    shape.scope.ghost_paths.add("Rattle.speedy.specs.InPlace.tagged_in_place")
    numbers = f"{shape.quoted(shape.number, 'Prefix', 'speedy::prefixed')}.numbers"
    return impls(shape, shape.cases_type, "CasesInPlace", f"tagged_in_place {numbers} ")


def group_impls(shape, self_type, tree):
    """That of the cases of a later group."""
    if not shape.item.in_place:
        return []
    quoted = shape.quoted(tree, "CasesInPlace", MODULE)
    return impl(shape.generics.lifetimes, shape.scope.need(MODULE, "CasesInPlace"), self_type, "", [
        f"    ghost Seen = {{ {quoted}.Seen }};", "", f"    ghost in_place = {{ {quoted}.in_place }};"])


def clauses(shape, word, before, behind):
    """The clause of a function where the type has a lifetime: there a trait does not give it."""
    if not shape.generics.lifetimes:
        return []
    shape.scope.ghost_paths.add(f"Rattle.speedy.specs.EncodedLists.{word}")
    codec = f"{shape.quoted(shape.self_type, 'InPlace', MODULE)}.in_place.codec"
    return [("", f"{word} {before}\n            {codec}\n            {behind}")]


def list_impls(shape):
    """How items are measured, and written again."""
    item, scope, generics = shape.item, shape.scope, shape.generics
    alloc = scope.need("std::alloc", "Global")
    bound = f"{generics.context}: {scope.need('speedy', 'Context')}"
    head = f"fn measure<{bound}>(alloc: {alloc}, context: {generics.context}, count: usize, bytes: &[u8])"
    body = f"{scope.need(LISTS, 'measure_items')}::<{item.name}, {generics.context}>(alloc, context, count, bytes)"
    said = clauses(shape, "Measures", f"{generics.context}.Error.IsEof",
                   f"({generics.context}.mode context) count result bytes.now")
    found = impl(generics.lifetimes, scope.need(LISTS, "ListItem"), shape.self_type, "",
                 function(head, shape.result("usize"), body, said))
    if not item.writable:
        return found
    order = scope.need("speedy", "Endianness")
    bound = f"{generics.writer}: {scope.need('speedy', 'Writer')}<{generics.context}>"
    head = f"fn write_first<{bound}>(alloc: {alloc}, order: {order}, bytes: &[u8], writer: &mut {generics.writer})"
    arguments = f"{item.name}, {generics.context}, {generics.writer}"
    body = f"{scope.need(LISTS, 'write_first_item')}::<{arguments}>(alloc, order, bytes, writer)"
    written = f"{scope.prelude('Option')}<(usize, {shape.result('()')})>"
    said = clauses(shape, "WritesFirst", f"{generics.context}.Error.from_gives {generics.writer}.state "
                   f"{generics.writer}.appends", "order bytes.now result writer.old writer.new")
    return found + shape.writing(LISTS, "WriteListItem", function(head, written, body, said))
