"""Writes the views of a library in Rattle: their structs, and how each is made of a value."""
import re

from names import camel, quoted
from views import kinds_within, maybes

# So wide may a line of a clause be, behind what stands before it.
WIDTH = 108
HEAD = '''\
//! What callers in other languages are shown of the types of `{file}`.
//!
//! Made from `{file}` by `tools/derive --library`: change that, and make this again.
'''


def name_of(kind):
    """The name of a view's struct, without its lifetime."""
    if kind.what == "list":
        return "ListView"
    return f"{kind.of.camel}View" if kind.what == "own" else f"{camel(kind.label)}View"


def shown_type(kind):
    """The type that a view has for a kind."""
    simple = {"number": kind.of, "flag": "u8", "char": "u32", "text": "&'a [u8]", "bytes": "&'a [u8]",
              "float": {"f32": "u32", "f64": "u64"}.get(kind.of, "") if kind.what == "float" else ""}
    if kind.what == "array":
        return f"[{kind.of}; {kind.count}]"
    return simple.get(kind.what) or name_of(kind) + life(kind)


def is_made(kind):
    """Whether a value is shown by a view of its own."""
    return kind.what in ("own", "maybe", "list")


def life(it):
    """The lifetime of what borrows."""
    return "<'a>" if it.borrows else ""


def source_type(kind):
    """The type of a value that is shown so."""
    if kind.what == "maybe":
        return f"Option<{source_type(kind.of)}>"
    if kind.what == "list":
        return f"EncodedList<'a, {source_type(kind.of)}>"
    if kind.what == "own":
        return kind.of.camel + life_of_item(kind.of)
    if kind.what == "array":
        return f"InPlaceBytes<{kind.count}>" if kind.is_in_place else f"[{kind.of}; {kind.count}]"
    return {"number": kind.of, "flag": "bool", "char": "char", "text": "&'a str", "bytes": "&'a [u8]",
            "float": "F32" if kind.of == "f32" else "F64"}[kind.what]


def life_of_item(view):
    """The lifetime that a type of the file has."""
    return "<'a>" if view.exported.has_lifetime else ""


def empty(kind):
    """The expression of nothing that is shown so."""
    if kind.what in ("text", "bytes"):
        return "&[]"
    if kind.what == "array":
        return f"[0; {kind.count}]"
    if kind.what == "list":
        return "ListView { items: Walk { left: &[] }, count: 0, order: 0 }"
    return f"{name_of(kind)}::empty()" if is_made(kind) else "0"


def value(kind, place, reference):
    """The expression of what is shown of a value: by its place, and by a reference to it."""
    if is_made(kind):
        return f"View::of({reference})"
    return {"text": f"{place}.as_bytes()", "flag": f"flag_number({place})", "char": f"character_number({place})",
            "float": f"{place}.bits()"}.get(kind.what, place)


def made(kind, place):
    """The expression of the value that a view shows at a place, which returns where it shows none."""
    if is_made(kind):
        return f"{place}.value(alloc)?"
    call = {"text": "text_shown", "flag": "flag_shown", "char": "character_shown"}.get(kind.what)
    if call:
        return f"{call}({place})?"
    if kind.is_in_place:
        return f"InPlaceBytes({place})"
    return f"{source_type(kind)}::from_bits({place})" if kind.what == "float" else place


def value_head(made, body):
    """The head of the function that makes a value by this body."""
    alloc = "alloc" if "(alloc)" in "".join(body) else "_alloc"
    return f"fn value(&self, {alloc}: Global) -> Result<{made}, Unshown>"


def fact(kind, view, seen):
    """What a clause says of a view and of the value that it shows."""
    if is_made(kind):
        return f"⟦<{shown_type(kind)} as View<{source_type(kind)}>>⟧.shows {seen} {view}"
    if kind.what == "text":
        return f"ShowsText {seen}.now {view}.now"
    if kind.what == "bytes":
        return f"{view}.now ≡ {seen}.now"
    if kind.what in ("flag", "char"):
        return f"{'ShowsFlag' if kind.what == 'flag' else 'ShowsCharacter'} {seen} {view}"
    if kind.what == "float":
        return f"{view} ≡ {kind.of}_bits {seen}"
    return f"{view} ≡ {seen}{'.0' * kind.is_in_place}"


def items(kind, place):
    """The statement that names the items of an array at a place, or of one behind a reference."""
    return f"{place.removeprefix('*')}.0" if kind.is_in_place else place


def all_of(facts, indent):
    """Facts, all of them, in lines that are short enough."""
    if len(facts) == 1:
        return facts[0]
    lines, line = [], ""
    for at, it in enumerate(facts):
        it = f"× ({it})" if at else f"({it})"
        if line and len(indent) + len(line) + len(it) > WIDTH:
            lines.append(line)
            line = it
        else:
            line = f"{line} {it}".strip()
    return f"\n{indent}".join([*lines, line])


def struct(about, name, lifetime, fields):
    """A struct with the layout of C."""
    return [f"/// {about}", "#[repr(C)]", "#[derive(Clone, Copy)]", f"pub struct {name}{lifetime} {{",
            *(f"    pub {field}: {kind}," for field, kind in fields), "}", ""]


def empty_function(name, lifetime, fields):
    """The function that makes a view which shows nothing."""
    body = ", ".join(f"{field}: {it}" for field, it in fields)
    return [f"impl{lifetime} {name}{lifetime} {{", "    // Zeros.",
            f"    fn empty() -> {name}{lifetime} {{ {name} {{ {body} }} }}", "}", ""]


class ViewTypes:
    """The module of views."""

    def __init__(self, library):
        self.library, self.views = library, list(library.views)
        self.empties = self.needed_empties()
        self.written = {it.label for it in maybes([it for it in self.views if it.item.writable])}

    def needed_empties(self):
        """The labels of those kinds that some view shows nothing of."""
        found = set()

        def add(kind):
            if kind.what not in ("own", "maybe") or kind.label in found:
                return
            found.add(kind.label)
            for it in [kind.of] if kind.what == "maybe" else kind.of.kinds:
                add(it)

        for kind in maybes(self.views):
            add(kind.of)
        for view in self.views:
            for kind in view.kinds if view.cases is not None else ():
                add(kind)
        return found

    def text(self):
        """The text, before it is laid out."""
        lines, structs = [], set()
        for kind in kinds_within(self.views, "maybe", source_type):
            lines += ([] if kind.label in structs else self.maybe_struct(kind)) + self.maybe(kind)
            structs.add(kind.label)
        for view in self.views:
            lines += self.case_view(view) if view.cases is not None else self.struct_view(view)
        head = HEAD.format(file=self.library.file_name)
        return head + "\n".join([*self.imports("\n".join(lines)), *lines]) + "\n"

    def imports(self, text):
        """The imports."""
        names = [it for it in ("f32_bits", "f64_bits") if it in text]
        has_lists = "EncodedList<" in text
        prelude = ["◌≡◌"] + ["Some", "None"] * ("| None ↦" in text)
        found = [f"ghost use Rattle.std.specs.Prelude.{{{', '.join(prelude)}}};"]
        words = [it for it in ("ShowsCharacter", "ShowsFlag", "ShowsText") if it in text]
        if words:
            found.append(f"ghost use Rattle.speedy.specs.Exports.{{{', '.join(words)}}};")
        if names:
            found.append(f"ghost use Rattle.speedy.specs.Floats.{{{', '.join(names)}}};")
        found.append("")
        for view in self.views:
            path = "::".join(("crate", self.library.module, *view.exported.path))
            same = view.exported.path[-1] == view.camel
            found.append(f"use {path}{'' if same else f' as {view.camel}'};")
        calls = ["View"] + ["Shown", "Unshown"] * ("Shown<" in text) + ["ListView"] * has_lists
        calls += ["Walk"] * ("Walk {" in text)
        calls += [it for it in ("character_number", "character_shown", "flag_number", "flag_shown", "text_shown")
                  if f"{it}(" in text]
        found.append(f"use speedy::exports::{{{', '.join(calls)}}};")
        found += ["use speedy::encoded::EncodedList;"] * has_lists
        found += ["use speedy::in_place_bytes::InPlaceBytes;"] * ("InPlaceBytes" in text)
        floats = [it for it in ("F32", "F64") if re.search(rf"\b{it}\b", text)]
        found += [f"use speedy::{it};" for it in floats]
        return found + ["use std::alloc::Global;"] * ("alloc: Global" in text) + [""]

    def maybe_struct(self, kind):
        """The struct of an option."""
        name, borrowed = name_of(kind), life(kind)
        fields = [("is_some", "u8"), ("value", shown_type(kind.of))]
        found = struct("An option: whether there is a value (0 or 1), and which.", name, borrowed, fields)
        if kind.label in self.empties:
            found += empty_function(name, borrowed, [("is_some", "0"), ("value", empty(kind.of))])
        return found

    def maybe(self, kind):
        """How an option is shown."""
        name, borrowed, of = name_of(kind), life(kind), source_type(kind)
        inner = strip(value(kind.of, "*it", "it"))
        is_array = kind.of.what == "array"
        some = f"{name} {{ is_some: 1, value: {'items' if is_array else inner} }}"
        given = f"{{ let items = {items(kind.of, '*it')}; {some} }}" if is_array else f"{some},"
        shown = all_of(["view.is_some ≡ 1", fact(kind.of, "view.value", "it")], " " * 10)
        return [
            f"impl{borrowed} View<{of}> for {name}{borrowed} {{",
            "    ghost shows = { λ value view. elim value [", "      | None ↦ view.is_some ≡ 0",
            f"      | Some it ↦ {shown}", "    ] };", "",
            f"    fn of(value: &{of}) -> {name}{borrowed} {{ match value {{",
            f"        Some(it) => {given}",
            f"        None => {name} {{ is_some: 0, value: {empty(kind.of)} }},", "    } }", "}", "",
            *(self.maybe_made(kind, name, borrowed, of) if kind.label in self.written else ())]

    def maybe_made(self, kind, name, borrowed, of):
        """How an option is made again of its view."""
        it = made(kind.of, "self.value")
        return [f"impl{borrowed} Shown<{of}> for {name}{borrowed} {{",
                f"    {value_head(of, it)} {{ match self.is_some {{", "        0 => Ok(None),",
                f"        1 => {{ let it = {it}; Ok(Some(it)) }}",
                "        _ => Err(Unshown::Tag),", "    } }", "}", ""]

    def struct_view(self, view):
        """The view of a struct."""
        name, borrowed, item = f"{view.camel}View", life(view), view.camel + life_of_item(view)
        generic = life_of_item(view) or borrowed
        fields = [(it.name, shown_type(it.kind)) for it in view.fields]
        found = struct(f"What a [`{view.camel}`] shows.", name, borrowed, fields)
        if view.snake in self.empties:
            found += empty_function(name, borrowed, [(it.name, empty(it.kind)) for it in view.fields])
        facts = all_of([fact(it.kind, f"view.{quoted(it.name)}", f"value.{quoted(it.access)}") for it in view.fields],
                       " " * 8)
        lets, inits = [], []
        for at, it in enumerate(view.fields):
            place = f"value.{it.access}"
            if it.kind.what == "array":
                lets.append(f"let items_{at} = {items(it.kind, place)};")
                place = f"items_{at}"
            inits.append(f"{it.name}: {value(it.kind, place, f'&value.{it.access}')}")
        return found + [
            f"impl{generic} View<{item}> for {name}{borrowed} {{",
            f"    ghost shows = {{ λ value view.\n        {facts} }};", "",
            f"    fn of(value: &{item}) -> {name}{borrowed} {{", *lets, f"{name} {{ {', '.join(inits)} }}",
            "    }", "}", "", *(self.struct_made(view, name, borrowed, generic, item) if view.item.writable else ())]

    def struct_made(self, view, name, borrowed, generic, item):
        """How a struct is made again of its view."""
        lets = [f"let t{at} = {made(it.kind, f'self.{it.name}')};" for at, it in enumerate(view.fields)]
        if view.item.shape == "named":
            built = " { " + ", ".join(f"{it.access}: t{at}" for at, it in enumerate(view.fields)) + " }"
        else:
            built = "(" + ", ".join(f"t{at}" for at in range(len(view.fields))) + ")"
        return [f"impl{generic} Shown<{item}> for {name}{borrowed} {{",
                f"    {value_head(item, lets)} {{", *lets, f"Ok({view.camel}{built})",
                "    }", "}", ""]

    def case_view(self, view):
        """The view of an enum."""
        name, borrowed, item = f"{view.camel}View", life(view), view.camel + life_of_item(view)
        generic = life_of_item(view) or borrowed
        found, fields = [], [("tag", "u32", "0")]
        for case in view.cases:
            if case.fields:
                inner, inner_life = f"{view.camel}{case.name}View", life(case)
                found += struct(f"What a `{case.name}` of [`{view.camel}`] shows.", inner, inner_life,
                                [(it.name, shown_type(it.kind)) for it in case.fields])
                found += empty_function(inner, inner_life, [(it.name, empty(it.kind)) for it in case.fields])
                fields.append((case.snake, inner + inner_life, f"{inner}::empty()"))
        about = f"What a [`{view.camel}`] shows: the tag of its variant, and the fields of that."
        found += struct(about, name, borrowed, [(field, kind) for field, kind, _ in fields])
        found += empty_function(name, borrowed, [(field, nothing) for field, _, nothing in fields])
        path = ".".join(("Rattle", self.library.name, "specs.declared", self.library.module, *view.exported.path))
        arms = [self.case_fact(view, case) for case in view.cases]
        return found + [
            f"impl{generic} View<{item}> for {name}{borrowed} {{",
            f"    ghost use {path}.{{{view.exported.path[-1]}}};", "",
            "    ghost shows = { λ value view. elim value [", *arms, "    ] };", "",
            f"    fn of(value: &{item}) -> {name}{borrowed} {{", f"let mut view = {name}::empty();", "match value {",
            *(self.case_arm(view, case) for case in view.cases), "}", "view", "    }", "}", "",
            *(self.case_made(view, name, borrowed, generic, item) if view.item.writable else ())]

    def case_made(self, view, name, borrowed, generic, item):
        """How an enum is made again of its view."""
        arms = []
        for case in view.cases:
            if not case.fields:
                arms.append(f"{case.tag} => Ok({view.camel}::{case.name}),")
                continue
            bound = [f"t{at}" for at in range(len(case.fields))]
            lets = [f"let {name} = {made(it.kind, f'self.{case.snake}.{it.name}')};"
                    for it, name in zip(case.fields, bound)]
            arms.append(f"{case.tag} => {{ {' '.join(lets)} Ok({view.camel}::{case.name}{pattern(case, bound)}) }}")
        return [f"impl{generic} Shown<{item}> for {name}{borrowed} {{",
                f"    {value_head(item, arms)} {{", "match self.tag {", *arms,
                "_ => Err(Unshown::Tag),", "}", "    }", "}", ""]

    def case_fact(self, view, case):
        """What is shown of a variant."""
        facts = [f"view.tag ≡ {case.tag}"]
        facts += [fact(it.kind, f"view.{quoted(case.snake)}.{quoted(it.name)}", f"t{at}")
                  for at, it in enumerate(case.fields)]
        bound = "".join(f" t{at}" for at in range(len(case.fields)))
        return f"      | {view.exported.path[-1]}.{case.name}{bound} ↦\n          {all_of(facts, ' ' * 10)}"

    def case_arm(self, view, case):
        """The arm that shows a variant."""
        head = f"{view.camel}::{case.name}"
        if not case.fields:
            return f"{head} => view.tag = {case.tag},"
        bound = [f"t{at}" for at in range(len(case.fields))]
        lets, inits = "", []
        for it, name in zip(case.fields, bound):
            if it.kind.what == "array":
                lets += f"let items_{name} = {items(it.kind, f'*{name}')}; "
                inits.append(f"{it.name}: items_{name}")
            else:
                inits.append(f"{it.name}: {strip(value(it.kind, f'*{name}', name))}")
        built = f"{view.camel}{case.name}View {{ {', '.join(inits)} }}"
        return f"{head}{pattern(case, bound)} => {{ {lets}view.tag = {case.tag}; view.{case.snake} = {built}; }}"


def pattern(case, bound):
    """The fields of a variant by the names that they are bound to."""
    if case.shape == "named":
        return " { " + ", ".join(f"{it.access}: {name}" for it, name in zip(case.fields, bound)) + " }"
    return f"({', '.join(bound)})"


def strip(text):
    """A call at what a reference points to: `*it.bits()` is `it.bits()`."""
    return text[1:] if text.startswith("*") and text.endswith("()") else text

