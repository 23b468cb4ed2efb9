"""Random structs and enums, with their parameters, derives and attributes."""
from dataclasses import dataclass, field

from random_fields import BITS, WIDTHS, Fields, attributes
from random_kinds import EVERY, Kind
from random_words import ODD_PARAMETERS, ODD_VARIANTS, PARAMETERS, VARIANTS

LIFETIMES = ("'de", "'input", "'a_", "'r", "'long_name")
SHAPES = {"named": 6, "tuple": 3, "unit": 0.3, "empty": 0.2}
VARIANT_SHAPES = {"variant_unit": 4, "variant_tuple": 3, "variant_named": 3, "variant_empty": 0.1,
                  "variant_braces": 0.1}
# What is derived beside the two, in sets that belong together, and in odd ones.
DERIVES = ("Debug", "Debug PartialEq", "Debug Clone PartialEq", "Debug Clone PartialEq Eq",
           "Debug Clone Copy PartialEq Eq",
           "Debug Clone Copy PartialEq Eq Hash", "Debug Clone PartialEq Eq PartialOrd Ord Hash",
           "Clone Copy Debug PartialEq Eq PartialOrd Ord Hash Default", "Debug Clone Default", "Clone", "PartialEq")
ODD_DERIVES = ("Default", "PartialEq PartialOrd", "Hash", "PartialEq Hash", "Clone Default Hash", "PartialEq Eq",
               "Debug Default PartialEq PartialOrd Clone Copy")
NEEDS = {"Copy": "Clone", "Eq": "PartialEq", "PartialOrd": "PartialEq", "Ord": "PartialOrd Eq"}
TAGS = {"u7": 127, "u8": 255, "u16": 65535, "u32": 2 ** 32 - 1, "u64": 2 ** 63 - 1, "u64_varint": 2 ** 63 - 1}


@dataclass
class Parameter:
    """A parameter: what it stands for (`plain`, a key `ordered` or `hashed`, `const`), and what is asked of it."""
    name: str
    role: str = ""
    bounded: bool = False
    default: str = ""

    def become(self, role, bounded):
        """It is used so."""
        if not self.role:
            self.role, self.bounded = role, bounded


@dataclass
class Declared:
    """A type of the file, as others name it."""
    name: str
    parameters: list
    traits: frozenset
    loans: bool
    keyed: bool
    whole: bool
    numbers: list = field(default_factory=list)


class Item:
    """Draws one type."""

    def __init__(self, source, name, is_enum, keyed=False, recursive=False):
        self.source = source
        self.random = source.random
        self.name = name
        self.is_enum = is_enum
        self.keyed = keyed
        # Whether its values hold values of its own type.
        self.recursive = recursive
        self.lifetime = None
        self.parameters = []
        self.fields, self.variants, self.shape = [], [], ""
        self.tag_type, self.number, self.offset = "u32", "isize", 0
        self.discriminants = self.tagged = False
        self.derived, self.wheres = [], []
        self.readable = self.writable = True
        if not keyed and not recursive:
            self.set_generics()

    def set_generics(self):
        """Draws what it is generic in; what no part names is dropped later."""
        source = self.source
        if source.draws("lifetimes"):
            self.lifetime = self.random.choice(LIFETIMES) if source.draws("odd_lifetimes") else "'a"
        if not source.draws("parameters"):
            return
        taken = set(source.names) | {it.rpartition(" ")[2].rpartition("::")[2] for it in source.brought}
        for _ in range(self.random.choice([1, 1, 2, 3])):
            self.parameters.append(Parameter(source.words.pick(PARAMETERS, ODD_PARAMETERS, "odd_parameters", taken)))
        if source.draws("const_generics"):
            name = self.random.choice([it for it in ("N", "LEN", "M2") if it not in taken])
            self.parameters.insert(self.random.randrange(len(self.parameters) + 1), Parameter(name, "const"))

    def parameter_names(self):
        """The names of its parameters."""
        return [it.name for it in self.parameters]

    def visibility_of_field(self):
        """What stands before a field."""
        return self.random.choice(["pub ", "pub ", ""]) if not self.source.draws("visibility") else \
            self.source.words.visibility()

    # Parts.

    def text(self):
        """All of it. It is known to later items from then on."""
        if self.is_enum:
            self.draw_variants()
        else:
            self.draw_fields()
        every = self.every_field()
        used = frozenset().union(*(it.kind.names for it in every))
        self.parameters = [it for it in self.parameters if it.name in used]
        loans = any(it.kind.loans for it in every)
        self.lifetime = self.lifetime if loans else None
        self.ask_of_parameters()
        derives, traits = self.derives(every)
        self.derived = derives
        numbers = [(it.name, it.kind.text) for it in self.fields if it.name and it.kind.text in BITS
                   and "skip" not in it.settings and not it.name.startswith("r#")]
        whole = any(it.is_whole() for it in every)
        made = self.source.words.docs("") + self.head_attributes(derives, traits) + self.head() + self.body()
        if self.readable and self.writable:
            self.source.types.append(Declared(self.name, self.parameters, traits, loans, self.keyed, whole, numbers))
        return made

    def every_field(self):
        """Its fields, or those of its variants."""
        return self.fields + [it for variant in self.variants for it in variant["fields"]]

    def draw_fields(self):
        """The fields of a struct."""
        self.shape = "named" if self.keyed else self.source.one_of(SHAPES, ("unit", "empty") * self.recursive)
        count = self.random.choice([1, 1, 2, 2, 3, 3, 4, 4, 5, 6])
        if self.source.draws("many_fields"):
            count = self.random.choice([7, 8, 9, 10, 11, 12, 13, 14])
        if self.keyed:
            count = self.random.choice([1, 1, 2, 3])
        if self.shape in ("unit", "empty"):
            return
        made = Fields(self, self.shape)
        self.fields = made.all(0 if self.source.draws("no_fields") and not self.keyed else count, True)
        if self.recursive:
            self.fields.append(made.held_field(len(self.fields), True))
        free = [it for it in self.parameters if not it.role]
        if free and self.source.draws("skip_marker"):
            free[0].become("plain", False)
            self.add_marker(made, free[0].name)

    def add_marker(self, made, name):
        """A field that only names a parameter."""
        kind = Kind(f"{self.source.path('std::marker', 'PhantomData')}<{name}>", EVERY, False, frozenset([name]))
        last = made.field(len(self.fields), False)
        last.settings, last.kind = ["skip"], kind
        self.fields.append(last)

    def draw_variants(self):
        """The variants of an enum."""
        source = self.source
        count = self.random.choice([1, 2, 2, 3, 3, 4, 4, 5, 6, 8, 10, 12]) + self.recursive
        if source.draws("many_variants") and not self.keyed:
            count = self.random.choice([24, 40])
        if source.draws("tag_type"):
            self.tag_type = source.one_of(WIDTHS).removeprefix("width_")
        self.discriminants = source.draws("discriminants")
        taken, tag = set(), 0
        for _ in range(count):
            shape = "variant_unit" if self.keyed else source.one_of(VARIANT_SHAPES)
            name = source.words.pick(VARIANTS, ODD_VARIANTS, "odd_variants", taken)
            fields = []
            if shape in ("variant_tuple", "variant_named"):
                made = Fields(self, shape.removeprefix("variant_"))
                fields = made.all(self.random.choice([1, 1, 1, 2, 2, 3, 3, 4, 6]), False)
            tag += self.random.choice([1, 1, 1, 2, 3])
            self.variants.append({"name": name, "shape": shape, "fields": fields, "tag": tag, "docs":
                                  source.words.docs("    ")})
        if self.recursive:
            self.hold_others()

    def hold_others(self):
        """Has variants hold values of the enum, the last one at least. The first one does so that its values end."""
        for place, variant in enumerate(self.variants):
            shape = variant["shape"].removeprefix("variant_")
            is_wanted = shape in ("tuple", "named") and self.random.random() < 0.5
            if is_wanted or place == len(self.variants) - 1:
                variant["shape"] = "variant_named" if shape == "named" else "variant_tuple"
                made = Fields(self, variant["shape"].removeprefix("variant_"))
                made.names |= {it.name for it in variant["fields"] if it.name}
                variant["fields"].append(made.held_field(len(variant["fields"]), place == 0))

    # What stands before it.

    def ask_of_parameters(self):
        """Draws bounds and defaults of the parameters."""
        for place, parameter in enumerate(self.parameters):
            is_last = all(it.role == "plain" and not it.bounded for it in self.parameters[place:])
            if parameter.role != "plain":
                continue
            if is_last and self.source.draws("defaults"):
                parameter.default = self.random.choice(["u8", "u32", "()"])
                for later in self.parameters[place + 1:]:
                    later.default = "u16"
                return
            parameter.bounded = self.source.draws("bounds")

    def derives(self, every):
        """What is derived beside the two, and what the type then has."""
        allowed = EVERY.intersection(*(it.kind.traits for it in every))
        if self.is_enum and not any(it["shape"] == "variant_unit" for it in self.variants):
            allowed = allowed - {"Default"}
        if self.keyed:
            wanted = "Debug Clone PartialEq Eq PartialOrd Ord Hash".split() + (["Copy"] if "Copy" in allowed else [])
        elif self.source.draws("odd_derives"):
            wanted = self.random.choice(ODD_DERIVES).split()
        else:
            wanted = self.random.choice(DERIVES).split() if self.source.draws("derives") else []
        wanted = [it for it in wanted if it in allowed]
        kept = [it for it in wanted if all(need in wanted for need in NEEDS.get(it, "").split())]
        return kept, frozenset(kept)

    def head_attributes(self, derives, traits):
        """The attributes of the item, with its derives."""
        source, lines = self.source, []
        serde = source.draws("serde")
        named = derives + ([source.path("serde", "Serialize"), source.path("serde", "Deserialize")] if serde else [])
        self.readable, self.writable = not source.draws("writable_alone"), True
        if self.readable and source.draws("readable_alone"):
            self.writable = False
        own = [source.readable] * self.readable + [source.writable] * self.writable
        if source.draws("split_derives"):
            lines += [f"#[derive({', '.join(named)})]"] * bool(named) + [f"#[derive({', '.join(own)})]"]
        else:
            lines.append(f"#[derive({', '.join(named + own if self.random.random() < 0.8 else own + named)})]")
        if serde and source.draws("serde_attributes"):
            lines.append(self.random.choice(['#[serde(rename_all = "camelCase")]', "#[serde(deny_unknown_fields)]"]))
        lines += self.representation(traits)
        lines += ["#[non_exhaustive]"] * source.draws("non_exhaustive")
        lines += self.speedy_settings()
        text = "".join(f"{line}\n" for line in lines)
        noise = source.words.noise("", "item")
        return text + noise if self.random.random() < 0.5 else noise + text

    def representation(self, traits):
        """A `repr`, or none. Discriminants beside variants with parts need one in Rust."""
        source = self.source
        if self.is_enum:
            has_parts = any(it["shape"] != "variant_unit" for it in self.variants)
            if (self.discriminants and has_parts) or source.draws("repr_number"):
                self.number = self.random.choice(["u8", "u16", "u32", "i64"])
                return [f"#[repr({self.number})]"]
            self.number = "isize"
            return []
        if source.draws("repr_c"):
            return ["#[repr(C)]"]
        if len(self.fields) == 1 and source.draws("repr_transparent"):
            return ["#[repr(transparent)]"]
        if not traits and self.fields and source.draws("repr_packed"):
            return [self.random.choice(["#[repr(packed)]", "#[repr(C, packed(2))]", "#[repr(align(8))]"])]
        return []

    def speedy_settings(self):
        """The settings of the item."""
        source, found = self.source, []
        if self.is_enum and self.tag_type != "u32" or self.is_enum and self.random.random() < 0.05:
            found.append(f"tag_type = {self.tag_type}")
        if self.is_enum and source.draws("peek_tag"):
            found.append("peek_tag")
        if self.recursive:
            found.append(f"depth = {self.random.choice([2, 5, 8, 16, 32])}")
        elif source.draws("depth"):
            found.append("depth = 16")
        return [f"#[speedy({', '.join(found)})]"] if found else []

    def head(self):
        """The item up to its body, without lines of `where`."""
        source = self.source
        found = [self.lifetime] if self.lifetime else []
        self.wheres = []
        for parameter in self.parameters:
            if parameter.role == "const":
                default = " = 4" if parameter is self.parameters[-1] and source.draws("const_defaults") else ""
                found.append(f"const {parameter.name}: usize{default}")
                continue
            bounds = self.bounds_of(parameter)
            if bounds and source.draws("wheres"):
                self.wheres.append(f"{parameter.name}: {bounds}")
                bounds = ""
            default = f" = {parameter.default}" if parameter.default else ""
            found.append(parameter.name + (f": {bounds}" if bounds else "") + default)
        generics = f"<{', '.join(found)}>" if found else ""
        shown = source.words.visibility() if source.draws("item_visibility") else "pub "
        return f"{shown}{'enum' if self.is_enum else 'struct'} {self.name}{generics}"

    def bounds_of(self, parameter):
        """The bounds that its declaration has."""
        path = self.source.path
        found = []
        if parameter.bounded:
            if parameter.role == "ordered":
                found = ["Ord"]
            elif parameter.role == "hashed":
                found = ["Eq", path("std::hash", "Hash")]
            else:
                found = self.random.choice([["Clone"], [path("std::fmt", "Debug")], ["PartialEq"], ["Default"],
                                            ["Clone", path("std::fmt", "Debug")], ["Copy"]])
        if self.lifetime and parameter.role == "plain" and self.source.draws("outlives"):
            found = [self.lifetime, *found]
        return " + ".join(found)

    # Its body.

    def body(self):
        """The fields or the variants, with the lines of `where`."""
        wheres = "\nwhere\n" + "".join(f"    {it},\n" for it in self.wheres) if self.wheres else ""
        if self.is_enum:
            return f"{wheres or ' '}{{\n{self.variant_lines()}}}\n"
        if self.shape == "unit":
            return f"{wheres};\n"
        if self.shape == "empty":
            return f"{wheres or ' '}{{}}\n"
        if self.shape == "tuple":
            return f"({self.tuple_fields(self.fields)}){wheres};\n"
        if self.source.draws("one_line") and not self.has_lines(self.fields):
            return f"{wheres or ' '}{{ {', '.join(self.plain(it) for it in self.fields)} }}\n"
        return f"{wheres or ' '}{{\n{self.field_lines(self.fields, '    ')}}}\n"

    def has_lines(self, fields):
        """Whether some field has documentation or attributes on lines of their own."""
        return any(it.docs or it.noise or it.settings for it in fields)

    def plain(self, it):
        """A field without what stands before it."""
        return f"{it.visibility}{it.name}: {it.kind.text}" if it.name else f"{it.visibility}{it.kind.text}"

    def field_lines(self, fields, indent):
        """Named fields, a line each."""
        found = []
        for it in fields:
            text = self.source.words.comment(indent) + it.docs.replace("    ///", f"{indent}///")
            in_line = len(it.settings) == 1 and not self.source.draws("attribute_lines")
            text += it.noise + attributes(self.source, it, indent, " " if in_line else "\n")
            found.append(text + ("" if in_line else indent) + self.plain(it))
        end = self.random.choice([",\n", ",\n", "\n"]) if found else ""
        return ",\n".join(found) + end

    def tuple_fields(self, fields):
        """The fields of a tuple."""
        if not self.has_lines(fields):
            return ", ".join(self.plain(it) for it in fields)
        lines = [it.docs + it.noise + attributes(self.source, it, "    ", "\n") + "    " + self.plain(it)
                 for it in fields]
        return "\n" + ",\n".join(lines) + ",\n"

    def variant_lines(self):
        """The variants."""
        has_default, found = "Default" in self.derived, ""
        self.tagged = self.source.draws("tags")
        self.offset = self.random.choice([it for it in (0, 0, 40, 100, 1000) if it + 130 < TAGS[self.tag_type]] or [0])
        for variant in self.variants:
            is_default = has_default and variant["shape"] == "variant_unit"
            has_default = has_default and not is_default
            found += self.source.words.comment("    ") + variant["docs"]
            found += "    #[default]\n" * is_default + self.variant(variant)
        return found

    def variant(self, variant):
        """A variant, with its tag."""
        before, behind = self.tag_of(variant)
        shape, fields = variant["shape"], variant["fields"]
        inner = {"variant_unit": "", "variant_empty": "()", "variant_braces": " {}"}.get(shape)
        if inner is None and shape == "variant_tuple":
            inner = f"({self.tuple_fields(fields)})"
        elif inner is None and self.source.draws("one_line") and not self.has_lines(fields):
            inner = f" {{ {', '.join(self.plain(it) for it in fields)} }}"
        elif inner is None:
            inner = f" {{\n{self.field_lines(fields, '        ')}    }}"
        return f"{before}    {variant['name']}{inner}{behind},\n"

    def tag_of(self, variant):
        """What says the tag: an attribute before the variant, or a discriminant behind it, where it is not one more
        than the last. Both only grow, so none comes twice."""
        before = behind = ""
        is_told = self.random.random() < 0.7
        if self.tagged and is_told:
            kind = {"u7": "u8", "u64_varint": "u64"}.get(self.tag_type, self.tag_type)
            before = f"    #[speedy(tag = {self.number_text(variant['tag'] + self.offset, kind)})]\n"
        if self.discriminants and is_told:
            behind = f" = {self.number_text(variant['tag'], self.number)}"
        return before, behind

    def number_text(self, value, kind):
        """A number as an expression of this type."""
        source = self.source
        if source.draws("tag_constants"):
            for name, constant in source.constants.items():
                if constant <= value:
                    return f"{name} as {kind} + {value - constant}"
        if source.draws("tag_sums"):
            return f"{value // 2} * 2 + {value % 2}"
        if value < 256 and source.draws("tag_casts"):
            return f"({value + 256}u32 as u8) as {kind}"
        if source.draws("tag_bases"):
            return self.random.choice([hex(value), bin(value), f"{value}_{kind}", f"0o{value:o}"])
        return str(value)
