"""What random Rust files are drawn from: which productions there are, how likely each is, and how files name paths."""
import random

from random_words import OTHERS, Words

# How likely it is that a production is drawn where it could stand.
CHANCES = {
    # Of a file.
    "bom": 0.02, "crlf": 0.06, "inner_docs": 0.15, "use_star": 0.02, "use_groups": 0.3, "use_renames": 0.06,
    "use_module": 0.06, "full_paths": 0.08, "derive_renames": 0.03, "derive_paths": 0.06, "use_self": 0.1,
    "constants": 0.3, "aliases": 0.15, "collisions": 0.06, "key_types": 0.2, "item_visibility": 0.4,
    # Of items.
    "docs": 0.25, "odd_docs": 0.3, "block_docs": 0.01, "doc_attribute": 0.006, "comments": 0.08, "visibility": 0.12,
    "pub_in": 0.1, "lints": 0.04, "hidden": 0.006, "cfg_attr": 0.03, "cfg": 0.004, "odd_types": 0.12,
    "raw_names": 0.004, "foreign_names": 0.002,
    "parameters": 0.3, "odd_parameters": 0.25, "lifetimes": 0.3, "odd_lifetimes": 0.2, "const_generics": 0.25,
    "defaults": 0.15, "const_defaults": 0.05, "bounds": 0.3, "wheres": 0.4, "outlives": 0.1, "skip_marker": 0.1,
    "derives": 0.75, "odd_derives": 0.12, "serde": 0.08, "serde_attributes": 0.5, "split_derives": 0.15,
    "repr_c": 0.05, "repr_transparent": 0.4, "repr_packed": 0.02, "repr_number": 0.1, "non_exhaustive": 0.04,
    "readable_alone": 0.04, "writable_alone": 0.06, "depth": 0.01, "one_line": 0.15,
    "recursive_structs": 0.06, "recursive_enums": 0.08,
    # Of enums.
    "enums": 0.45, "many_variants": 0.04, "odd_variants": 0.1, "tag_type": 0.4, "discriminants": 0.3, "tags": 0.2,
    "tag_sums": 0.2, "tag_constants": 0.2, "tag_casts": 0.05, "tag_bases": 0.2, "peek_tag": 0.02,
    # Of fields.
    "odd_fields": 0.12, "skip": 0.08, "varint": 0.1, "length_type": 0.12, "constant_prefix": 0.08, "length": 0.3,
    "default_on_eof": 0.01, "length_to_end": 0.01, "split_settings": 0.2, "many_fields": 0.08, "attribute_lines": 0.5,
    "no_fields": 0.05,
    # Of lengths.
    "length_of_map": 0.08, "length_of_value": 0.02, "length_of_option": 0.02, "length_constant": 0.15,
    "length_type_of_loan": 0.15, "length_type_of_option": 0.2, "length_sum": 0.5, "length_bits": 0.06,
    "length_if": 0.04, "length_method": 0.05, "length_field_of_field": 0.04, "length_signed": 0.03,
    "length_from": 0.02, "length_bases": 0.2, "length_cast": 0.4,
    # Of types.
    "array_constant": 0.2, "array_sum": 0.04, "array_parameter": 0.4, "hashers": 0.05,
    "long_arrays": 0.05, "static_loan": 0.1,
} | {f"item_{name}": 0.008 for name in OTHERS}

# What the generator refuses today, by its reasons or until it is done.
REFUSED = frozenset("""pub_in foreign_names const_defaults depth peek_tag length_of_option
    skip_arc skip_cell system_time atomic static_loan hashers""".split())

# What is rare in a file of one other production, so that nothing else fails there.
ODD = ("odd_docs", "odd_fields", "odd_types", "odd_parameters", "odd_variants", "odd_derives", "serde", "collisions",
       "use_renames", "full_paths", "use_module", "skip", "key_types")
# Productions that name another type of the file.
OF_TYPES = ("own", "skip_own", "key_own", "length_field_of_field", "length_of_value")
PRELUDE = ("std::vec", "std::string", "std::option", "std::result", "std::boxed")


class Source:
    """The source of random numbers of one file, and what stands in the file so far."""

    def __init__(self, seed, only_taken=False, features=None, wanted=None):
        self.random = random.Random(seed)
        self.left_out = REFUSED if only_taken else frozenset()
        self.features = features
        # A production that is to stand in the file, and so is drawn nearly wherever it can be.
        self.wanted = wanted
        self.used = set()
        self.words = Words(self)
        # Names of the file, and by its path how each other name is written and what is imported for it.
        self.names, self.written, self.brought = set(), {}, set()
        # What later parts may name: constants of `usize` with their values, aliases, types.
        self.constants, self.aliases, self.types = {}, [], []

    def allows(self, name):
        """Whether a production may stand in this file."""
        if name in self.left_out and name != self.wanted:
            return False
        return self.features is None or name in self.features or name == self.wanted

    def draws(self, name):
        """Whether a production is drawn here."""
        is_rare = self.wanted and name in ODD and self.wanted not in OF_TYPES
        chance = CHANCES[name] * (0.1 if is_rare else 1)
        drawn = self.random.random() < (0.9 if name == self.wanted else chance)
        if drawn and self.allows(name):
            self.used.add(name)
            return True
        return False

    def one_of(self, table, skipped=()):
        """A name of a table of weights."""
        usable = [name for name in table if name not in skipped]
        names = [name for name in usable if self.allows(name)] or usable[:1]
        weights = [table[name] * (40 if name == self.wanted else 1) for name in names]
        name = self.random.choices(names, weights)[0]
        self.used.add(name)
        return name

    def path(self, module, name):
        """A name of a module of std or another crate, as this file writes it."""
        full = f"{module}::{name}"
        if full not in self.written:
            self.written[full] = self.way_to(module, name)
        return self.written[full]

    def way_to(self, module, name):
        """How a file writes such a name."""
        has_path = self.draws("full_paths")
        if module in PRELUDE and name not in self.names and not (has_path and self.random.random() < 0.3):
            return name
        if name in self.names or has_path:
            return f"{module}::{name}"
        last = module.rpartition("::")[2]
        if self.draws("use_renames"):
            self.brought.add(f"{module}::{name} as My{name}")
            return f"My{name}"
        if "::" in module and last not in self.names and self.draws("use_module"):
            self.brought.add(module)
            return f"{last}::{name}"
        self.brought.add(f"{module}::{name}")
        return name

    def uses(self):
        """The lines of `use`."""
        leaves = sorted(self.brought)
        if not self.draws("use_groups"):
            return [f"use {leaf};" for leaf in leaves]
        self.random.shuffle(leaves)
        return [f"use {group};" for group in grouped([leaf.split("::") for leaf in leaves])]


def grouped(paths):
    """Trees of `use` of these paths, by their first parts."""
    found = {}
    for path in paths:
        found.setdefault(path[0], []).append(path[1:])
    made = []
    for first, rests in found.items():
        inner = grouped([rest for rest in rests if rest])
        if [] in rests:
            inner.insert(0, "self")
        if not inner or inner == ["self"]:
            made.append(first)
        elif len(inner) == 1:
            made.append(f"{first}::{inner[0]}")
        else:
            made.append(f"{first}::{{{', '.join(inner)}}}")
    return made
