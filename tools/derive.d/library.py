"""Makes a library for callers in C, C++, Python and Rust of the types of a Rust file: a crate of Rattle with a call for
each type, and in its folder `callers` what declares these calls in each language."""
import re
import shutil
import zlib
from dataclasses import dataclass
from pathlib import Path

import library_scripts
import rattle
import syntax
import view_answers
from c_header import header_text
from module import Made
from names import Fresh
from parse import parse
from python_wrapper import python_text
from refusal import Refusal
from rust_wrapper import rust_text
from view_types import ViewTypes, shown_type, source_type
from views import NUMBERS, Views, listed_kinds, lists
from whole import ends_early, ends_with_input
from words import FOLDED, KEYWORDS, PRELUDE, TACTICS

# Each made file says so, and only such files are written over.
MARK = "by `tools/derive --library`"
# What the module of calls names besides the types.
OF_CALLS = ("Global", "Layout", "Whole", "View", "Checks", "ChecksWhole", "Reads", "Steps", "Writes", "Walk",
            "check", "check_whole", "read", "next", "write")
# No name of a library: what the kit makes lies in folders and files of these names, or a language has the word.
NO_LIBRARY = frozenset("""
    bin checked obj rlib staticlib wasm lib syntax theown deriving callers build test core std
    auto char double float goto int long register short signed sizeof switch typedef unsigned void volatile inline
    restrict and and_eq asm bitand bitor bool catch class compl concept constexpr decltype delete explicit export friend
    mutable namespace new noexcept not not_eq nullptr operator or or_eq private protected public requires template this
    throw typeid typename using wchar_t xor xor_eq default case
    assert def del elif except exec finally from global import is lambda nonlocal none pass raise try with
    len list tuple bytes object ord chr print isinstance hasattr getattr sys ctypes struct enum
    """.split())


@dataclass(frozen=True)
class Exported:
    """A type that has a call: its path below the file's module, its documentation, and how its call reads it."""
    line: int
    path: tuple
    docs: tuple
    has_lifetime: bool
    is_whole: bool
    # Whether it is made of what its parts read, since some of them may be missing.
    ends_early: bool

    @property
    def read_as(self):
        """The name of the type that its call reads."""
        return f"{self.name}Parts" if self.ends_early else self.name

    @property
    def name(self):
        """Its own name."""
        return self.path[-1]

    @property
    def snake(self):
        """Its path as names of functions have it."""
        return "_".join(snake(it) for it in self.path)

    @property
    def python(self):
        """The name of its class in Python, whose module has a few others."""
        return self.camel + "Type" * (self.camel in ("Order", "Kind", "Refused", "ValueError", "ImportError"))

    @property
    def camel(self):
        """Its path as names of types have it."""
        return "".join(it if it[0].isupper() else "".join(map(str.capitalize, it.split("_"))) for it in self.path)


def snake(name):
    """`SomeName` as `some_name`."""
    return re.sub(r"(?<=[a-z0-9])(?=[A-Z])|(?<=[A-Z])(?=[A-Z][a-z])", "_", name).lower()


def public(file):
    """The paths of those types of a file that others see."""
    found = set()
    for item in file.items:
        if item.visibility.strip() != "pub":
            continue
        if isinstance(item, syntax.Declared):
            found.add((item.name,))
        elif isinstance(item, syntax.Module):
            found |= {(item.name, *path) for path in public(item.file)}
    return found


def exported(file, shown, path=()):
    """The types of a file with a call, in their order. `shown` are the paths of those that others see."""
    found = []
    for item in file.items:
        place = (*path, item.name)
        if isinstance(item, syntax.Module):
            found += exported(item.file, shown, place)
        if not isinstance(item, syntax.Declared) or place not in shown or not item.readable:
            continue
        for parameter in item.parameters:
            if parameter.kind != "lifetime":
                raise Refusal(parameter.line, f"`{item.name}` has the parameter `{parameter.name}`, and callers in "
                                              "other languages name no arguments: make it `pub(crate)`, and hold it "
                                              "with arguments in a type that has none")
        is_whole = isinstance(item, syntax.Struct) and ends_with_input(item)
        docs = tuple(it.removeprefix(" ").rstrip() for it in item.docs)
        found.append(Exported(item.line, place, docs, bool(item.parameters), is_whole, ends_early(item)))
    return found


def declared(file, path=()):
    """The structs and enums of a file, by their paths."""
    found = {}
    for item in file.items:
        place = (*path, item.name)
        if isinstance(item, syntax.Module):
            found |= declared(item.file, place)
        elif isinstance(item, syntax.Declared):
            found[place] = item
    return found


class Library:
    """What is made of a file: `files` has each text by its path in the crate's folder."""

    def __init__(self, name, source, file_name):
        self.name = name
        self.file_name = file_name
        self.module = Path(file_name).stem.replace("-", "_")
        if self.module in KEYWORDS | {"lib", "main", name} or not self.module.isidentifier():
            self.module = "types"
        self.make(source, [name, self.module])
        text = self.made.text
        self.docs = [it.removeprefix(" ").rstrip() for it in self.made.file.docs]
        # What a program compares, to see that its header and its library were made of one file.
        self.source = zlib.crc32(source.encode())
        self.notes = [*self.made.notes, *self.reasons.values()]
        self.files = {f"src/{self.module}.rt": text, "src/lib.rt": self.calls(), **self.made.answers, **self.callers()}
        if self.views.by_path:
            self.files["src/views.rt"] = laid_out(ViewTypes(self).text())
            self.files |= view_answers.answers(self)

    def make(self, source, place):
        """Makes the module, in which those types borrow whose values are shown then."""
        kept, self.reasons = set(), {}
        while True:
            self.made = Made(source, self.file_name, place, kept)
            self.types = exported(self.made.file, public(parse(source)))
            self.check_names()
            self.views = Views(self.types, declared(self.made.file))
            # What a type lacks is said of what it would borrow, where it borrows nothing for that.
            self.reasons = self.views.reasons | self.reasons
            more = self.made.lent - set(self.views.by_path)
            if not more:
                break
            kept |= more
        # What lists hold beside types of the file.
        self.listed = listed_kinds(self.views)
        self.check_lists()

    def check_names(self):
        """Refuses types whose calls would have one name, and a file that has none to be called."""
        if not self.types:
            raise Refusal(1, "no type of this file is `pub` and derives `Readable`, so there is nothing to call")
        taken = {}
        for it in self.types:
            for name in (it.snake, it.camel.lower()):
                other = taken.setdefault(name, it)
                if other is not it:
                    raise Refusal(it.line, f"the calls of `{'::'.join(it.path)}` would be named as those of "
                                           f"`{'::'.join(other.path)}`: give one of them another name")

    def check_lists(self):
        """Refuses a type whose calls or structs would be named as those of lists."""
        taken = {*(it.label for it in self.listed), *["list"] * bool(lists(self.views))}
        for it in self.types:
            if it.snake in taken:
                raise Refusal(it.line, f"`{'::'.join(it.path)}` is named as what callers have for lists: give it "
                                       "another name")

    @property
    def calls_made(self):
        """The names of all calls."""
        found = [f"{self.name}_source"]
        for it in self.types:
            found.append(f"{self.name}_{it.snake}_check{'_whole' * it.is_whole}")
            if it.path in self.views.by_path:
                found += [f"{self.name}_{it.snake}_read", f"{self.name}_{it.snake}_next"]
            if self.is_written(it):
                found.append(f"{self.name}_{it.snake}_write")
        return found + [f"{self.name}_{it.label}_next" for it in self.listed]

    def is_written(self, it):
        """Whether a type has a call that writes it."""
        view = self.views.by_path.get(it.path)
        return view is not None and view.item.writable

    def callers(self):
        """The files for callers, by their paths."""
        made = {f"{self.name}.h": header_text(self), f"{self.name}.py": python_text(self),
                f"{self.name}.rs": rust_text(self), **library_scripts.texts(self)}
        return {f"callers/{path}": text for path, text in made.items()}

    # The module of calls.

    def calls(self):
        """The module of calls, as the kit's formatter lays it out."""
        fresh = Fresh(OF_CALLS)
        fresh.take(*PRELUDE, *TACTICS, "u8", "u32", "usize", *NUMBERS, "F32", "F64")
        names = {it: fresh.name(it.read_as) for it in self.types}
        views = ["pub mod views;"] if self.views.by_path else []
        lines = [f"//! What callers in other languages call for the types of `{self.file_name}`.", "//!",
                 f"//! Made from `{self.file_name}` {MARK}: change that, and make this again.", "#![tactic(auto)]", "",
                 *self.imports(names), "", f"pub mod {self.module};", *views, ""]
        lines += ["/// Tells the file that this library was made of: a header of the same file has this number.",
                  "#[unsafe(no_mangle)]", f'pub extern "C" fn {self.name}_source() -> u32',
                  f"    ensures {{ result ≡ {self.source} }}", "{", f"    {self.source}", "}"]
        for it in self.types:
            lines += ["", *self.call(it, names[it])]
            if it.path in self.views.by_path:
                lines += ["", *self.read_call(it, names[it])]
            if self.is_written(it):
                lines += ["", *self.write_call(it, names[it])]
        for it in self.listed:
            lines += ["", *self.item_call(it)]
        return laid_out("\n".join(lines) + "\n")

    def imports(self, names):
        """The imports of the module of calls."""
        wholes = [it for it in self.types if it.is_whole]
        views = list(self.views)
        words = ["Checks"] * (len(wholes) < len(self.types)) + ["ChecksWhole"] * bool(wholes)
        is_written = any(map(self.is_written, self.types))
        words += ["Reads", "Steps"] * bool(views) + ["Writes"] * is_written
        calls = ["check"] * (len(wholes) < len(self.types)) + ["check_whole"] * bool(wholes)
        calls += ["View", "Walk", "next", "read"] * bool(views) + ["write"] * is_written
        floats = [source_type(it) for it in self.listed if it.what == "float"]
        found = ["ghost use Rattle.std.specs.Prelude.{◌≡◌};",
                 f"ghost use Rattle.speedy.specs.Exports.{{{', '.join(words)}}};", ""]
        for it in self.types:
            path = "::".join(("crate", self.module, *it.path[:-1], it.read_as))
            found.append(f"use {path}{'' if names[it] == it.read_as else f' as {names[it]}'};")
        if views:
            found.append(f"use crate::views::{{{', '.join(f'{it.camel}View' for it in views)}}};")
        found += [f"use speedy::exports::{{{', '.join(calls)}}};"]
        found += [f"use speedy::{it};" for it in floats]
        found += ["use speedy::Layout;"] * ("check" in calls) + ["use speedy::whole::Whole;"] * bool(wholes)
        return [*found, "use std::alloc::Global;"]

    def call(self, it, name):
        """The call of a type."""
        life, of = ("<'a>", "&'a [u8]") if it.has_lifetime else ("", "&[u8]")
        name += life
        if it.is_whole:
            return [f"/// Says whether bytes, all of them, are an encoding of [`{it.name}`].", "#[unsafe(no_mangle)]",
                    f'pub extern "C" fn {self.name}_{it.snake}_check_whole{life}(alloc: Global, bytes: {of}, '
                    "order: u32) -> u32",
                    f"    ensures {{ ChecksWhole ⟦<{name} as Whole>⟧.whole order bytes.now result }}",
                    "{", f"    check_whole::<{name}>(alloc, bytes, order)", "}"]
        return [f"/// Says whether bytes begin with an encoding of [`{it.name}`].", "#[unsafe(no_mangle)]",
                f'pub extern "C" fn {self.name}_{it.snake}_check{life}(alloc: Global, bytes: {of}, order: u32, '
                "size: &mut usize) -> u32",
                f"    ensures {{ Checks ⟦<{name} as Layout>⟧.layout order bytes.now result size.new }}",
                "{", f"    check::<{name}>(alloc, bytes, order, size)", "}"]

    def read_call(self, it, name):
        """The call that reads a type into its view."""
        view = self.views.by_path[it.path]
        life = "<'a>" if it.has_lifetime or view.borrows else ""
        of = "&'a [u8]" if life else "&[u8]"
        name += "<'a>" if it.has_lifetime else ""
        shown = f"{view.camel}View" + ("<'a>" if view.borrows else "")
        seen = [f"    ensures {{ let it = ⟦<{name} as Layout>⟧ in",
                f"        let shows = ⟦<{shown} as View<{name}>>⟧.shows in"]
        return [f"/// Reads a [`{it.name}`] that bytes begin with, and shows it.", "#[unsafe(no_mangle)]",
                f'pub extern "C" fn {self.name}_{it.snake}_read{life}(alloc: Global, bytes: {of}, order: u32, '
                f"view: &mut {shown}, size: &mut usize) -> u32",
                *seen, "        Reads it.seen shows it.layout order bytes.now result size.new view.old view.new }",
                "{", f"    read::<{name}, {shown}>(alloc, bytes, order, view, size)", "}", "",
                f"/// Takes a [`{it.name}`] from a walk, and shows it.", "#[unsafe(no_mangle)]",
                f"pub extern \"C\" fn {self.name}_{it.snake}_next<'a>(alloc: Global, walk: &mut Walk<'a>, order: u32, "
                f"view: &mut {shown}) -> u32",
                *seen, "        Steps it.seen shows it.layout order walk.old.left.now walk.new.left.now result",
                "        view.old view.new }",
                "{", f"    next::<{name}, {shown}>(alloc, walk, order, view)", "}"]


    def write_call(self, it, name):
        """The call that writes a type."""
        view = self.views.by_path[it.path]
        life = "<'a>" if it.has_lifetime or view.borrows else ""
        name += "<'a>" if it.has_lifetime else ""
        shown = f"{view.camel}View" + ("<'a>" if view.borrows else "")
        return [f"/// Writes the [`{it.name}`] that a view shows.", "#[unsafe(no_mangle)]",
                f'pub extern "C" fn {self.name}_{it.snake}_write{life}(alloc: Global, view: &{shown}, order: u32, '
                "buffer: &mut [u8], size: &mut usize) -> u32",
                f"    ensures {{ let it = ⟦<{name} as Layout>⟧ in",
                f"        let shows = ⟦<{shown} as View<{name}>>⟧.shows in",
                "        Writes it.seen shows it.layout view.now order result size.new buffer.old buffer.new }",
                "{", f"    write::<{name}, {shown}>(alloc, view, order, buffer, size)", "}"]

    def item_call(self, kind):
        """The call that takes an item of a list, which is of no type of the file."""
        name, shown = source_type(kind), shown_type(kind)
        return [f"/// Takes an item of a list of `{name}`.", "#[unsafe(no_mangle)]",
                f"pub extern \"C\" fn {self.name}_{kind.label}_next<'a>(alloc: Global, walk: &mut Walk<'a>, "
                f"order: u32, item: &mut {shown}) -> u32",
                f"    ensures {{ let it = ⟦<{name} as Layout>⟧ in",
                f"        let shows = ⟦<{shown} as View<{name}>>⟧.shows in",
                "        Steps it.seen shows it.layout order walk.old.left.now walk.new.left.now result",
                "        item.old item.new }",
                "{", f"    next::<{name}, {shown}>(alloc, walk, order, item)", "}"]


def laid_out(text):
    """A module as the kit's formatter lays it out."""
    found = rattle.formatted(text)
    if found is None:
        raise Refusal(1, "what is made of this file is no module of Rattle: please report it, with this file")
    return found


def refuse_name(name):
    """Why a library has not this name, or None."""
    if not re.fullmatch(r"[a-z][a-z0-9_]*", name) or name.endswith("_") or "__" in name:
        return "a library's name is of lowercase letters, digits and single `_` between them"
    if name in KEYWORDS | TACTICS | NO_LIBRARY or name in FOLDED:
        return f"a library is not named `{name}`, which is a word of a language that calls it, or of the kit"
    tool = shutil.which("rt")
    if tool and (Path(tool).resolve().parent.parent / "rlibs" / f"{name}.rlib").exists():
        return f"a library is not named `{name}`, as one of the kit is"
    return None


def deps_of(text):
    """The libraries of the kit that a made module names, beside `speedy`."""
    return [it for it in ("indexmap", "smallvec", "uuid") if re.search(rf"(?m)^use {it}::", text)]


class Folder:
    """Where a library is written: the crate of its name, in the repository whose top this folder is."""

    def __init__(self, top, library):
        self.top, self.library = Path(top), library
        self.crate = self.top / "crates" / library.name
        self.crates = self.top / "crates.txt"
        self.line = " ".join([f"{library.name} staticlib:", "speedy",
                              *deps_of(library.files[f"src/{library.module}.rt"])])

    def refusal(self):
        """Why nothing is written, or None."""
        if not self.crates.is_file():
            return f"{self.crates}: there is none: run this at the top of a repository"
        named = self.named()
        if named and not re.match(r"\S+\s+staticlib\b", named):
            return f"{self.crates}: `{self.library.name}` is no static library there"
        root = self.crate / "src" / "lib.rt"
        if root.exists() and MARK not in root.read_text(encoding="utf-8"):
            return f"{root} was not made {MARK}: give the library another name"
        return None

    def named(self):
        """The line of crates.txt that names the library, or None."""
        text = self.crates.read_text(encoding="utf-8")
        found = re.search(rf"(?m)^{re.escape(self.library.name)}(?=[\s:]).*$", text)
        return found and found[0]

    def differing(self):
        """The first file that is not what the library makes, or None."""
        for path, text in self.library.files.items():
            path = self.crate / path
            if not path.is_file() or path.read_text(encoding="utf-8") != text:
                return path
        return None

    def write(self):
        """Writes the files, and names the crate in crates.txt."""
        for path, text in self.library.files.items():
            path = self.crate / path
            path.parent.mkdir(parents=True, exist_ok=True)
            path.write_text(text, encoding="utf-8")
            if text.startswith("#!"):
                path.chmod(0o755)
        named, text = self.named(), self.crates.read_text(encoding="utf-8")
        if named is None:
            text += ("" if text.endswith("\n") or not text else "\n") + self.line + "\n"
        else:
            text = text.replace(named, self.line)
        self.crates.write_text(text, encoding="utf-8")
