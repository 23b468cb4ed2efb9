"""Inputs that once ended in a traceback, took for ever, or were not told what is wrong: a name, the source, and what is
wanted of it: words of the refusal, `MADE`, or None for either."""
import os
import subprocess
import tempfile
from pathlib import Path

HEAD = "use speedy::{Readable, Writable};\n"
DERIVES = "#[derive(Readable, Writable)]\n"
MADE = "(made)"
SOURCE = HEAD + "/// λ ⟦ ≡ 🦀\n" + DERIVES + "pub struct A { pub a: u8 }\n"


def part(kind, head=HEAD, generics=""):
    """A struct of one part of this type."""
    return f"{head}{DERIVES}pub struct A{generics} {{ pub a: {kind} }}\n"


def told(length, kind="u8", head=HEAD):
    """A struct with a length."""
    return f"{head}{DERIVES}pub struct A {{ pub n: {kind}, #[speedy(length = {length})] pub a: Vec<u8> }}\n"


def tagged(tag, head=HEAD):
    """An enum of one variant with a tag."""
    return f"{head}{DERIVES}#[speedy(tag_type = u8)]\npub enum A {{ #[speedy(tag = {tag})] B }}\n"


def nested(before, inner, behind, count=200):
    """What is nested so deep."""
    return before * count + inner + behind * count


HOSTILE = [
    # Arguments of types.
    ("a lifetime for a type", part("Vec<'a>", generics="<'a>"), "Vec"),
    ("a number for a type", part("Vec<5>"), "Vec"),
    ("no arguments", part("Vec<>"), "Vec"),
    ("none at all", part("Vec"), "Vec"),
    ("a lifetime for an option", part("Option<'a, u8>", generics="<'a>"), "Option"),
    ("a number for a key", part("std::collections::HashMap<3, u8>"), None),
    ("a lifetime for a key", part("std::collections::BTreeSet<'a>", generics="<'a>"), None),
    ("a number for a box", part("Box<7>"), None),
    ("a lifetime for a box", part("Box<'a>", generics="<'a>"), None),
    ("a number for a cow", part("std::borrow::Cow<'a, 5>", generics="<'a>"), None),
    ("a lifetime for a cow's value", part("std::borrow::Cow<'a, 'a>", generics="<'a>"), None),
    ("a number for a range", part("std::ops::Range<5>"), None),
    ("a lifetime in a tuple", part("(u8, 'a)", generics="<'a>"), "type is missing"),
    ("a type for a number",
     HEAD + DERIVES + "pub struct B<const N: usize>([u8; N]);\n" + DERIVES + "struct A(B<u8>);\n",
     None),
    ("a number for a parameter", HEAD + DERIVES + "pub struct B<T>(T);\n" + DERIVES + "struct A(B<5>);\n", None),
    ("a lifetime for a parameter", HEAD + DERIVES + "pub struct B<T>(T);\n" + DERIVES + "struct A<'a>(B<'a>);\n", None),
    ("a small vector of nothing", part("smallvec::SmallVec<u8>"), "SmallVec"),
    ("a hasher that is a number", part("std::collections::HashMap<u8, u8, 5>"), None),
    # Letters that Python takes for digits or blanks.
    ("a raised digit", part("u8²"), "no token"),
    ("a digit of another script", told("٣"), "no token"),
    ("a raised digit alone", tagged("²"), "no token"),
    ("a fraction", tagged("½"), "no token"),
    ("a null", HEAD + "\0" + DERIVES + "struct A;\n", "no token"),
    ("the name of a type in another script", HEAD + DERIVES + "struct Größe(u8);\n", None),
    # Numbers.
    ("constants that name each other", HEAD + "const A1: usize = B1;\nconst B1: usize = A1;\n" + tagged("A1", ""),
     "A1"),
    ("a constant that names itself", HEAD + "const A1: usize = A1 + 1;\n" + tagged("A1", ""), "A1"),
    ("a constant that names itself as a length", HEAD + "const N: usize = N;\n" + told("N", head=""), "N"),
    ("constants in a ring as the length of an array",
     "const A1: usize = B1;\nconst B1: usize = A1;\n" + part("[u8; A1]"), None),
    ("a number of 4,301 digits", tagged("1" + "0" * 4300), None),
    ("a length of 4,301 digits", told("1" + "0" * 4300), None),
    ("an array of 4,301 digits", part(f"[u8; 1{'0' * 4300}]"), None),
    ("a prefix of 4,301 digits", HEAD + DERIVES + f"struct A(#[speedy(constant_prefix = 1{'0' * 4300}_u8)] u8);\n",
     None),
    ("a hexadecimal number of 4,000 digits", tagged("0x" + "f" * 4000), None),
    ("a product past all bounds", tagged(" * ".join(["0xffff_ffff_ffff_ffff"] * 300)), None),
    ("a shift past all bounds", tagged("1 << 127 << 127 << 127 << 127"), None),
    ("a shift of below nothing", tagged("1 << -1"), None),
    ("a division by zero", tagged("1 / 0"), None),
    ("a remainder by zero", tagged("1 % 0"), None),
    ("a cast that loses bits as a tag", tagged("(256u32 as u8)"), None),
    ("a cast that loses its sign as a tag", tagged("(-1i8 as u8)"), None),
    ("a float as a tag", tagged("1.5"), None),
    ("a text as a tag", tagged('"a"'), None),
    ("a flag as a tag", tagged("true"), None),
    ("a text as a length", told('"a"'), None),
    ("a list as a length", told("[1, 2]"), None),
    ("a range as a tag", tagged(".."), None),
    ("a range in a sum", told("1 + .."), None),
    # What is deep or long.
    ("lists in lists", part(nested("Vec<", "u8", ">")), None),
    ("options in options", part(nested("Option<", "u8", ">", 150)), None),
    ("tuples in tuples", part(nested("(", "u8", ",)")), None),
    ("arrays in arrays", part(nested("[", "u8", "; 1]")), None),
    ("brackets in brackets", part(nested("(", "u8", ")", 3000)), None),
    ("brackets that stay open", HEAD + "(" * 3000, None),
    ("references in references", part("&'a " * 200 + "u8", generics="<'a>"), None),
    ("a sum of 2,000 terms", told(" + ".join(["n"] * 2000), "usize"), None),
    ("a sum of 2,000 numbers as a tag", tagged(" + ".join(["0"] * 2000)), None),
    ("a difference of 2,000 terms", told("n" + " - 1" * 2000), None),
    ("brackets around a length", told(nested("(", "n", ")", 1000)), None),
    ("signs before a number", tagged("-" * 2000 + "1"), None),
    ("casts behind a number", told("n" + " as usize" * 2000), None),
    ("2,000 constants, each one more", "const C0: usize = 0;\n" + "".join(
        f"const C{it}: usize = C{it - 1} + 1;\n" for it in range(1, 2000)) + tagged("C1999 as u8", HEAD), None),
    ("24 aliases that double", "type T0 = (u8, u8);\n" + "".join(
        f"type T{it} = (T{it - 1}, T{it - 1});\n" for it in range(1, 24)) + part("T23"), None),
    ("24 structs that double", HEAD + DERIVES + "struct T0(u8, u8);\n" + "".join(
        f"{DERIVES}struct T{it}(T{it - 1}, T{it - 1});\n" for it in range(1, 24)), None),
    ("200 structs, each in the next", HEAD + DERIVES + "struct T0(u8);\n" + "".join(
        f"{DERIVES}struct T{it}(T{it - 1});\n" for it in range(1, 200)), None),
    ("1,500 structs, each in the next", HEAD + DERIVES + "struct T0(u8);\n" + "".join(
        f"{DERIVES}struct T{it}(T{it - 1});\n" for it in range(1, 1500)), None),
    ("1,500 aliases, each of the next", "type T0 = u8;\n" + "".join(
        f"type T{it} = T{it - 1};\n" for it in range(1, 1500)) + part("T1499"), None),
    ("aliases in a ring", "type T0 = T1;\ntype T1 = T0;\n" + part("T0"), None),
    ("an alias of itself", "type T0 = Vec<T0>;\n" + part("T0"), None),
    ("uses in uses", "use " + nested("a::{", "b", "}", 1000) + ";\n" + part("u8"), None),
    ("comments in comments", nested("/*", "", "*/", 3000) + part("u8"), None),
    ("a path of 3,000 parts", part("a::" * 3000 + "B"), None),
    ("an enum of 300 variants", HEAD + DERIVES + "enum A { " + ", ".join(f"V{it}" for it in range(300)) + " }\n",
     "256"),
    ("1,000 fields", HEAD + DERIVES + "struct A { " + ", ".join(f"f{it}: u8" for it in range(1000)) + " }\n", None),
    # What is not what it seems.
    ("a cow for ever", part("std::borrow::Cow<'static, str>"), None),
    ("a cow of a lifetime that is left out", part("std::borrow::Cow<'_, str>"), None),
    ("a reference of a lifetime that is left out", part("&'_ str"), None),
    ("a lifetime that is not declared", part("&'b str"), None),
    ("a lifetime that is not declared in a cow", part("std::borrow::Cow<'b, [u8]>"), None),
    ("a marker that is skipped", HEAD + "use std::marker::PhantomData;\n" + DERIVES
     + "struct A<T> { a: u8, #[speedy(skip)] b: PhantomData<T> }\n", MADE),
    ("a constant text", 'const NAME: &str = "a";\n' + part("u8"), None),
    ("a path from here", part("self::B") + DERIVES + "pub struct B(u8);\n", None),
    ("imports of all names, each through the others",
     HEAD + "use speedy::*;\nuse a::*;\n" * 12 + DERIVES + "pub struct B(a::c::D, super::E);\n", MADE),
    ("imports that lead on to each other",
     HEAD + "use a::b;\nuse b::a;\nuse c::a;\n" + DERIVES + "pub struct A(a::X);\n", None),
    ("a path from the crate", part("crate::B") + DERIVES + "pub struct B(u8);\n", None),
    ("a derive by another name",
     "use speedy::Readable as R;\nuse speedy::Writable as W;\n#[derive(R, W)]\nstruct A(u8);\n", MADE),
    ("a trait of its own named as a derive", "use other::Readable;\n#[derive(Readable)]\nstruct A(u8);\n", None),
    ("the type of a trait", part("<A as B>::C"), None),
    ("an empty file", "", None),
    ("a mark of the byte order alone", "\ufeff", None),
    ("a carriage return alone", HEAD.replace("\n", "\r") + DERIVES + "struct A;\n", None),
    ("an attribute with a value", HEAD + '#[doc = "a"]\n' + DERIVES + "struct A(u8);\n", None),
    ("an attribute of settings without brackets", HEAD + DERIVES + "#[speedy]\nstruct A(u8);\n", None),
    ("an attribute of settings with a value", HEAD + DERIVES + '#[speedy = "skip"]\nstruct A(u8);\n', None),
    ("settings in square brackets", HEAD + DERIVES + "struct A(#[speedy[skip]] u8);\n", None),
    ("a derive without brackets", HEAD + "#[derive]\nstruct A(u8);\n", None),
    ("a derive of generics", HEAD + "#[derive(Readable<u8>, Writable)]\nstruct A(u8);\n", None),
    ("a parameter twice", HEAD + DERIVES + "struct A<T, T>(T);\n", None),
    ("a field twice", HEAD + DERIVES + "struct A { a: u8, a: u8 }\n", None),
    ("a variant twice", HEAD + DERIVES + "enum A { B, B }\n", None),
    ("a default of a type that is not there", HEAD + DERIVES + "struct A<T = B>(T);\n", None),
    ("an argument that takes its own place", HEAD + DERIVES + "struct A<T = A>(T);\n", None),
]

# Calls of the command: a name, its words, variables of its environment, and the status.
COMMANDS = [
    ("output in ASCII", ["--module", "trial::it", "FILE"], {"PYTHONIOENCODING": "ascii", "LC_ALL": "C"}, 0),
    ("output in Latin", ["--module", "trial::it", "FILE"], {"PYTHONIOENCODING": "latin-1"}, 0),
    ("a module that is no path", ["--module", "a b", "FILE"], {}, 2),
    ("a module without a name", ["--module", "", "FILE"], {}, 2),
    ("a module that ends in colons", ["--module", "trial::", "FILE"], {}, 2),
    ("a module of one name", ["--module", "trial", "FILE"], {}, 0),
    ("a module named by a keyword", ["--module", "trial::struct", "FILE"], {}, 2),
    ("a file that is not there", ["--module", "trial::it", "FILE.absent"], {}, 1),
    ("a folder", ["--module", "trial::it", "/"], {}, 1),
]


def command(derive, words, variables):
    """Runs the generator so on a file with letters of other scripts."""
    with tempfile.TemporaryDirectory() as folder:
        file = Path(folder, "types.rs")
        file.write_text(SOURCE, encoding="utf-8")
        called = [str(derive), *(it.replace("FILE", str(file)) for it in words)]
        return subprocess.run(called, env=os.environ | variables, capture_output=True, text=True, errors="replace",
                              check=False)
