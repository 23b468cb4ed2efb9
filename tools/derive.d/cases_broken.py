"""Sources that the generator refuses: a name, the source, the line of the error and words of it."""

HEAD = "use speedy::{Readable, Writable};\n"
DERIVES = "#[derive(Readable, Writable)]\n"


def struct(fields, name="A", head=HEAD):
    """A struct of these fields, which begin in line 4."""
    return f"{head}{DERIVES}struct {name} {{\n{fields}\n}}\n"


def told(length, number, kind="Vec<u8>", before=""):
    """A struct of a number `n` and, in line 6, of a field that has a length."""
    return struct(f"    {before}n: {number},\n    #[speedy(length = {length})]\n    a: {kind}")


def told_lists(count):
    """So many lists whose length `n` tells, of two lines each."""
    return "".join(f"    #[speedy(length = n)]\n    l{place}: Vec<u8>,\n" for place in range(count))


DEPTH = "#[speedy(depth = 16)]\n"


def deep(fields, depth="16"):
    """A struct `A` of these fields, which begin in line 5, with a depth."""
    return f"{HEAD}{DERIVES}#[speedy(depth = {depth})]\nstruct A {{\n{fields}\n}}\n"


BROKEN = [
    # Syntax.
    ("a text without an end", struct('    #[speedy(constant_prefix = "ab)]\n    a: u8'), 4, "no end"),
    ("a comment without an end", HEAD + "/* a\n\nstruct A;", 2, "no end"),
    ("a bracket that is missing", HEAD + DERIVES + "struct A(u8", 3, "`)` is missing"),
    ("a bracket that closes nothing", HEAD + "#[derive(Readable, Writable])]\nstruct A;", 2, "closes nothing"),
    ("a comma that is missing", struct("    a: u8\n    b: u8"), 5, "`}` is missing"),
    ("a field without a type", struct("    a,"), 4, "`:` is missing"),
    ("a name that is a keyword", struct("    type: u8"), 4, "the name of a field"),
    ("a number that is none", struct("    #[speedy(constant_prefix = 10_u9)]\n    a: ()"), 4, "is no number"),
    ("an escape that is none", struct('    #[speedy(constant_prefix = "\\q")]\n    a: ()'), 4, "is no escape"),
    ("a letter that is none of Rust's", HEAD + DERIVES + "struct A(u8); €", 3, "no token of Rust"),
    ("attributes with nothing behind", HEAD + DERIVES, 3, "an item is missing"),
    ("documentation of the file in its middle", struct("    a: u8") + "//! later", 6, "at the head of the file"),
    # Items.
    ("an item twice", struct("    a: u8") + DERIVES + "struct A;", 7, "declared twice"),
    ("a derive twice", HEAD + "#[derive(Readable, Readable)]\nstruct A;", 2, "derived twice"),
    # Attributes.
    ("a setting that is not known", struct("    #[speedy(lenght = 4)]\n    a: Vec<u8>"), 4, "no setting `lenght`"),
    ("a setting of an enum at a struct", HEAD + DERIVES + "#[speedy(tag_type = u8)]\nstruct A;", 3, "no setting"),
    ("a setting twice", struct("    #[speedy(skip)]\n    #[speedy(skip)]\n    a: u8"), 5, "set twice"),
    ("a setting without its value", struct("    #[speedy(length)]\n    a: Vec<u8>"), 4, "needs a value"),
    ("a flag with a value", struct("    #[speedy(skip = 1)]\n    a: u8"), 4, "has no value"),
    ("a width that is none", struct("    #[speedy(length_type = u9)]\n    a: Vec<u8>"), 4, "is no width"),
    ("a skipped field with more", struct("    #[speedy(skip, varint)]\n    a: u64"), 4, "no other setting"),
    ("a length and its width", struct("    n: u8,\n    #[speedy(length = n, length_type = u8)]\n    a: Vec<u8>"), 5,
     "no `length_type`"),
    ("a rest before another field", struct("    #[speedy(length = ..)]\n    a: Vec<u8>,\n    b: u8"), 6,
     "such fields alone"),
    ("a rest in a variant", HEAD + DERIVES + "enum A { B(#[speedy(length = ..)] Vec<u8>) }", 3,
     "a variant does not end"),
    ("a rest of a map", "use std::collections::BTreeSet;\n"
     + struct("    #[speedy(length = ..)]\n    a: BTreeSet<u8>"), 6,
     "`length = ..` is taken of"),
    ("a rest behind a part that may be missing", struct("    #[speedy(default_on_eof)]\n    a: u8,\n"
     "    #[speedy(length = ..)]\n    b: Vec<u8>"), 5, "is the last field"),
    ("a missing part whose default takes memory", struct("    #[speedy(default_on_eof)]\n    a: Box<u32>"), 5,
     "the default of this type takes memory"),
    ("a missing part of two settings", struct("    #[speedy(default_on_eof, varint)]\n    a: u64"), 4,
     "no other setting"),
    ("a missing part without a default", "use std::net::IpAddr;\n"
     + struct("    #[speedy(default_on_eof)]\n    a: IpAddr"), 6, "no default of `IpAddr`"),
    ("a part that ends where the bytes do", struct("    #[speedy(length = ..)]\n    a: String") + DERIVES
     + "struct B(A);", 8, "ends where the bytes do"),
    ("a tag that is peeked at", HEAD + DERIVES + "#[speedy(peek_tag)]\nenum A { B }", 3, "no encoding of its own"),
    ("a varint of another width", struct("    #[speedy(varint)]\n    a: u32"), 5, "of the type `u64`"),
    ("a constant of no type", struct("    #[speedy(constant_prefix = 10)]\n    a: ()"), 4, "names its type"),
    ("a constant past its type", struct("    #[speedy(constant_prefix = 200_i8)]\n    a: ()"), 4, "is no `i8`"),
    ("tags that repeat", HEAD + DERIVES + "enum A {\n    B = 1,\n    C = 0,\n    D,\n}", 6, "the tag 1 of `B`"),
    ("a tag that repeats by its setting", HEAD + DERIVES + "enum A {\n    B,\n    #[speedy(tag = 0)]\n    C,\n}", 6,
     "the tag 0 of `B`"),
    ("a tag past its type", HEAD + DERIVES + "#[speedy(tag_type = u7)]\nenum A { B = 128 }", 4, "the greatest is 127"),
    ("a tag below nothing", HEAD + DERIVES + "enum A { B = -1 }", 3, "the tag -1"),
    ("a tag that is not told", HEAD + DERIVES + "enum A { B = OTHER }", 3, "no number that this file tells"),
    ("a tag that is called", HEAD + DERIVES + "enum A { B = f(1) }", 3, "not taken in a constant"),
    ("an enum without variants", HEAD + DERIVES + "enum A {}", 3, "has no variant"),
    ("a tag at a field", struct("    #[speedy(tag = 1)]\n    a: u8"), 4, "no setting `tag`"),
    ("a length of a number", struct("    #[speedy(length_type = u8)]\n    a: u32"), 5,
     "a number takes no `length_type`"),
    # Lengths.
    ("a length of a later field", struct("    #[speedy(length = n)]\n    a: Vec<u8>,\n    n: u8"), 4,
     "no earlier field"),
    ("a length of itself", struct("    #[speedy(length = a)]\n    a: Vec<u8>"), 4, "no earlier field"),
    ("a length of no field", told("m", "u8"), 5, "`m` is neither an earlier field"),
    ("a length of a skipped field", told("n", "u8", before="#[speedy(skip)] "), 5,
     "neither an earlier field with bytes"),
    ("a length of a field of another variant", HEAD + DERIVES + "enum A {\n    B(u8),\n    C(\n"
     "        #[speedy(length = t0)]\n        Vec<u8>,\n    ),\n}", 6, "no earlier field"),
    ("a length of a wide number", told("n", "u128"), 5, "`n` tells no length"),
    ("a length of a text", told("n * 2", "String"), 5, "`n` tells no length"),
    ("a sum of two types", struct("    m: u16,\n    n: u8,\n    #[speedy(length = n + m)]\n    a: Vec<u8>"), 6,
     "have no `+` in Rust"),
    ("a division by zero", told("n / 0", "u8"), 5, "divides by zero"),
    ("a literal past the type of a field", told("n * 256", "u8"), 5, "256 is no `u8`"),
    ("a cast that loses bits", told("n as u8", "u32"), 5, "loses bits"),
    ("a cast to a number of another kind", told("n as u128", "u32"), 5, "a length is computed in"),
    ("a shift past the type", told("n << 8", "u8"), 5, "too wide"),
    ("a choice without a comparison", told("if n { 1 } else { 2 }", "u8"), 5, "compares two numbers"),
    ("a choice of one branch", told("if n < 1 { 1 }", "u8"), 5, "`else` is missing"),
    ("a sign before a number", told("!n", "u8"), 5, "a length is made of"),
    ("a length below nothing", told("2 - 3", "u8"), 5, "-1 is no `usize`"),
    ("a length of a field that is not there", struct("    n: B,\n    #[speedy(length = n.a)]\n    a: String") + DERIVES
     + "struct B { b: u8 }", 5, "`B` has no field `a`"),
    ("a length of a field of a field that is no number", struct("    n: B,\n    #[speedy(length = n.b)]\n    a: String")
     + DERIVES + "struct B { b: u128 }", 5, "`b` tells no length"),
    ("a length of a field of a field without bytes", struct("    n: B,\n    #[speedy(length = n.b)]\n    a: String")
     + DERIVES + "struct B { a: u8, #[speedy(skip)] b: u8 }", 5, "`b` of `B` has no bytes"),
    ("a length of a whole struct", struct("    n: B,\n    #[speedy(length = n)]\n    a: String") + DERIVES
     + "struct B(u8);", 5, "`n` tells no length"),
    ("a length of a place of a tuple", told("n.1", "(u8, u8)"), 5, "`n` is a tuple"),
    ("a length of a field of an enum", struct("    n: B,\n    #[speedy(length = n.b)]\n    a: String") + DERIVES
     + "enum B { C { b: u8 } }", 5, "`n` is an enum"),
    ("a length of a field of another file", "use other::Header;\n" + told("n.b", "Header"), 6,
     "a type of another file"),
    ("a length of a field of a number", told("n.b", "u8"), 5, "`n` is no struct of this file"),
    ("a length of a field of a parameter", HEAD + DERIVES
     + "struct A<T> {\n    n: T,\n    #[speedy(length = n.b)]\n    a: String\n}", 5, "`n` is no struct of this file"),
    ("a length of a field of a sum", told("(n + 1).b", "u8"), 5, "a length is made of"),
    ("a length of a field of what is not there", told("m.b", "u8"), 5, "`m` is neither an earlier field"),
    ("a frame of what is not written", HEAD + "#[derive(Readable)]\nstruct B(u8);\n" + DERIVES
     + "struct A {\n    n: u8,\n    #[speedy(length = n)]\n    b: B\n}", 8, "has to derive `Writable`"),
    ("a frame of many that end where the bytes do", struct("    n: u8,\n    #[speedy(length = n)]\n    a: Vec<B>")
     + DERIVES + "struct B(#[speedy(length = ..)] String);", 6, "ends where the bytes do"),
    ("a frame of parts that may be missing", struct("    n: u8,\n    #[speedy(length = n)]\n    a: B") + DERIVES
     + "struct B { #[speedy(default_on_eof)] b: u8 }", 6, "is made of the parts that are read"),
    ("a frame of a parameter's", HEAD + DERIVES + "struct B<T>(T);\n" + DERIVES
     + "struct A<T> {\n    n: u8,\n    #[speedy(length = n)]\n    b: B<T>\n}", 8, "generic here"),
    ("a length of a parameter", HEAD + DERIVES + "struct A<T> {\n    n: u8,\n    #[speedy(length = n)]\n    b: T\n}", 6,
     "`length` is taken of"),
    ("a length by a method", told("n.into()", "u8"), 5, "a length is made of"),
    ("a length of a cow of a map", "use std::borrow::Cow;\nuse std::collections::BTreeMap;\n"
     + told("n", "u8", "Cow<'a, BTreeMap<u8, u8>>").replace("struct A", "struct A<'a>"), 8, "`length` is taken of"),
    ("a length of what has none", told("n", "u8", "Option<String>"), 6, "`length` is taken of"),
    ("a length behind a reference", HEAD + "#[derive(Writable)]\n"
     "struct A<'a> {\n    n: u8,\n    #[speedy(length = n)]\n    a: &'a String,\n}", 6, "`length` is taken of"),
    ("a number with a length", told("n", "u8", "u64").replace("length", "varint, length"), 5, "a number has no length"),
    ("a box that is skipped", struct("    a: Vec<u8>,\n    #[speedy(skip)]\n    b: (u8, Box<u32>)"), 6,
     "the default of this field takes memory"),
    ("a box that is skipped in a variant", HEAD + DERIVES + "enum A { B(String, #[speedy(skip)] Box<u32>), C }", 3,
     "hold it in an `Option`"),
    ("lists in lists", struct("    a: Vec<Vec<Vec<Vec<Vec<u8>>>>>"), 3, "gives up its search"),
    ("options in too many fields", struct(",\n".join(f"    f{it}: Option<Option<u16>>" for it in range(28))), 3,
     "gives up its search"),
    ("many types behind a length of another width", "use std::collections::HashMap;\n"
     + struct("    a: HashMap<u32, u32>,\n    b: Vec<Vec<(u8, bool, u8, f32, u64)>>,\n    #[speedy(length_type = u8)]\n"
              "    c: Box<str>"), 4, "gives up its search"),
    ("an enum of one variant of many parts with a hash map", "use std::collections::HashMap;\n" + HEAD + DERIVES
     + "enum A {\n    B(HashMap<u8, u8>, u8, u16, u32, u64, String),\n}\n", 4, "that has a `HashMap` beside others"),
    ("an enum of one variant of parts that own memory", "use indexmap::IndexMap;\n" + HEAD + DERIVES
     + "enum A {\n    B(" + "IndexMap<u8, u8>, " * 4 + "u8),\n}\n", 4, "that has many parts that own memory"),
    ("an enum of one variant with a parameter and a hash map", HEAD + DERIVES
     + "enum A<T> {\n    B(std::collections::HashMap<u8, T>),\n}\n", 3, "that has a `HashMap`"),
    ("an enum of one variant of many parts with a number", HEAD + DERIVES
     + "enum A<const N: usize> {\n    B(u8, u16, String, u8, [u8; N]),\n}\n", 3, "which has the same bytes"),
    ("many types in a variant", "use std::collections::BTreeMap;\n" + HEAD + DERIVES + "enum A {\n"
     "    B(#[speedy(varint)] u64, Vec<(char, bool)>, Vec<Box<Vec<i64>>>, "
     "Box<BTreeMap<bool, BTreeMap<(u64, u64), Vec<(char, u8)>>>>),\n}\n", 4, "gives up its search"),
    ("many lengths that a number tells", struct("    n: u8,\n" + told_lists(20)), 44, "nests too deep"),
    ("many lengths of a parameter", struct("    n: u8,\n" + told_lists(8), "A<T>"), 20, "has parameters"),
    ("many lengths of a parameter before a part", struct("    n: u8,\n" + told_lists(7) + "    b: u8,", "A<'a>"), 18,
     "own what is borrowed"),
    ("many parts that may be missing", struct("    n: u8,\n" + "".join(
        f"    #[speedy(default_on_eof)]\n    a{place}: u16,\n" for place in range(9))), 3, "gives up its search"),
    ("many parts of parameters that may be missing", struct("    n: u8,\n" + "".join(
        f"    #[speedy(default_on_eof)]\n    a{place}: {kind},\n" for place, kind in enumerate(
            ("T", "&'a str", "u8", "Vec<T>"))), "A<'a, T>"), 12, "own what is borrowed"),
    # Types.
    ("a reference to floats", HEAD + DERIVES + "struct A<'a>(&'a [f64]);", 3, "SliceView<'a, F64>"),
    ("an atomic", "use std::sync::atomic::AtomicU8;\n" + struct("    a: AtomicU8"), 5, "hold the number"),
    ("a time of the system", struct("    a: std::time::SystemTime"), 4, "`Duration` since the epoch"),
    ("a reference count", "use std::rc::Rc;\n" + struct("    a: Rc<u8>"), 5, "hold the value"),
    ("a raw pointer", struct("    a: *const u8"), 4, "a raw pointer"),
    ("a function pointer", struct("    a: fn(u8) -> u8"), 4, "a function pointer"),
    ("a value of any type", struct("    a: Box<dyn Fn()>"), 4, "a `dyn` value"),
    ("a type that is not there", struct("    a: Missing"), 4, "neither declared here nor imported"),
    ("a text without a size", struct("    a: str"), 4, "has no size"),
    ("a slice without a size", struct("    a: [u8]"), 4, "has no size"),
    ("a reference without a lifetime", struct("    a: &str"), 4, "needs a lifetime"),
    ("a reference to numbers", HEAD + DERIVES + "struct A<'a>(&'a [u32]);", 3, "SliceView"),
    ("a reference to a type", HEAD + DERIVES + "struct A<'a>(&'a String);", 3, "is written alone"),
    ("a reference that lives for ever", struct("    a: &'static str"), 4, "name a lifetime"),
    ("a cow without a lifetime", "use std::borrow::Cow;\n" + struct("    a: Cow<str>"), 5, "needs a lifetime"),
    ("two lifetimes", HEAD + DERIVES + "struct A<'a, 'b>(&'a str, &'b str);", 3, "2 lifetimes"),
    ("a map of one type", "use std::collections::BTreeMap;\n" + struct("    a: BTreeMap<u8>"), 5, "applied to 2"),
    ("a tuple of twelve", struct("    a: (u8, u8, u8, u8, u8, u8, u8, u8, u8, u8, u8, u8)"), 4, "up to 11 parts"),
    ("a generic of another module", "use other::Pair;\n" + HEAD + DERIVES + "struct A<T>(Pair<T>);", 4, "not known"),
    ("a parameter that stands nowhere", HEAD + DERIVES + "struct A<T>(u8);", 3, "stands in no part"),
    ("a type without a size in a bound", HEAD + DERIVES + "struct A<T: ?Sized>(Box<T>);", 3, "`?Sized`"),
    ("a default of a const parameter", HEAD + DERIVES + "struct A<const N: usize = 2>([u8; N]);", 3,
     "const parameter"),
    ("a type that holds itself", struct("    a: Vec<A>"), 3, "set it at the type, as `#[speedy(depth = 16)]`"),
    ("a type that holds itself by `Self`", struct("    a: Vec<Self>"), 4, "needs a bound on its depth"),
    ("types that hold each other", struct("    a: Option<Box<B>>") + DERIVES + "struct B(Vec<A>);", 3,
     "holds itself through `B`"),
    ("types with a depth that hold each other", deep("    a: Option<Box<B>>") + DERIVES + "struct B(Vec<A>);", 4,
     "holds itself through `B`"),
    ("a depth of none that holds itself", deep("    a: Vec<u8>"), 4, "leave `depth` out"),
    ("a depth of 0", deep("    a: Vec<A>", "0"), 3, "from 1 to 32"),
    ("a depth that no constant of a library has", deep("    a: Vec<A>", "33"), 3, "from 1 to 32"),
    ("a discriminant that is compared and not told", HEAD + "#[derive(PartialEq, PartialOrd, Readable, Writable)]\n"
     "#[repr(u8)]\nenum A { #[speedy(tag = 1)] B = OTHER }", 4, "no number that this file tells"),
    ("a depth that is no number", deep("    a: Vec<A>", "\"a\""), 3, "no number that this file tells"),
    ("a depth of an enum that holds itself not", HEAD + DERIVES + DEPTH + "enum A { B, C(u8) }", 4,
     "leave `depth` out"),
    ("a depth of an enum without an end", HEAD + DERIVES + DEPTH + "enum A { B(Box<A>), C(u8, Box<A>) }", 4,
     "no value of `A` ends"),
    ("a depth of an enum of one variant", HEAD + DERIVES + DEPTH + "enum A { B(Vec<A>) }", 4, "two variants or more"),
    ("a depth of an enum with a setting of a field", HEAD + DERIVES + DEPTH
     + "enum A { B(#[speedy(varint)] u64), C(Vec<A>) }", 4, "takes `skip` alone"),
    ("a depth of an enum through a result", HEAD + DERIVES + DEPTH + "enum A { B, C(Result<Box<A>, u8>) }", 4,
     "by `Box`, `Option`, `Vec` and pairs alone"),
    ("a depth of a type with parameters", f"{HEAD}{DERIVES}{DEPTH}struct A<T>(T, Vec<A<T>>);", 3, "no parameters"),
    ("a depth of a type with a lifetime", f"{HEAD}{DERIVES}{DEPTH}struct A<'a>(&'a str, Vec<A<'a>>);", 3,
     "no parameters"),
    ("a depth through a map", "use std::collections::BTreeMap;\n" + deep("    a: BTreeMap<u8, A>"), 6,
     "by `Box`, `Option`, `Vec` and pairs alone"),
    ("a depth through three parts", deep("    a: Vec<(u8, u16, A)>"), 5, "in pairs alone"),
    ("a depth without an end", deep("    a: u8,\n    b: Box<A>"), 6, "no value of `A` ends"),
    ("a depth with a setting of a field", deep("    #[speedy(varint)]\n    a: u64,\n    b: Vec<A>"), 6,
     "takes `skip` alone"),
    ("a depth with a length", deep("    n: u8,\n    #[speedy(length = n)]\n    a: Vec<A>"), 7, "takes `skip` alone"),
    ("a depth of a key", "use std::collections::BTreeSet;\n" + HEAD + DEPTH
     + "#[derive(PartialEq, Eq, PartialOrd, Ord, Readable, Writable)]\nstruct A(Vec<A>);\n" + DERIVES
     + "struct B(BTreeSet<A>);", 7, "to have no `depth`"),
    # What only looks like Rust, or is past each limit.
    ("a file without types", HEAD + "fn f() {}\nconst A: u8 = 1;", 1, "declares no type"),
    ("names that differ in case alone", struct("    a: u8", "Wire") + "const WIRE: u8 = 1;", 6, "in case alone"),
    ("a list of a lifetime", HEAD + DERIVES + "struct A<'a>(Vec<'a>);", 3, "applied to 1 type"),
    ("a list of a number", HEAD + DERIVES + "struct A(Vec<5>);", 3, "applied to 1 type"),
    ("a digit of no number", HEAD + DERIVES + "struct A(u8²);", 3, "no token of Rust"),
    ("a name past ASCII", struct("    größe: u8"), 4, "ASCII"),
    ("constants that name each other", "const A: usize = B;\nconst B: usize = A + 1;\n" + DERIVES
     + "enum C { D = A }", 2, "told by itself"),
    ("a number of 4,300 digits", HEAD + DERIVES + f"enum A {{ B = {'9' * 4300} }}", 3, "past each type"),
    ("types nested 200 deep", HEAD + DERIVES + f"struct A({'Vec<' * 200}u8{'>' * 200});", 3, "nests more than"),
    ("brackets nested 200 deep", HEAD + DERIVES + f"enum A {{ B = {'(' * 200}1{')' * 200} }}", 3, "nests more than"),
    ("a sum of 2,000 terms", HEAD + DERIVES + f"enum A {{ B = {'1 + ' * 2000}1 }}", 3, "more than 200 parts"),
    ("24 aliases that double", "".join(f"type A{it} = (A{it + 1}, A{it + 1});\n" for it in range(24))
     + "type A24 = u8;\n" + DERIVES + "struct B(A0);", 22, "made of more than"),
    ("more variants than Rattle has", HEAD + DERIVES + "enum A { " + ", ".join(f"V{it}" for it in range(257)) + " }", 3,
     "more than 256 variants"),
    ("more variants of what owns memory than have a proof", HEAD + DERIVES + "enum A { V(Option<Vec<u8>>), "
     + ", ".join(f"V{it}" for it in range(128)) + " }", 3, "past its 128th variant"),
    ("a cow that lives for ever", "use std::borrow::Cow;\n" + struct("    a: Cow<'static, str>"), 5, "name a lifetime"),
    ("a cow of a lifetime that is left out", "use std::borrow::Cow;\n" + struct("    a: Cow<'_, str>"), 5,
     "needs a lifetime"),
    ("a lifetime that is not declared", HEAD + DERIVES + "struct A<'a>(&'a str, &'b str);", 3, "is not declared"),
    ("a constant that is no type", "const NAME: &str = \"a\";\n" + HEAD + DERIVES + "struct A(NAME);", 4, "is no type"),
    ("a type without a layout", HEAD + "struct B(u8);\n" + DERIVES + "struct A(B);", 4, "derives neither"),
    ("a default that there is none of", "use std::net::IpAddr;\n" + struct("    #[speedy(skip)]\n    a: IpAddr"), 6,
     "no default of `IpAddr`"),
    ("a key that is not compared", "use std::collections::BTreeMap;\n" + struct("    a: BTreeMap<B, u8>") + DERIVES
     + "struct B(u8);", 5, "has to derive"),
    ("a key of a variant with parts", "use std::collections::BTreeSet;\n" + struct("    a: BTreeSet<B>")
     + "#[derive(PartialEq, Eq, PartialOrd, Ord, Readable, Writable)]\nenum B { C(u8) }", 5, "a variant has parts"),
    ("a key with a field that is skipped", "use std::collections::BTreeSet;\n" + struct("    a: BTreeSet<B>")
     + "#[derive(PartialEq, Eq, PartialOrd, Ord, Readable, Writable)]\nstruct B(u8, #[speedy(skip)] u8);", 5,
     "a field is skipped"),
    # Arrays that get no proof.
    ("an array of cows", "use std::borrow::Cow;\n" + HEAD + DERIVES + "struct A<'a>([Cow<'a, str>; 2], u8);", 4,
     "both owns memory and borrows, which finds no proof: hold it in a `Box`"),
    ("an array that borrows in a variant", HEAD + DERIVES + "enum A<'a> { B(Option<[&'a str; 2]>), C }", 3,
     "borrows, and stands in a variant"),
    ("a struct with an array that borrows in a variant", HEAD + DERIVES + "struct A<'a>([&'a str; 2]);\n" + DERIVES
     + "enum B<'a> { C(u8, A<'a>) }", 5, "borrows, and stands in a variant"),
    ("an array of a parameter beside a text that is borrowed", HEAD + DERIVES + "struct A<'a, T>(&'a str, [T; 2]);", 3,
     "a parameter beside what borrows, which finds no proof: hold it in a tuple of one part"),
    ("a list of arrays of any length", HEAD + DERIVES + "struct A<const N: usize>(Vec<(u8, [u8; N])>);", 3,
     "whose size a parameter says, which finds no proof"),
    ("a box of a struct with an array of a parameter", HEAD + DERIVES + "struct A<T>([T; 2]);\n" + DERIVES
     + "struct B<T>(u8, Box<A<T>>);", 5, "whose size a parameter says, which finds no proof"),
    ("an array as long as no `usize`", struct("    a: [u8; 4_u8]"), 4, "`4_u8` is a `u8`"),
    ("an array of any length beside a text that is borrowed", HEAD + DERIVES
     + "struct A<'a, const N: usize>(&'a str, [String; N]);", 3, "as long as a parameter says"),
    ("an array of nothing", struct("    a: [(); 2]"), 4, "of what has no bytes"),
    ("an alias of what is no part", "use std::sync::Arc;\ntype B = Arc<u8>;\n" + struct("    a: B"), 2, "`Arc`"),
    ("a skipped field of what is not read", "struct B(fn(u8));\n" + struct("    #[speedy(skip)]\n    a: Option<B>"), 1,
     "a function pointer"),
    ("a field that is not read", "use speedy::Readable as R;\n#[derive(R)]\nstruct A(fn(u8));", 3,
     "a function pointer"),
    ("a key that has no order", "use std::collections::BTreeMap;\n" + struct("    a: BTreeMap<B, u8>")
     + "#[derive(PartialEq, Eq, Hash, Readable, Writable)]\nstruct B(u8);", 5, "`B` has no `Ord`"),
    ("a key in another type", "use std::collections::BTreeMap;\n" + struct("    a: B<Vec<f64>>") + DERIVES
     + "struct B<K>(BTreeMap<K, u8>);", 5, "`F64` has no `Ord`"),
    ("a small vector of what has no default", "use smallvec::SmallVec;\n" + struct("    a: SmallVec<[Box<str>; 4]>"), 5,
     "`BoxedStr` has none in Rattle: take a `Vec`"),
    ("a small vector in another type", "use smallvec::SmallVec;\n" + struct("    a: B<std::net::IpAddr>") + DERIVES
     + "struct B<T>(SmallVec<[T; 4]>);", 5, "`IpAddr` has none"),
    ("what is no number in one order", "use speedy::Big;\n" + struct("    a: Vec<Big<String>>"), 5,
     "`Big` holds a number of a fixed width, as `Big<u32>`, and `String` is none"),
    ("a parameter in one order", "use speedy::Little;\n" + struct("    a: Little<T>", "A<T>"), 5,
     "and `T` is none"),
    ("numbers before a NUL", "use speedy::CText;\n" + struct("    a: CText<Vec<u16>>"), 5,
     "`CText` holds a text or bytes, as `CText<String>` or `CText<&'a [u8]>`, and `Vec<u16>` is neither"),
    ("a parameter before a NUL", "use speedy::CText;\n" + struct("    a: CText<T>", "A<T>"), 5, "and `T` is neither"),
    ("a key that ends with a NUL", "use speedy::CText;\nuse std::collections::BTreeSet;\n"
     + struct("    a: BTreeSet<CText<String>>"), 6, "`CText` has no `SameKey`"),
    ("a list up to a text", "use speedy::ListUntil;\n" + struct("    a: ListUntil<String, u8, 0>"), 5,
     "the numbers of a `ListUntil` are one of u8, u16, u32, u64, VarInt64, and `String` is none of these"),
    ("a list without a mark", "use speedy::ListUntil;\n" + struct("    a: ListUntil<u8, u8>"), 5,
     "`ListUntil` needs a type of numbers, a type and the number that ends the list"),
    ("a key that ends with a mark", "use speedy::ListUntil;\nuse std::collections::BTreeSet;\n"
     + struct("    a: BTreeSet<ListUntil<u8, u8, 0>>"), 6, "`ListUntil` has no `SameKey`"),
    ("padding of a type", "use speedy::Padding;\n" + struct("    a: Padding<String>"), 5, "write a number"),
    ("padding of nothing", "use speedy::Padding;\n" + struct("    a: Padding"), 5,
     "`Padding` needs a number of bytes, as `Padding<3>`"),
    ("padding whose length nothing tells", "use speedy::PaddingBytes as Gap;\n" + struct("    a: Vec<Gap>"), 5,
     "`Vec<PaddingBytes>` has a length that other fields tell"),
    ("padding behind a length of its own", "use speedy::ZeroBytes;\n"
     + struct("    #[speedy(length_type = u8)]\n    a: ZeroBytes"), 6, "`length_type` is taken of texts"),
    ("a key with padding of a told length", "use speedy::PaddingBytes;\nuse std::collections::BTreeSet;\n"
     + struct("    a: BTreeSet<B>") + "#[derive(PartialEq, Eq, PartialOrd, Ord, Readable, Writable)]\n"
     "struct B { n: u8, #[speedy(length = n)] p: PaddingBytes }\n", 6, "a part has a length"),
    ("a skipped small vector", "use smallvec::SmallVec;\n"
     + struct("    #[speedy(skip)]\n    a: SmallVec<[Box<u8>; 4]>"), 6, "`Box<u8>` has none"),
    ("a default in another type", struct("    a: B<Box<str>>") + DERIVES + "struct B<T>(u8, #[speedy(skip)] T);", 4,
     "`BoxedStr` has no `Default`"),
    ("skipped fields of types that hold each other", HEAD + DERIVES
     + "struct A<T>(T, #[speedy(skip)] Option<Box<B<T>>>);\n" + DERIVES
     + "struct B<T>(T, #[speedy(skip)] Option<Box<A<T>>>);", 5, "holds in turn what has this field"),
    ("a phantom that is no part", "use std::marker::PhantomData;\n" + HEAD + DERIVES
     + "struct A<T>(T, PhantomData<T>);", 4, "set `skip`"),
]
