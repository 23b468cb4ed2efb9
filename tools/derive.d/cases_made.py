"""Sources that the generator takes: a name, the source, and lines of what is made; and random ones."""
import random

DERIVES = "#[derive(Readable, Writable)]\n"

MADE = [
    ("a struct that holds one with a depth",
     DERIVES + "#[speedy(depth = 4)]\npub struct Tree { pub below: Vec<Tree> }\n" + DERIVES
     + "pub struct A { pub tree: Tree, pub b: u8 }\n" + DERIVES + "pub struct B { pub trees: Vec<Tree> }\n",
     ["        <AParts as ReadFrom<L, C>>::minimum_bytes_needed()\n",
      "    fn minimum_bytes_needed() -> usize {\n        4\n    }\n}\n\nimpl<C: Context> Writable<C> for B {"]),
    ("a struct", '''/// Whom to write to.
#[derive(Debug, PartialEq, Readable, Writable)]
pub struct Contact {
    pub name: String,
    /// It has an `@`.
    pub mail: String,
    pub groups: Vec<u16>,
}
''', ["//! Made from `types.rs`", "use std::convert::AsSlice;",
      "/// Whom to write to.\n#[derive(Debug, PartialEq, Drop)]",
      "    /// It has an `@`.\n    pub mail: String,", "type ContactParts = (String, String, Vec<u16>);",
      "impl Layout for Contact {", "seen (it.name, it.mail, it.groups) };",
      "impl<L: AsSlice<u8> + Drop, C: Context> ReadFrom<L, C> for Contact {",
      "match reader.read_value() {\n            Ok((name, mail, groups)) => Ok(Contact { name, mail, groups }),",
      "    fn minimum_bytes_needed() -> usize {\n        12\n    }", "impl<C: Context> Writable<C> for Contact {",
      "writer.write_value(&(Part(&self.name), Part(&self.mail), Part(&self.groups)))"]),
    ("a generic one", DERIVES + "pub struct Labelled<T = u8> { pub label: u32, pub value: Vec<T> }\n",
     ["pub struct Labelled<T = u8> {", "type LabelledParts<T> = (u32, Vec<T>);",
      "impl<T: Layout> Layout for Labelled<T> {",
      "impl<L: AsSlice<u8> + Drop, C: Context, T: ReadMany<L, C>> ReadFrom<L, C> for Labelled<T> {",
      "impl<C: Context, T: Writable<C>> Writable<C> for Labelled<T> {"]),
    ("options in many fields, which tell their types", DERIVES + "pub struct Wide {\n"
     + "".join(f"    f{it}: Option<Option<u16>>,\n" for it in range(22)) + "}\n", ["match reader.read_value() {"]),
    ("one that borrows", "use std::borrow::Cow;\n" + DERIVES + "pub struct Entry<'a>(&'a str, Cow<'a, [u8]>);\n",
     ["use std::borrow::CowSlice;", "pub struct Entry<'a>(&'a str, CowSlice<'a, u8>);",
      "impl<'a, C: Context> ReadFrom<&'a [u8], C> for Entry<'a> {", "Ok((t0, t1)) => Ok(Entry(t0, t1)),",
      "ensures { result ≡ ⟦<EntryParts<'a> as Layout>⟧.layout.least }"]),
    ("a newtype", "#[derive(Clone, Copy, Readable, Writable)]\n#[repr(transparent)]\nstruct Newtype(u16);\n",
     ["#[derive(Clone, Copy)]\n#[repr(transparent)]\nstruct Newtype(u16);", "⟦<u16 as Layout>⟧.seen it.0 };",
      "    #[inline(always)]\n    fn read_from<R: LendingReader<L, C>>(", "Ok(t0) => Ok(Newtype(t0)),",
      "writer.write_value(&self.0)"]),
    ("structs without parts", DERIVES + "struct Unit;\n" + DERIVES + "struct Empty {}\n",
     ["struct Unit;", "Ok(()) => Ok(Unit),", "writer.write_value(&())", "struct Empty {}",
      "Ok(()) => Ok(Empty {}),"]),
    ("one of many parts", DERIVES + "struct A(u8, u8, u8, u8, u8, u8, u8, u8, u8, u8, u8, u8);\n",
     ["type AParts = ((u8, u8, u8, u8), (u8, u8, u8, u8), (u8, u8, u8, u8));",
      "let (parts1, parts2, parts3) = parts;", "let (t0, t1, t2, t3) = parts1;"]),
    ("one that another holds, declared behind it", DERIVES + "struct A<T>(B<T>);\n" + DERIVES
     + "struct B<T>(Vec<T>);\n", ["T: ReadMany<L, C>> ReadFrom<L, C> for A<T> {",
                                "    fn minimum_bytes_needed() -> usize {\n        4\n    }"]),
    ("the types that Rattle names otherwise", "use std::borrow::Cow;\nuse std::collections::hash_map::HashMap;\n"
     + DERIVES + "struct A<'a> { a: Cow<'a, str>, b: Box<str>, c: Box<[u8]>, d: HashMap<u8, Cow<'a, [u16]>>, "
     "e: Cow<'a, HashMap<u8, u8>> }\n", ["    a: CowStr<'a>,", "    b: BoxedStr,", "    c: BoxedSlice<u8>,",
                  "    d: HashMap<u8, CowSlice<'a, u16>>,", "    e: Cow<'a, HashMap<u8, u8>>,"]),
    ("texts that end with a NUL", "use std::borrow::Cow;\nuse speedy::CText;\n" + DERIVES
     + "struct A { a: CText<String>, b: CText<Vec<u8>>, c: CText<Box<[u8]>>, d: Vec<CText<Box<str>>> }\n" + DERIVES
     + "struct B<'a>(CText<&'a str>, CText<Cow<'a, str>>, CText<Cow<'a, [u8]>>, CText<&'a [u8]>);\n",
     ["    a: CText<String>,", "    c: CText<BoxedSlice<u8>>,", "    d: Vec<CText<BoxedStr>>,", "        7\n",
      "CText<CowStr<'a>>", "CText<CowSlice<'a, u8>>", "ReadFrom<&'a [u8], C> for B<'a>", "        4\n"]),
    ("lists up to a mark", "use speedy::ListUntil;\nconst END: usize = 9;\n" + DERIVES
     + "struct A<'a> { a: ListUntil<u16, &'a [u8], 1>, b: Vec<ListUntil<u8, B<u32>, END>> }\n" + DERIVES
     + "struct B<T>(ListUntil<u64, T, 0>);\n",
     ["    a: ListUntil<u16, &'a [u8], 1>,", "    b: Vec<ListUntil<u8, B<u32>, END>>,", "        6\n",
      "T: ReadFrom<L, C>> ReadFrom<L, C> for B<T>", "        8\n"]),
    ("bytes that mean nothing", "use speedy::{Padding, Zeros};\nconst GAP: usize = 5;\n" + DERIVES
     + "struct A { a: Padding<3>, b: std::collections::BTreeSet<B>, c: Zeros<0x10> }\n"
     "#[derive(PartialEq, Eq, PartialOrd, Ord, Readable, Writable)]\nstruct B(Zeros<GAP>, u8);\n" + DERIVES
     + "struct C<const N: usize>(u8, Padding<N>);\n",
     ["    a: Padding<3>,", "    c: Zeros<0x10>,", "        23\n", "struct B(Zeros<GAP>, u8);",
      "((λ h. refl, λ e. refl))", "struct C<const N: usize>(u8, Padding<N>);"]),
    ("a character beside a length", DERIVES + "struct A { n: u8, c: char, #[speedy(length = n)] t: String }\n",
     ["                let c = c.0;\n                Ok(A { n, c, t })\n"]),
    ("padding of a told length", "use speedy::{PaddingBytes, ZeroBytes};\n" + DERIVES
     + "struct A { n: u16, #[speedy(length = n)] t: String, #[speedy(length = (4 - n % 4) % 4)] p: PaddingBytes }\n"
     + DERIVES + "struct B(u8, #[speedy(length = t0)] ZeroBytes);\n",
     ["    p: PaddingBytes,", "<PaddingBytes as OfLength>⟧.seen", "struct B(u8, ZeroBytes);", "        1\n"]),
    ("numbers of one order", "use speedy::{Big, Little, U24};\n" + DERIVES
     + "struct A { a: Big<U24>, b: [Little<u64>; 2], c: std::collections::BTreeSet<B> }\n"
     "#[derive(PartialEq, Eq, PartialOrd, Ord, Readable, Writable)]\nstruct B(Big<i32>, U24);\n",
     ["    a: Big<U24>,", "    b: [Little<u64>; 2],", "        23\n",
      "#[derive(PartialEq, Eq, PartialOrd, Ord, Drop)]\nstruct B(", "signed_Decides x.0.0 y.0.0"]),
    ("keys", "use std::collections::{BTreeMap, HashSet};\n" + DERIVES
     + "struct A<K, T>(BTreeMap<K, u8>, HashSet<T>) where T: std::hash::Hash + Eq, K: Ord;\n",
     ["impl<K: SameKey + Ord, T: SameKey + Hash> Layout for A<K, T>\nwhere\n    T: Hash + Eq,\n    K: Ord,\n{",
      "K: ReadFrom<L, C> + SameKey + Ord", "T: ReadMany<L, C> + SameKey + Hash", "T: Writable<C> + SameKey + Hash"]),
    ("a field that is skipped, and one of few bytes", DERIVES
     + "struct A { #[speedy(varint)] n: u64, #[speedy(skip)] cache: Vec<u8>, last: bool }\n",
     ["type AParts = (Varint, bool);", "ghost seen = { λ it. (it.n, ⟦<bool as Layout>⟧.seen it.last) };",
      "match reader.read_value::<AParts>() {", "n: n.0,", "cache: Vec::new(reader.alloc()),",
      "writer.write_value(&(Varint(self.n), self.last))"]),
    ("a constant before the rest of the bytes, whose clause does not fit into a line", DERIVES
     + "struct A { first: String, second: String, #[speedy(constant_prefix = b\"--\")] line: (), "
     "#[speedy(length = ..)] rest: Vec<u8> }\n",
     ["    ghost seen = { λ it. (\n      (\n        ⟦<String as Layout>⟧.seen it.first,\n"
      "        (⟦<String as Layout>⟧.seen it.second, "
      "(⟦<BeforeALine as Constant>⟧.bytes, ⟦<() as Layout>⟧.seen it.line)),\n      ),\n"
      "      ⟦<Vec<u8> as OfLength>⟧.seen it.rest,\n    ) };"]),
    ("constants and aliases", "pub const SIZE: usize = 4 * (1 + 1);\ntype Name = [u8; SIZE];\n" + DERIVES
     + "struct A { name: Name, id: uuid::Uuid }\n",
     ["use speedy::ext::Uuid;", "pub const SIZE: usize = 4 * (1 + 1);", "type Name = [u8; SIZE];",
      "    name: [u8; SIZE],"]),
    ("types of other modules", "use crate::other::{Point, Line as Stroke};\n" + DERIVES
     + "struct A(Point, Stroke, super::Third);\n",
     ["use super::Third;\nuse crate::other::{Line as Stroke, Point};", "struct A(Point, Stroke, Third);",
      "        <AParts as ReadFrom<L, C>>::minimum_bytes_needed()\n"]),
    ("what is written alone", "#[derive(Writable)]\nstruct A<'a, T>(&'a [T], &'a T, &'static str);\n",
     ["impl<'a, T: Layout> Layout for A<'a, T> {", "impl<'a, C: Context, T: Writable<C>> Writable<C> for A<'a, T> {"]),
    ("parameters named as those of the impls", DERIVES + "struct A<L, C>(L, C);\n",
     ["impl<L2: AsSlice<u8> + Drop, C2: Context, L: ReadFrom<L2, C2>, C: ReadFrom<L2, C2>> ReadFrom<L2, C2>"]),
    ("a number that an enum is generic in", DERIVES
     + "enum A<const N: usize> { B([u8; N]), C { n: u16, a: [u8; N] } }\n",
     ["type ACases<const N: usize> = Either<Case<0, [u8; N]>, Case<1, (u16, [u8; N])>>;",
      "impl<const N: usize> Cases for A<N> {", "let (n, a) = parts;",
      "A::C { n, a } => writer.write_value(&(*n, Part(a))),"]),
    ("keys of parts with laws of the library", "use std::collections::HashMap;\nuse std::net::IpAddr;\n"
     "#[derive(PartialEq, Eq, Hash, Readable, Writable)]\nstruct A(IpAddr, Option<speedy::Endianness>);\n" + DERIVES
     + "struct B(HashMap<A, u8>);\n",
     ["ghost use Rattle.speedy.specs.Equality.{ip_tells, option_tells, order_tells};",
      "(ip_tells ⟦<IpAddr as SameKey>⟧.eq (λ v w. refl) (λ v w. refl) (λ v w. refl) (λ v w. refl) x.0 y.0)",
      "(option_tells (λ v1 w1. order_tells ⟦<Endianness as SameKey>⟧.eq refl refl refl refl v1 w1) x.1 y.1)"]),
    ("casts that lose bits", "const A: u8 = 300u16 as u8 + 1;\nconst B: i64 = (200 + A as i32) as i8 as i64;\n"
     + DERIVES + "enum C { D = (260u32 as u8) as isize, E = 256 as u16 as isize }\n",
     ["const A: u8 = 44 + 1;", "const B: i64 = -11 as i64;", "    D = 4 as isize,\n    E = 256 as u16 as isize,"]),
    ("arrays beside what borrows", "use std::borrow::Cow;\n" + DERIVES
     + "struct A<'a, T>([&'a str; 2], [String; 2], Box<[Cow<'a, str>; 2]>, ([T; 2],), Vec<T>);\n" + DERIVES
     + "enum B<'a, T> { C([String; 2], Box<[&'a str; 2]>), D(Option<[T; 2]>), E([u8; 2], &'a str) }\n" + DERIVES
     + "struct C<T>([T; 2]);\n" + DERIVES + "struct D<T>(Vec<C<u8>>, Option<C<T>>);\n",
     ["let (t0, t1, t2, t3, t4) = parts;", "let (t0, t1) = parts;"]),
    ("keys that borrow", "use std::collections::{BTreeMap, BTreeSet};\n" + DERIVES
     + "struct A<'a>(BTreeMap<&'a str, u8>, BTreeSet<&'a [u8]>);\n",
     ["struct A<'a>(BTreeMap<&'a str, u8>, BTreeSet<&'a [u8]>);"]),
    ("a number that an array is generic in", DERIVES + "struct A<T, const N: usize>([T; N]);\n",
     ["impl<T: Layout, const N: usize> Layout for A<T, N> {"]),
]

# The proofs that are made of a source, by the functions that they are of.
ANSWERED = [
    ("options behind a length", DERIVES + """struct A<'a> {
    #[speedy(length_type = u8)]
    a: Option<&'a str>,
    n: u8,
    #[speedy(length_type = u16)]
    b: Option<Vec<u8>>,
}
""", {"AWritable/write_to": ["let written = rw c.lent_option-a.ensures at c.write_value.ensures in",
                             "rw c.lent_option-b.ensures at written"],
      "AReadFromRefSliceU8/read_from": ["pub returns-in-Ok : goal.returns-in-Ok",
                                        "let answer = rw c.option_value-a.ensures at read.answer in",
                                        "at answer in record { kept = read.kept; answer = answer' }"]}),
    ("variants", DERIVES + """enum A {
    B,
    C(#[speedy(length_type = u8)] Option<String>),
    D { t0: u8, #[speedy(length_type = u8)] t1: Option<String> },
    E([u8; 4], #[speedy(length_type = u8)] Option<String>),
}
""", {"AWriteCases/write_case": ["    let before = c.write_value.ensures in\n"
                                 "    let answer = rw c.lent_option-t0.ensures at before.answer in\n",
                                 "appends _ _ _\n    c.in-C.is (record { kept = before.kept; answer = answer })",
                                 "let answer = rw c.lent_option-t1.ensures at",
                                 "    let before = c.write_value-in-E.ensures in\n"
                                 "    let answer = rw c.lent_option-t1-in-E.ensures at before.answer in\n"],
      "AReadCases/read_case": ["let read = read_of c.in-Ok.is c.read_value.ensures in",
                               "let answer = rw c.option_value-t0.ensures at read.answer in\n    read_arm cases g.C",
                               "state _ _ _\n    c.in-1.is (read.kept, answer)",
                               "pub returns-in-Err-read_value-2 : goal.returns-in-Err-read_value-2"]}),
    ("variants without parts", DERIVES + "enum A { B }\n" + DERIVES + "enum C { D, E }\n", {}),
    ("types called as the traits of impls", DERIVES + "struct Cases(u8);\n" + DERIVES + "struct WriteCases(u8);\n"
     + DERIVES + "struct AReadCases(u8, u8);\n" + DERIVES + "enum A { B(u8), C(u16) }\n",
     {"ASpeedyWriteCases/write_case": ["messages.ASpeedyCases.TheImpl.{ghosts as cases}\n",
                                       "proofs.messages.ASpeedyWriteCases.write_case.Goals as goal\n"],
      "AReadCasesAnyAny/read_case": ["proofs.messages.AReadCasesAnyAny.read_case.Goals as goal\n"]}),
    ("a signed number beside a hash map", "use std::collections::HashMap;\n" + DERIVES
     + "struct A { a: u64, b: HashMap<u32, u64>, c: i32 }\n" + DERIVES + "struct B { a: HashMap<u32, u64>, b: i32 }\n",
     {"AReadFrom/read_from": ["    let held = (rw c.in-Ok.is at c.read_value.type_inv).1.1.1.1.1.0 in\n",
                              "answer = search (rules, read.answer, held.1.1.1.1.0) }"]}),
    ("an array beside an option behind a length", "use std::collections::HashMap;\n" + DERIVES
     + "struct A { a: [u8; 4], b: HashMap<u32, u8>, #[speedy(length_type = u8)] c: Option<String> }\n",
     {"AReadFrom/read_from": ["use Rattle.std.proofs.Common.{rules}\n",
                              "let answer = rw c.option_value-c.ensures at read.answer in\n"
                              "    record { kept = read.kept; answer = search (rules, answer) }"],
      "AWritable/write_to": ["returns g c = rw c.lent_option-c.ensures at c.write_value.ensures"]}),
    ("one variant of many parts", "use std::collections::HashMap;\n" + DERIVES + """enum A {
    B(HashMap<u8, u16>, bool, #[speedy(length_type = u8)] Option<String>, i16, u64),
}
""", {"AWriteCases/write_case": ["let written = rw c.lent_option-t2.ensures at c.write_value.ensures in",
                                 "turned (write_arm (record { Seen = cases.Seen; seen = λ v. v;",
                                 "appends _ _ _) written (search (rules))"],
      "AReadCases/read_case": ["let answer = rw c.option_value-t2.ensures at read.answer in",
                               "c.in-0.is (read.kept, search (rules, answer, held.1.1.1.1.1.0))"]}),
    ("variants whose result has another form", DERIVES + """enum A {
    B { n: u8, #[speedy(length = n)] a: Vec<u16> },
    C([u8; 4], u8, #[speedy(length_type = u8)] Option<String>),
    D(i16),
    E(uuid::Uuid, bool),
}
""", {"AWriteCases/write_case": ["messages.ACasesImpl.TheImpl.{ghosts as cases}\n",
                                 "    c.in-B.is c.write_value.ensures"],
      "AReadCases/read_case": ["use Rattle.std.proofs.Common.{rules}\n",
                               "    c.in-0.is (read.kept, search (rules, read.answer))",
                               "    c.in-1.is (read.kept, search (rules, answer))",
                               "    let held = (rw c.in-Ok-read_value-2.is at c.read_value-in-2.type_inv)",
                               "    c.in-2.is (read.kept, search (rules, read.answer, held))",
                               "    c.in-3.is (read.kept, search (rules, read.answer))"]}),
    ("an enum of many variants with parameters", DERIVES + "enum A<'a, T, U> { B(&'a str, T), C(U), "
     + ", ".join(f"V{it}" for it in range(7)) + " }\n" + DERIVES
     + "enum D<T: Clone> { E(T), " + ", ".join(f"V{it}" for it in range(7)) + " }\n",
     {"AWriteCases/write_case": ["messages.AAnyAnyCases.TheImpl.{ghosts as cases}\n",
                                 "    write_arm (cases g.row.T g.row.U g.T.Layout g.T.Layout-dict g.U.Layout "],
      "AWriteCases/tag": ["returns-in-V0 g c = tag_arm (cases g.row.T g.row.U g.T.Layout "],
      "AReadCasesRefSliceU8/read_case": ["    read_arm (cases g.row.T g.row.U g.T.Layout g.T.Layout-dict g.U.Layout "],
      "DWriteCases/write_case": ["returns-in-E g c = rw c.in-E.is c.write_value.ensures"],
      "DReadCases/read_case": ["rw c.in-0.is (read.kept, read.answer)"]}),
    ("variants of many parts that are cloned", DERIVES + """#[derive(Clone)] enum A {
    B(u8, u16, u8, u8, String),
    C(String, Box<[u8]>, smallvec::SmallVec<[u8; 4]>, #[speedy(skip)] Option<u64>, u32),
    J(smallvec::SmallVec<[u8; 4]>, [String; 2], u8, u8, u8),
}
""" + DERIVES + "#[derive(Clone)] enum D<T> { E(T, T, u8, u8, smallvec::SmallVec<[u8; 4]>), F }\n" + DERIVES
     + "#[derive(Clone, Copy)] enum G { H(u8, u8, u8, u8, u8), I }\n",
     {"AClone/clone": ["returns-in-Ok-10 c = record { cases = rw c.in-C.is (search rules) }"],
      "AWriteCases/write_case": ["c.in-B.is c.write_value.ensures"],
      "AReadCases/read_case": ["c.in-0.is (read.kept, read.answer)"],
      "DClone/clone": ["returns-in-Ok-5 g c = record { cases = rw c.in-E.is (search rules) }"],
      "DWriteCases/write_case": ["c.in-E.is c.write_value.ensures"],
      "DReadCases/read_case": ["c.in-0.is (read.kept, read.answer)"],
      "GWriteCases/write_case": ["c.in-H.is c.write_value.ensures"],
      "GReadCases/read_case": ["c.in-0.is (read.kept, read.answer)"]}),
    ("an enum that is read in groups", DERIVES + "enum A { " + ", ".join(f"V{it}(u8)" for it in range(42)) + " }\n",
     {"AWriteCases/tag": ["returns-in-V41 g c = tag_arm cases _ c.in-V41.is refl"],
      "AWriteCases/write_case": ["    c.in-V41.is c.write_value-in-V41.ensures"],
      "AReadCases/read_case": ["    c.in-13.is (read.kept, read.answer)"],
      "read_a_cases_2": ["messages.ACases2CaseTree.TheImpl.{ghosts as rest}\n",
                         "behind n = right_case (rest.choices.case_of n)\n"],
      "read_a_cases_3": ["behind n = right_case (right_case (rest.choices.case_of n))\n",
                         "let read = read_of c.in-Ok.is c.read_value.ensures in\n    read_at behind cases.seen",
                         "    c.in-41.is (read.kept, read.answer)"]}),
    ("parts of a parameter that is copied", DERIVES + "enum A<V> where V: Copy { B(V, u8), C(V) }\n" + DERIVES
     + "struct D<V: Copy> { a: V, #[speedy(length_type = u8)] b: Option<String> }\n", {
         "AWriteCases/write_case": ["c.in-B.is c.write_value.ensures"],
         "AReadCases/read_case": ["use Rattle.std.proofs.Common.{rules}\n",
                                  "rw c.in-0.is (read.kept, search (rules, read.answer))",
                                  "rw c.in-1.is (read.kept, read.answer)"],
         "DWritable/write_to": ["returns g c = rw c.lent_option-b.ensures at c.write_value.ensures"],
         "DReadFrom/read_from": ["answer = search (rules, read.answer, c.option_value-b.ensures) }"]}),
    ("a signed number beside an option behind a length",
     DERIVES + "struct A(#[speedy(length_type = u8)] Option<String>, i16);\n", {
         "AWritable/write_to": ["returns g c = rw c.lent_option-t0.ensures at c.write_value.ensures"],
         "AReadFrom/read_from": ["use Rattle.std.proofs.Common.{rules}\n",
                                 "answer = search (rules, answer, held.1.1.1.0) }"]}),
    ("a signed number behind a length", DERIVES + """struct A {
    n: u8,
    #[speedy(length = n)]
    a: Vec<u16>,
    b: i32,
}
""" + DERIVES + "struct B(u8, i32);\n", {
    "AReadFrom/read_from": ["use Rattle.std.proofs.Common.{rules}\n",
                            "    let held = (rw c.in-Ok.is at c.read_value.type_inv).1.1.1.1.1.0 in\n"
                            "    record { kept = read.kept; answer = search (rules, read.answer, held.1.1.1.0) }"]}),
    ("signed numbers between what has a length and the numbers that tell it", DERIVES + """struct A {
    n: i8,
    #[speedy(length = n)]
    a: Vec<u16>,
    b: u32,
    c: i64,
    #[speedy(length = n)]
    d: String,
}
""" + DERIVES + "struct B { n: i16, o: i32, p: u8, #[speedy(length = n)] a: Vec<u8>, b: u8, c: i64 }\n" + DERIVES
     + "enum C { D { n: i16, o: i32, p: u8, #[speedy(length = n)] a: Vec<u8>, b: u8, c: i64 }, E(u8) }\n", {
    "AReadFrom/read_from": ["    record {\n      kept = read.kept;\n      answer = search (rules, read.answer, "
                            "held.1.1.0.1.1.0.1.1.0, held.1.1.0.1.1.1.0.1.1.0.1.1.1.0);\n    }\n"],
    "BReadFrom/read_from": ["      answer = search (\n        rules,\n        read.answer,\n",
                            "        held.1.1.1.1.0,\n      );\n    }\n"],
    "CWriteCases/write_case": ["c.in-D.is c.write_value.ensures"],
    "CReadCases/read_case": ["    c.in-0.is (\n      read.kept,\n      search (rules, read.answer, ",
                             ", held.1.1.1.1.0),\n    )\n"]}),
]

MADE += [
    ("an enum", """#[derive(Debug, Readable, Writable)]
pub enum Message {
    /// Nothing.
    Ping,
    Named(String, u8),
    Point { x: u16, y: u16 },
    Text(String),
}
""", ["ghost use Rattle.std.proofs.Common.{inl, inr};\n\nuse speedy::cases::{\n    Case, CaseTree, Cases, Either,",
      "    /// Nothing.\n    Ping,\n    Named(String, u8),\n    Point { x: u16, y: u16 },",
      "type MessageCases = Either<\n    Either<UnitCase<0>, Case<1, (String, u8)>>,",
      "impl Cases for Message {\n    ghost use Rattle.my_crate.specs.declared.messages.Message.{Message};",
      "ghost Seen = { ⟦<MessageCases as CaseTree>⟧.Seen };", "| Message.Ping ↦ inl (inl tt)",
      "| Message.Named t0 t1 ↦ inl (inr (⟦<(String, u8) as Layout>⟧.seen (t0, t1)))",
      "ghost choices = { ⟦<MessageCases as CaseTree>⟧.choices };", "ghost seen = { ⟦<Message as Cases>⟧.seen };",
      "ghost layout = { ⟦<Prefixed<u32, Message> as Layout>⟧.layout };",
      "impl<L: AsSlice<u8> + Drop, C: Context> ReadCases<L, C> for Message {", "            0 => Ok(Message::Ping),",
      "            1 => match reader.read_value() {\n                Ok((t0, t1)) => Ok(Message::Named(t0, t1)),\n"
      "                Err(error) => Err(error),\n            },", "_ => Err(error_invalid_enum_variant()),",
      "read_tagged::<u32, Self, L, C, R>(reader)", "impl<C: Context> WriteCases<C> for Message {",
      "            Message::Named(..) => 1,\n            Message::Point { .. } => 2,",
      "            Message::Ping => Ok(()),\n"
      "            Message::Named(t0, t1) => writer.write_value(&(Part(t0), *t1)),",
      "            Message::Text(t0) => writer.write_value(t0),", "write_tagged::<u32, Self, C, W>(self, writer)"]),
    ("an enum of many variants", DERIVES + "enum A<'a> { " + ", ".join(
        f"V{it}" + ("(&'a str)" if it < 5 else "(u8)" if it < 10 else "") for it in range(40)) + " }\n",
     ["struct ACases2<'a> {\n    cases: PhantomData<&'a ()>,\n}", "    ACases2<'a>,\n>;",
      "impl<'a, C: Context> ReadCases<&'a [u8], C> for A<'a> {", "            19 => Ok(A::V19),",
      "            _ => read_a_cases_2(tag, reader),",
      "fn read_a_cases_2<'a, C: Context, R: LendingReader<&'a [u8], C>>(",
      "        (right_case (⟦<ACases2<'a> as CaseTree>⟧.choices.case_of tag)) result reader.old reader.new }",
      "        39 => Ok(A::V39),",
      "ensures { result ≡ ⟦<Prefixed<u32, A<'a>> as Layout>⟧.layout.least }"]),
    ("a variant of many parts", DERIVES + "enum A { B(u8, u8, u8, u8, u8, u8, u8, u8), C(#[speedy(skip)] u8) }\n",
     ["Ok(parts) => {\n                    let (parts1, parts2) = parts;", "let (t0, t1, t2, t3) = parts1;",
      "1 => Ok(A::C(Default::default())),", "            A::C(_) => Ok(()),"]),
    ("a generic enum", DERIVES + "enum A<T> { B(T), C(Vec<T>, u8) }\n",
     ["type ACases<T> = Either<Case<0, T>, Case<1, (Vec<T>, u8)>>;", "impl<T: Layout> Cases for A<T> {",
      "impl<L: AsSlice<u8> + Drop, C: Context, T: ReadMany<L, C>> ReadCases<L, C> for A<T> {",
      "impl<C: Context, T: Writable<C>> WriteCases<C> for A<T> {"]),
    ("tags of an enum", "const FIRST: u8 = 3;\n#[derive(Readable, Writable)]\n#[speedy(tag_type = u8)]\n"
     "enum Kind { A = FIRST as isize, B, #[speedy(tag = 2 * 10)] C = 10, D, E = 0xfe }\n",
     ["    A = FIRST as isize,\n    B,\n    C = 10,\n    D,\n    E = 0xfe,", "UnitCase<3>", "UnitCase<4>",
      "UnitCase<20>", "UnitCase<21>", "UnitCase<254>", "            254 => Ok(Kind::E),",
      "            Kind::C => 20,"]),
    ("tags of other widths", "#[derive(Readable)]\n#[speedy(tag_type = u7)]\nenum A { B }\n#[derive(Writable)]\n"
     "#[speedy(tag_type = u64_varint)]\nenum C { D }\n",
     ["use speedy::prefixed::{Prefixed, U7};", "type ACases = UnitCase<0>;", "read_tagged::<U7, Self, L, C2, R>",
      "write_tagged::<VarInt64, Self, C2, W>"]),
    ("an enum that borrows", "#[derive(Readable, Writable)]\nenum A<'a> { B(&'a str), C(Vec<u8>) }\n",
     ["type ACases<'a> = ", "impl<'a> Cases for A<'a> {", "ReadFrom<&'a [u8], C> for A<'a> {",
      "read_tagged::<u32, Self, &'a [u8], C, R>(reader)", "            A::B(t0) => writer.write_value(t0),"]),
    ("lengths and constants", """#[derive(Readable, Writable)]
struct Frame {
    #[speedy(constant_prefix = "SP", length_type = u64_varint)]
    parts: Vec<u16>,
    #[speedy(length_type = u8)]
    note: String,
    #[speedy(constant_prefix = b"\\xff\\0")]
    end: bool,
}
""", ["struct BeforeFrameParts {}", "ghost bytes = { 83 ∷ 80 ∷ [] };", 'b"SP"',
      "ghost bytes = { 255 ∷ 0 ∷ [] };", 'b"\\xff\\x00"',
      "    Magic<BeforeFrameParts>,\n    Prefixed<VarInt64, Vec<u16>>,\n"
      "    Prefixed<u8, String>,\n    Magic<BeforeFrameEnd>,",
      "⟦<BeforeFrameParts as Constant>⟧.bytes,", "Ok((_, parts_, note, _, end)) => Ok(Frame {", "parts: parts_.value,",
      "let note: Prefixed<u8, _> = Prefixed {\n            value: Part(&self.note),",
      "Magic::<BeforeFrameParts>::new(),"]),
    ("lengths of maps and sets", """use std::collections::{BTreeMap, HashSet};
#[derive(Readable, Writable)]
struct Index<K: Ord, V> {
    #[speedy(length_type = u16)]
    places: BTreeMap<K, Vec<V>>,
    #[speedy(length_type = u7)]
    seen: HashSet<u32>,
}
""", ["type IndexParts<K, V> = (\n    Prefixed<u16, BTreeMap<K, Vec<V>>>,\n    Prefixed<U7, HashSet<u32>>,\n);",
      "impl<K: SameKey + Ord, V: Layout> Layout for Index<K, V> {", "places: places.value,",
      "let seen: Prefixed<U7, _> = Prefixed {\n            value: Part(&self.seen),"]),
    ("lengths of options", DERIVES + """enum Note {
    A(#[speedy(length_type = u8)] Option<String>, u8),
    B { #[speedy(length_type = u16)] text: Option<Vec<u8>> },
}
""" + DERIVES + "struct C { #[speedy(length_type = u16)] text: Option<Vec<u8>> }\n",
     ["type NoteAParts = (Option<Prefixed<u8, String>>, u8);", "Case<0, NoteAParts>",
      "            0 => match reader.read_value::<NoteAParts>() {",
      "let t0 = option_value(t0);\n                    Ok(Note::A(t0, t1))", "let text = option_value(text);",
      "let text: Option<Prefixed<u16, _>> = lent_option(text);",
      "type CParts = Option<Prefixed<u16, Vec<u8>>>;", "let text = option_value(text);",
      "let text: Option<Prefixed<u16, _>> = lent_option(&self.text);"]),
    ("an option between a number and a length", DERIVES + """struct A {
    n: u8,
    #[speedy(length_type = u8)]
    a: Option<String>,
    #[speedy(length = n)]
    b: Vec<u8>,
}
""", ["(u8, Other<Option<Prefixed<u8, String>>>)", "let (n, a) = before;", "let a = a.0;",
      "let a = option_value(a);", "before: (self.n, Other(a)),"]),
    ("a length that a field tells", DERIVES + """struct Counted {
    length: u8,
    #[speedy(length = length * 2)]
    data: Vec<bool>,
    last: u16,
}
""", ["use speedy::lengths::{Length, WithLength};", "/// The length of [`Counted::data`].\nstruct CountedDataLength {}",
      "impl Length<u8> for CountedDataLength {", "ghost is_told = { λ n. n * 2 < 2 ^ 8 };",
      "ghost told = { λ n. n * 2 };", 'ghost field = { codes "data" };', "Some(length.checked_mul(2)? as usize)",
      '        "data"\n', "type CountedParts = (WithLength<CountedDataLength, u8, Vec<bool>>, u16);",
      "(it.length, ⟦<Vec<bool> as Layout>⟧.seen it.«data»)", "length: data.before,\n                data: data.value,",
      "let data: WithLength<CountedDataLength, _, _> = WithLength {\n            before: self.length,",
      "writer.write_value(&(data, self.last))"]),
    ("lengths of maps and sets that fields tell", "use std::collections::{BTreeSet, HashMap};\n" + DERIVES
     + """struct Tables<K: Ord + std::hash::Hash> {
    count: u8,
    #[speedy(length = count)]
    names: HashMap<K, String>,
    #[speedy(length = count - 1)]
    ids: BTreeSet<K>,
}
""", ["use speedy::lengths::{Length, OfLength, WithLength};", "/// The length of [`Tables::names`].",
      "    WithLength<TablesNamesLength, u8, HashMap<K, String>>,\n",
      "(it.count, ⟦<HashMap<K, String> as OfLength>⟧.seen it.names),\n      ⟦<BTreeSet<K> as OfLength>⟧.seen it.ids,",
      "K: ReadMany<L, C> + SameKey + Ord + Hash> ReadFrom<L, C>\n    for Tables<K> {", "value: Part(&self.names),"]),
    ("lengths behind other parts", DERIVES + """struct Header<T> {
    first: String,
    name_length: u16,
    #[speedy(length_type = u8)]
    note: String,
    #[speedy(varint)]
    count: u64,
    #[speedy(length = name_length)]
    name: String,
    #[speedy(constant_prefix = "V", length = count + name_length as u64)]
    value: Vec<T>,
}
""", ["impl Length<((u16, ()), u64)> for HeaderNameLength {", "ghost is_told = { λ _. Unit {0} };",
      "fn length(((name_length, _), _): ((u16, ()), u64)) -> Option<usize> {",
      "ghost told = { λ it. it.0.1 + it.0.0.0 };", "Some(count.checked_add(name_length as u64)? as usize)",
      "            WithLength<HeaderNameLength, ((u16, Other<Prefixed<u8, String>>), Varint), String>,\n"
      "            Other<Magic<BeforeHeaderValue>>,", "T: ReadMany<L, C>> ReadFrom<L, C> for Header<T> {",
      "let (before2, _) = before;", "name_length,\n                    note: note.0.value,\n"
      "                    count: count.0,\n                    name,",
      "before: ((self.name_length, Other(note)), Varint(self.count)),",
      "before: (name, Other(Magic::<BeforeHeaderValue>::new())),"]),
    ("lengths of what borrows, and those that no field tells", "use std::borrow::Cow;\nconst SIZE: usize = 2 + 2;\n"
     + DERIVES + "struct A<'a>(u8, #[speedy(length = t0)] &'a str, #[speedy(length = SIZE)] Cow<'a, [u8]>);\n",
     ['codes "1"', "fn length(t0: u8) -> Option<usize> {\n        Some(t0 as usize)", "impl Length<()> for AT2Length {",
      "{ λ _. 4 }", "fn length(_numbers: ()) -> Option<usize> {\n        Some(SIZE)",
      "    WithLength<AT2Length, Other<()>, CowSlice<'a, u8>>,", "Ok(A(t1.before, t1.value, t2.value))",
      "before: Other(()),"]),
    ("lengths in cases", DERIVES + """enum Choice {
    A { n: u8, #[speedy(length = n)] items: Vec<u16> },
    B(u32, u8, String, #[speedy(length = (t0 - t1 as u32) * 4 / 3 + 1000 / t0)] Vec<u8>),
}
""", ["struct ChoiceAItemsLength {}", "λ it. (it.0.1 ≤ it.0.0)\n        × ((it.0.0 - it.0.1) * 4 < 2 ^ 32)\n"
      "        × (it.0.0 ≢ 0)\n", "let step1 = t0.checked_sub(t1 as u32)?;", "let step3 = 1000_u32.checked_div(t0)?;",
      "let step4 = (step2 / 3).checked_add(step3)?;", "Some(step4 as usize)",
      "type ChoiceBParts = WithLength<ChoiceBT3Length, ((u32, u8), Other<String>), Vec<u8>>;",
      "| Choice.A t0 t1 ↦ inl (t0, ⟦<Vec<u16> as Layout>⟧.seen t1)",
      "let (before2, t2) = before;\n                    let (t0, t1) = before2;\n"
      "                    Ok(Choice::B(t0, t1, t2.0, t3))", "before: ((*t0, *t1), Other(Part(t2))),"]),
    ("a length by a choice, and by bits", DERIVES + """struct A {
    a: u8,
    b: u16,
    #[speedy(length = if a < 0x80 { (a & 7) as usize } else { b.min(9) as usize << 1 })]
    items: Vec<u8>,
    #[speedy(length = 0x10 - a % 4)]
    rest: Vec<u8>,
}
""", ["ghost told = { λ it. if nat_lt it.0 128 then (bit_and it.0 7) else (min it.1 9 * 2 ^ 1 % 2 ^ 64) };",
      "(a & 7) as usize", "(b.min(9) as usize) << 1", "16_u8.checked_sub(a % 4)?"]),
    ("arrays beside other parts", DERIVES + "struct A { id: u16, hash: [u8; 2 * 2] }\n" + DERIVES
     + "struct B<const N: usize> { id: u16, bytes: [u8; N] }\n",
     ["    hash: [u8; 4],",
      "Ok(parts) => {\n                let (id, hash) = parts;\n                Ok(A { id, hash })",
      "type BParts<const N: usize> = (u16, [u8; N]);",
      "2_usize.saturating_add(<[u8; N] as ReadFrom<L, C>>::minimum_bytes_needed())"]),
    ("names of what is made", DERIVES + "enum Result { Ok(u8), Err }\n" + DERIVES + "struct Context { r#type: u8 }\n"
     + DERIVES + "struct ContextParts(u8, u8);\n" + DERIVES + "struct Layout<Writer> { writer: Writer, ghost: u8 }\n"
     + "const reader: u8 = 1;\n" + DERIVES + "enum E { A { reader: u8, error: u8 } }\n",
     ["Context as SpeedyContext,", "Layout as SpeedyLayout,", "Writer as SpeedyWriter,",
      "use std::result::Result as StdResult;", "enum Result {", "0 => match reader.read_value() {", "    type_: u8,",
      "type ContextPartsParts = (u8, u8);", "    ghost_: u8,", "reader: reader_,"]),
    ("a type called `Drop` beside one that holds itself", DERIVES + "struct Drop(u8);\n"
     + "#[derive(Readable, Writable)]\n#[speedy(depth = 4)]\nstruct Node { a: Drop, b: Vec<Node> }\n",
     ["use std::ops::Drop as StdDrop;", "#[derive(Drop)]\nstruct Drop(u8);", "#[derive(Drop)]\nstruct NodeLevel("]),
    ("keys of one's own", "use std::collections::BTreeMap;\n"
     "#[derive(PartialEq, Eq, PartialOrd, Ord, Readable, Writable)]\nstruct Key { a: u8, b: String }\n"
     "#[derive(PartialEq, Eq, Hash, Readable, Writable)]\nenum Kind { A, B }\n"
     + DERIVES + "struct Table(BTreeMap<Key, u8>);\n",
     ["{ λ x y. part_then", "(unsigned_Decides x.a y.a)", "(bytes_decides (string_bytes x.b) (string_bytes y.b)) };",
      "contracts.messages.Kind.{the_type};", "unit_cases_tell the_type tt told", "          | Kind.B ↦ refl"]),
    ("a rest without a length", DERIVES + "struct A<'a> { a: u8, b: [u8; 4], #[speedy(length = ..)] c: &'a str }\n",
     ["type AParts<'a> = Followed<(u8, [u8; 4]), Rest<&'a str>>;", "impl<'a> Whole for A<'a> {",
      "    type Ends = EndsWithInput;", "⟦<&'a str as OfLength>⟧.seen it.c) };", "let Followed(parts, Rest(c)) = read;",
      "Followed((self.a, Part(&self.b)), Rest(Part(&self.c))).write_to_end(writer)"]),
    ("a rest alone", DERIVES + "struct A { #[speedy(length = ..)] a: Vec<u16> }\n",
     ["type AParts = Rest<Vec<u16>>;", "ghost seen = { λ it. ⟦<Vec<u16> as OfLength>⟧.seen it.a };",
      "Ok(Rest(a)) => Ok(A { a }),", "        Rest(Part(&self.a)).write_to_end(writer)"]),
    ("parts that may be missing", DERIVES + "pub struct A { a: u8, #[speedy(default_on_eof)] b: u16, "
     "#[speedy(default_on_eof)] c: String }\n",
     ["pub type AParts = Followed<u8, UnlessEnd<u16, UnlessEnd<String, ()>>>;", "Some (",
      "pub fn from_parts(alloc: Global, parts: AParts) -> A\n        ensures first { ⟦<u8 as Layout>⟧.seen result.a",
      "ensures b { UnwrapsOrElse (option_map (λ more. more.0) parts.1.0)", "⟦<u16 as Default>⟧.is_default result.b }",
      "⟦<String as MadeWith<Global>>⟧.is_made_with result.c }", "let Followed(a, UnlessEnd(more)) = parts;",
      "c: String::new(alloc),", "UnlessEnd(Some((self.b, UnlessEnd(Some((Part(&self.c), ()))))))"]),
    ("names that the parts at the end have", DERIVES + "pub struct A { first: u8, #[speedy(default_on_eof)] more: u16, "
     "#[speedy(default_on_eof)] result: Option<u8> }\n",
     ["ensures first {", "ensures more2 {", "ensures result_ {", "let Followed(first, UnlessEnd(more2)) = parts;",
      "Some((more, UnlessEnd(more2))) => match more2 {"]),
    ("a rest behind several parts", DERIVES + "struct A { a: String, b: Vec<u8>, #[speedy(length = ..)] c: String }\n",
     ["Ok(read) => {", "let Followed((a, b), Rest(c)) = read;"]),
    ("six counts before seven lists of a parameter", DERIVES + "struct A<T> {\n"
     "    #[speedy(constant_prefix = \"A\")]\n    v: u8,\n    r: [u8; 3],\n"
     + "".join(f"    n{place}: u32,\n" for place in range(6)) + "    #[speedy(length = n0)]\n    data: Vec<T>,\n"
     + "".join(f"    #[speedy(length = n{place})]\n    l{place}: Vec<bool>,\n" for place in range(6)) + "}\n",
     ["impl Length<((((), u32), (u32, u32)), ((u32, u32), u32))> for ADataLength {",
      "fn length((((_, n0), _), _): ((((), u32), (u32, u32)), ((u32, u32), u32)))", "type AParts<T> = WithLength<",
      "((Other<(Magic<BeforeAV>, u8, [u8; 3])>, u32), (u32, u32)),", "seen it.«data»", "&self.data",
      "writer.write_value(&l5)"]),
    ("a length that a signed number tells", DERIVES
     + "struct A { n: i16, #[speedy(length = n)] a: Vec<u8>, b: i8, c: i8 }\n",
     ["ghost is_told = { λ n. pos 0 ≤ℤ n };", "ghost told = { λ n. unsigned_abs n };", "usize::try_from(n).ok()",
      "writer.write_value(&(a, Part(&self.b), Part(&self.c)))"]),
    ("a length that a field of a field tells", DERIVES + "struct Header<T> { kind: u8, note: T, "
     + "#[speedy(varint)] count: u64 }\n" + DERIVES + """struct Outer { id: u8, header: Header<u8> }
""" + DERIVES + """struct Message {
    outer: Outer,
    is_last: bool,
    #[speedy(length = outer.header.count - outer.id as u64)]
    data: Vec<u16>,
}
""", ["use speedy::lengths::{Holds, Length, Other, ReadHolds, WithLength, WriteHolds};",
      "impl<T: Layout> Holds for Header<T> {\n    type Numbers = ((), (), u64);",
      "ghost numbers = { λ it. (tt, tt, it.1.1) };", "        ((), (), self.count)",
      "T: ReadFrom<L, C>> ReadHolds<L, C> for Header<T> {", "        reader.read_value()",
      "T: Writable<C>> WriteHolds<C> for Header<T> {", "        writer.write_value(self)",
      "    type Numbers = (u8, ((), (), u64));", "(it.0, ⟦<Header<u8> as Holds>⟧.numbers it.1) };",
      "(self.id, self.header.numbers())", "ghost is_told = { λ it. it.0.0 ≤ it.0.1.2 };",
      "((outer_id, (_, _, outer_header_count)), _): ((u8, ((), (), u64)), ()),",
      "let step1 = outer_header_count.checked_sub(outer_id as u64)?;",
      "type MessageParts = WithLength<MessageDataLength, (Outer, Other<bool>), Vec<u16>>;",
      "before: (Part(&self.outer), Other(self.is_last)),"]),
    ("lengths of fields of a struct in a variant, whose parts have lengths too", DERIVES
     + "struct A(u8, #[speedy(length = t0)] String, i16);\n" + DERIVES
     + "enum B { C { a_1: u8, a: A, #[speedy(length = a.2 - a_1 as i16 - a.0 as i16)] d: Vec<u8> }, D }\n",
     ["    type Numbers = ((u8, ()), i16);", "{ λ it. ((it.0.0, tt), it.1) };", "((self.0, ()), self.2)",
      "fn length((a_1, ((a_0, _), a_2)): (u8, ((u8, ()), i16)))", "before: (*a_1, Part(a)),"]),
    ("a value in a frame whose length is told", DERIVES + "struct In(u8, String);\n" + DERIVES
     + "struct End { #[speedy(length = ..)] rest: Vec<u8> }\n" + DERIVES + """struct Packet {
    size: u16,
    flag: bool,
    #[speedy(length = size - 2)]
    inner: In,
    #[speedy(length = 4)]
    end: End,
}
""" + DERIVES + "struct Holder<T> { packets: Vec<Packet>, more: T }\n",
     ["use speedy::lengths::{Length, OfLength, Other, WithFrame};", "Whole, WholePart,",
      "    WithFrame<PacketInnerLength, (u16, Other<bool>), In>,\n    WithFrame<PacketEndLength, Other<()>, End>,\n",
      "⟦<In as Layout>⟧.seen it.inner", "⟦<End as Whole>⟧.seen it.end",
      "impl<'a, C: Context> ReadFrom<&'a [u8], C> for Packet {", "let WithFrame {",
      "    fn minimum_bytes_needed() -> usize\n        ensures { result ≡ ⟦<PacketParts as Layout>⟧.layout.least }\n"
      "    {\n        3\n", "let inner: WithFrame<PacketInnerLength, _, _> = WithFrame {", "value: Part(&self.inner),",
      "value: WholePart(&self.end),",
      "impl<'a, C: Context, T: ReadFrom<&'a [u8], C>> ReadFrom<&'a [u8], C> for Holder<T> {"]),
    ("a module, and what is no type", "mod inner { use speedy::*;\n" + DERIVES + "pub enum A { B, C(u8) } }\n",
     ["mod inner {", "ghost use Rattle.my_crate.specs.declared.messages.inner.A.{A};"]),
    ("constants of each kind", DERIVES + "struct A(" + ", ".join(
        f"#[speedy(constant_prefix = {it})] ()" for it in ("'é'", "-1_i8", "true", "b'x'", "7u8")) + ");\n",
     ["{ 195 ∷ 169 ∷ [] }", "{ 255 ∷ [] }", "{ 1 ∷ [] }", "{ 120 ∷ [] }", "{ 7 ∷ [] }"]),
]

MADE += [
    ("skipped parts beside one that may be missing", DERIVES + "struct A(#[speedy(skip)] String, u8, "
     "#[speedy(skip)] Box<str>, #[speedy(default_on_eof)] u16);\n",
     ["            None => A(\n                String::new(alloc),\n                t1,\n"
      "                String::new(alloc).into_boxed_str(),\n                Default::default(),\n            ),"]),
    ("a type that holds itself", """#[derive(Debug, PartialEq, Readable, Writable)]
#[speedy(depth = 10)]
struct A(u8, Option<Box<Self>>, [u8; 3], Vec<(String, A)>, #[speedy(skip)] u8);
#[derive(Readable)]
#[speedy(depth = 3)]
struct B { text: String, all: Vec<Vec<B>> }
#[derive(Writable)]
#[speedy(depth = 1)]
struct C { all: Vec<C> }
""", ["#[derive(Debug, PartialEq, Drop)]", "struct A(u8, Option<Box<A>>, [u8; 3], Vec<(String, A)>, u8);",
      "    Both<Optional<Boxed<Itself>>, Both<Own<AOwn3>, Listed<Both<Own<AOwn>, Itself>>>>,",
      "    type Parts = String;", "impl ReadOwn for AOwn {", "impl WriteOwn for AOwn {", "    type Parts = u8;",
      "ghost use Rattle.my_crate.specs.declared.messages.ALevel.{fold-ALevel};",
      "const A_LEVELS: &ALevel = level_chain!(8, ALevel, level_chain!(2, ALevel));",
      "(λ value. let it = out-A value in (", "ghost Seen = { (at_level ⟦<A as Recursive>⟧.layer 10).Value };",
      "                let (t0, parts2) = parts3;", "Ok(A(t0, t1, t2, t3, Default::default()))",
      "        9\n", "let parts = (value.0, (&value.1, (Part(&value.2), &value.3)));",
      "WriteBelow::<A, ALent<'_>>::write_below::<C2, W>(below, &parts, writer)",
      "Both<Own<BOwn>, Listed<Listed<Itself>>>", "level_chain!(2, BLevel, level_chain!(1, BLevel));",
      "type CParts = Listed<Itself>;", "            return Err(error_out_of_range_length());"]),
    ("an enum that holds itself", """#[derive(Debug, PartialEq, Readable, Writable)]
#[speedy(depth = 8, tag_type = u16)]
enum A {
    #[speedy(tag = 7)]
    None,
    Some { data: Box<Self>, is: u8 },
    Point(u8, [i16; 2], String, Vec<u8>),
    #[speedy(tag = 3)]
    Ok(#[speedy(skip)] u8, Vec<A>),
    Err(#[speedy(skip)] u8),
}
#[derive(Readable)]
#[speedy(depth = 2)]
enum B { All(Vec<B>), None }
""", ["enum A {\n    None,\n    Some { data: Box<A>, is: u8 },", "type ASomeParts = Both<Boxed<Itself>, Own<AOwn>>;",
      "type ASomeLent<'t> = Both<Lent<'t, Boxed<Itself>>, Own<AOwn>>;",
      "type APointParts = (u8, [i16; 2], String, Vec<u8>);",
      "ghost use Rattle.my_crate.specs.declared.messages.A.TheOpen.{A-F};",
      "    ghost layer = { tagged_layer ⟦<u16 as Prefix>⟧.numbers\n        (either_branch\n"
      "        (either_branch (unit_branch 7) (one_branch 8 ⟦<ASomeParts as Shape<A>>⟧.layer))\n",
      "(one_branch 9 (own_layer ⟦<APointParts as Layout>⟧.seen ⟦<APointParts as Layout>⟧.layout))\n"
      "        (either_branch (one_branch 3 ⟦<Listed<Itself> as Shape<A>>⟧.layer) (unit_branch 4))))",
      "          | A-F.Some t0 t1 ↦ inl (inr (t0, t1))\n", "          | A-F.Ok t0 t1 ↦ inr (inr (inl t1))\n",
      "        let tag = match u16::read_number(reader) {", "            7 => Ok(A::None),",
      "                    let (data_, is_) = parts;", "                Ok(t1) => Ok(A::Ok(Default::default(), t1)),",
      "            4 => Ok(A::Err(Default::default())),", "            _ => Err(error_invalid_enum_variant()),",
      "    fn minimum_bytes_needed() -> usize {\n        2\n", "            A::None => u16::write_number(7, writer),",
      "            A::Some {\n                data: data_,\n                is: is_,\n            } => {\n"
      "                u16::write_number(8, writer)?;\n                let parts = (data_, *is_);",
      "WriteBelow::<A, ASomeLent<'_>>::write_below::<C, W>(below, &parts, writer)",
      "            A::Err(_) => u16::write_number(4, writer),",
      "(either_branch (one_branch 0 ⟦<Listed<Itself> as Shape<B>>⟧.layer) (unit_branch 1))\n",
      "          | B-F.All t0 ↦ inl t0\n          | B-F.None ↦ inr tt\n"]),
]

# Each has a line of the source that is noted, words of the note, and lines of what is made.
NOTED = [
    ("a derive that the kit has not",
     "#[derive(serde::Serialize, Readable, Writable)]\n#[serde(default)]\nstruct A(u8);\n", 2,
     "`Serialize` of `A` is left out", ["#[derive(Drop)]\nstruct A(u8);"]),
    ("a derive that a part has not", "#[derive(Default, Copy, Clone, Readable, Writable)]\nstruct A(String);\n", 3,
     "`Default` of `A` is left out: in Rattle `String` has it not", ["#[derive(Clone, Drop)]\nstruct A("]),
    ("a function", "fn f() { g(); }\nimpl A { fn g() {} }\n" + DERIVES + "struct A(u8);\n", 3, "an impl is left out",
     ["struct A(u8);"]),
    ("a field that a feature has", DERIVES + "struct A {\n    #[cfg(feature = \"b\")]\n    b: u8 }\n", 4, "cfg",
     ["b: u8"]),
    ("a type that derives neither", "struct B(u8);\n" + DERIVES + "struct A(u8);\n", 2, "derives neither",
     ["struct A("]),
    ("a layout in memory", "\n#[repr(packed)]\n" + DERIVES + "struct A(u16);\n", 3, "left out", ["struct A(u16);"]),
    ("an order by discriminants", "#[derive(Clone, Copy, PartialEq, Eq, PartialOrd, Ord, Readable, Writable)]\n"
     "#[repr(u8)]\nenum Kind { C, B = 0x10 + 2, D, A = 1 }\n"
     "#[derive(PartialEq, PartialOrd, Readable, Writable)]\n#[repr(i8)]\n"
     "enum Choice { B(u8), #[speedy(tag = 7)] A { it: u16 } = -1 }\n"
     "#[derive(PartialEq, Readable, Writable)]\n#[repr(u8)]\nenum Unordered { B = 2, A = 1 }\n", 3,
     "`repr(u8)` of `Kind` is left out: Rattle has none, and the bytes are the same, though `as` gives the place",
     ["enum Kind {\n    C,\n    A,\n    B,\n    D,\n}", "            18 => Ok(Kind::B),",
      "            Kind::A => 1,", "enum Choice {\n    A { it: u16 },\n    B(u8),\n}",
      "            Choice::A { .. } => 7,", "enum Unordered {\n    B,\n    A,\n}"]),
    ("floats", "use std::collections::BTreeMap;\nconst HALF: f64 = 0.5;\ntype Real = f64;\n" + DERIVES
     + "struct A<T> {\n    one: f32,\n    all: Vec<f64>,\n    some: (Option<[Real; 2]>, BTreeMap<u8, f32>),\n"
     "    more: T,\n}\n#[derive(Writable)]\nenum B<'a> { C(&'a [f32]), D { x: A<f64> } }\n", 7, "`F32`",
     ["F32,", "F64,", "const HALF: f64 = 0.5;", "type Real = F64;", "    one: F32,", "    all: Vec<F64>,",
      "    some: (Option<[F64; 2]>, BTreeMap<u8, F32>),", "self.one", "    C(&'a [F32]),",
      "    D { x: A<F64> },"]),
    ("a key that no bound tells to be one", "use std::collections::{BTreeMap, HashSet};\nuse std::hash::Hash;\n"
     "#[derive(Clone, PartialEq, Readable, Writable)]\nstruct A<K, V: Hash>(BTreeMap<K, u8>, HashSet<V>);\n"
     "#[derive(Readable, Writable)]\nenum B<T> where T: Ord { C(A<T, T>), D }\n", 5,
     "`V` of `A` is declared with `Eq`",
     ["#[derive(Clone, PartialEq, Drop)]\nstruct A<K: Ord, V: Hash + Eq>(BTreeMap<K, u8>, HashSet<V>);",
      "impl<K: SameKey + Ord, V: SameKey + Hash> Layout for A<K, V> {", "enum B<T: Hash>\nwhere\n    T: Ord,\n{"]),
    ("a skipped map of parameters", "use std::collections::HashMap;\n" + DERIVES
     + "struct A<K, V>(u8, #[speedy(skip)] HashMap<K, V>);\n", 4, "`K` of `A` is declared with `Eq + Hash`",
     ["struct A<K: Eq + Hash, V>(", "K: Drop + Eq + Hash, V: Drop> ReadFrom<L, C> for A<K, V> {",
      "impl<C: Context, K: Eq + Hash, V> Writable<C> for A<K, V> {"]),
    ("small vectors of a parameter", "use smallvec::SmallVec;\n#[derive(Clone, Readable, Writable)]\n"
     "struct A<T>(SmallVec<[T; 4]>);\n#[derive(Clone, Readable, Writable)]\nstruct B<T>(A<(T, u8)>);\n"
     "#[derive(Clone, Writable)]\nstruct C(SmallVec<[Box<str>; 4]>);\n", 6, "`T` of `B` is declared with `Default`",
     ["struct A<T: MadeWith<Global>>(SmallVec<T, 4>);", "T: ReadMany<L, C2> + MadeWith<Global>",
      "struct B<T: Default>(A<(T, u8)>);", "#[derive(Drop)]\nstruct C("]),
    ("types less visible than what names them", DERIVES + "pub struct A { pub b: B, c: Vec<C> }\n" + DERIVES
     + "struct B(pub(super) C, E);\n" + DERIVES + "enum C { X(D) }\ntype Ds = Vec<D>;\n" + DERIVES
     + "struct D(u8);\n" + DERIVES + "struct E(u8);\npub(crate) type Es = Option<E>;\n", 10,
     "`D` is made `pub(super)`: `C` names it",
     ["pub struct B(", "pub(super) enum C {", "\ntype Ds = Vec<D>;", "pub(super) struct D(u8);",
      "pub(crate) struct E(u8);"]),
    ("types of other modules of the file", "pub mod a {\n" + DERIVES + "pub struct A(pub super::B, pub b::C);\n"
     + "mod b {\n" + DERIVES + "pub(super) struct C(u8);\n}\n}\n" + DERIVES + "struct B(u8);\n", 11,
     "`B` is made `pub`", ["        pub struct C(u8);", "pub struct B(u8);"]),
    ("helpers of what makes a struct that ends early", DERIVES + "pub struct A {\n"
     "    #[speedy(constant_prefix = \"a\")]\n    n: u8,\n    #[speedy(length = n)]\n    a: Vec<u8>,\n"
     "    #[speedy(default_on_eof)]\n    b: B,\n}\n"
     "#[derive(Default, Readable, Writable)]\nstruct B(u8);\n", 12, "`B` is made `pub`: `A` names it",
     ["pub struct BeforeAN {}", "pub struct AALength {}", "pub type AParts = ", "pub struct B(u8);"]),
    ("aliases of what is no part", "type F = Box<dyn Fn(u8)>;\ntype Result<T> = std::result::Result<T, Error>;\n"
     "enum Error { Io(std::io::Error) }\n" + DERIVES + "struct A(u8);\n", 3, "the alias `Result` is left out",
     ["-> StdResult<A, C::Error>"]),
    ("a type that derives neither and is not read", "struct B { f: fn(u8) -> u8, p: *const u8 }\n" + DERIVES
     + "struct A(u8);\n", 2, "`B` derives neither", ["struct A("]),
    ("a type of a skipped field", "#[derive(Debug, Default)]\nstruct Cache<T>(Vec<T>, Kind);\n"
     "#[derive(Debug, Default)]\nenum Kind { #[default] A, B }\ntype Caches<T> = Vec<Cache<T>>;\n" + DERIVES
     + "struct A<T>(T, #[speedy(skip)] Caches<T>, #[speedy(skip)] Kind);\n", 3,
     "`Cache` derives neither `Readable` nor `Writable`, and is made without impls",
     ["#[derive(Debug, Drop)]\nstruct Cache<T>(Vec<T>, Kind);", "enum Kind {\n    #[default]\n    A,\n    B,\n}",
      "type Caches<T> = Vec<Cache<T>>;", "Vec::new(reader.alloc()), Default::default()"]),
    ("a type of a skipped field, declared behind it", DERIVES + "struct A<T>(u8, #[speedy(skip)] Option<B<T>>);\n"
     + "#[derive(Debug, Readable, Writable)]\nstruct B<T>(std::collections::BTreeSet<T>);\n", 3,
     "`T` of `A` is declared with `Ord`", ["struct A<T: Ord>(u8, Option<B<T>>);"]),
]


class Random:
    """A source of random structs."""

    def __init__(self, seed):
        self.random = random.Random(seed)

    def name(self):
        """A name of any length, which is no keyword."""
        count = self.random.choice([1, 2, 3, 4, 5, 6, 7, 8, 9, 10, 12, 14, 18, 22])
        return "q" + "".join(self.random.choice("abcdefghijklmnopqrstuvwxyz") for _ in range(count))

    def kind(self, depth, borrows, parameters):
        """A type."""
        leaves = ["u8", "u16", "u32", "u64", "i64", "String", "bool", "char", "Uuid", *parameters]
        if borrows:
            leaves += ["&'a str", "&'a [u8]", "Cow<'a, str>", "Cow<'a, [u32]>"]
        if depth == 0 or self.random.random() < 0.4:
            return self.random.choice(leaves)
        form = self.random.choice(["Vec<{}>", "Option<{}>", "({}, {})", "BTreeMap<u16, {}>", "HashMap<String, {}>",
                                   "[u16; 31]", "Result<{}, {}>", "Box<[{}]>", "Box<str>", "Box<{}>", "({}, {}, {})",
                                   "Range<{}>"])
        return form.format(*(self.kind(depth - 1, borrows, parameters) for _ in range(form.count("{}"))))

    def docs(self, indent):
        """Documentation, or none."""
        return f"{indent}/// {self.name()} {self.name()}.\n" if self.random.random() < 0.3 else ""

    def enum(self, place):
        """An enum."""
        variants = []
        for it in range(self.random.choice([1, 2, 3, 4, 5, 8, 11, 16, 17, 40])):
            name = f"{self.name().capitalize()}{it}"
            count = self.random.choice([1, 1, 2, 3, 6, 9])
            kinds = [self.kind(self.random.randrange(3), False, []) for _ in range(count)]
            named = "".join(f"{self.docs('        ')}        {self.name()}{at}: {kind},\n"
                            for at, kind in enumerate(kinds))
            variants.append(self.docs("    ") + self.random.choice([
                f"    {name},\n", f"    {name}({', '.join(kinds)}),\n", f"    {name} {{\n{named}    }},\n"]))
        return f"{self.docs('')}{DERIVES}enum {self.name().capitalize()}{place} {{\n{''.join(variants)}}}\n"

    def struct(self, place):
        """A struct."""
        count = self.random.choice([0, 1, 1, 2, 2, 3, 3, 4, 5, 6, 7, 8, 12, 13, 20, 40])
        parameters = [f"T{it}" for it in range(self.random.choice([0, 0, 0, 1, 2, 3]))]
        wants_loan = self.random.random() < 0.3
        kinds = [self.kind(self.random.randrange(4), wants_loan, parameters) for _ in range(count)]
        used = [it for it in parameters if any(it in kind for kind in kinds)]
        borrows = any("'a" in kind for kind in kinds)
        debug = [it + (": std::fmt::Debug" if self.random.random() < 0.2 else "") for it in used]
        generics = ", ".join((["'a"] if borrows else []) + debug)
        generics = f"<{generics}>" if generics else ""
        where = f" where {used[0]}: Clone + Eq" if used and self.random.random() < 0.3 else ""
        derives = self.random.sample(["Debug", "PartialEq", "Clone", "Eq"], self.random.randrange(4))
        head = f"{self.docs('')}#[derive({', '.join(derives + ['Readable', 'Writable'])})]\n"
        head += f"{self.random.choice(['pub ', '', 'pub(crate) '])}struct {self.name().capitalize()}{place}{generics}"
        if count == 0:
            return head + ";\n"
        if self.random.random() < 0.4:
            fields = ", ".join(self.random.choice(["pub ", ""]) + kind for kind in kinds)
            return f"{head}({fields}){where};\n"
        return f"{head}{where} {{\n{self.named_fields(kinds)}}}\n"

    def named_fields(self, kinds):
        """The fields of a struct, of which earlier ones may tell the lengths of later ones."""
        found, numbers = "", []
        for it, kind in enumerate(kinds):
            name = f"{self.name()}{it}"
            has_length = kind.startswith(("Vec", "String", "Box<[")) and self.random.random() < 0.5
            if has_length and numbers and len(kinds) < 14:
                told = self.random.choice(numbers[-3:])
                found += f"    #[speedy(length = {self.random.choice([told, f'{told} * 2', f'({told} - 1) / 8'])})]\n"
            if kind in ("u8", "u16", "u32", "u64"):
                numbers.append(name)
            found += f"{self.docs('    ')}    {self.random.choice(['pub ', ''])}{name}: {kind},\n"
        return found


def random_source(seed):
    """A source of three structs and two enums."""
    made = Random(seed)
    head = ("use std::borrow::Cow;\nuse std::collections::{BTreeMap, HashMap};\nuse std::ops::Range;\n"
            "use uuid::Uuid;\nuse speedy::{Readable, Writable};\n")
    return head + "\n".join([made.struct(place) for place in range(3)] + [made.enum(place) for place in (3, 4)])
