"""What random Rust files hold beside their types' own parts: names, documentation, comments and other items."""

# Names of types. Those of the second list are also names of the prelude, of the library or of made code.
TYPES = ("Header Entry Packet Kind Colour Record Point Frame Chunk Config Wire Session Peer Account Vector4 "
         "Node2D A B1 Frequency MessageHello HelloParts").split()
ODD_TYPES = ("Result Option Drop Context Part Case Cases CaseTree Magic Layout Option_ Writer Reader Either "
             "UnitCase Prefixed WithLength Length Other Varint Constant ReadFrom Writable_ ItemByItem SameKey "
             "Error Parts F32 AsSlice PhantomData Default_ Seen Codec Self_ WIRE Rattle HeaderParts EntryCases "
             "BeforeFrameData Message Writable WriteCases WriteLevel ReadLevel ReadOwn WriteOwn OwnParts Levels "
             "Recursive Shape Itself Both Lent Own ReadToEnd WriteToEnd Whole WholePart MemoryReader Holds OfLength "
             "ReadPrefix WritePrefix EncodedList ListUntil MadeWith Global LendingReader Endianness_ MessageReadCases "
             "EntryWritable AnyCases Any Box_ Hash_").split()
FIELDS = ("id name kind flags count size width height items bytes text label first second offset checksum "
          "parent version port owner created note left right ratio enabled").split()
# Names that clauses, made code and its helpers use, or that differ little from another.
ODD_FIELDS = ("writer reader error tag parts before ghost ensures requires data record open ruleset result value "
              "length it t0 n self_ seen elim layout format least bytes_needed alloc now new old x L C a_b ab a__b "
              "A T match_ some none ok err parts1 parts2 before2 step1 step2 tt inl inr u8 String_ _unused r "
              "a_length codes rw search using module import more read").split()
VARIANTS = ("Ping Pong Hello Data Close Open Red Green Blue Move Text Empty Leaf Branch A B C D Get Put Login "
            "Logout Start Stop Unknown Point Line Circle V4 V6").split()
ODD_VARIANTS = ("Ok Err Some None Default Self_ Result Parts Cases Case Tag Ghost Seen Drop Vec String U8 "
                "Ensures").split()
PARAMETERS = "T U V".split()
ODD_PARAMETERS = "L C R W Context E Part Item Reader Writer Error S A T0 Seen Self_ Layout Case Value".split()
CONSTANTS = "SIZE MAX_NAMES WIDTH UNIT N FIRST LIMIT COUNT_2 C0".split()
FOREIGN = "größe λ_ имя 名前 Ünder".split()
RAW = "r#type r#match r#in r#move r#fn r#ref".split()
PLAIN_DOCS = ("The number of items.", "What follows, as in `Header`.", "See [`Vec`] and <https://example.com/a_b>.",
              "It is *always* there.", "# Examples", "", "  indented, with `code`", "- a list, of one")
ODD_DOCS = ("A \tb\tc", "λ x. x ≡ ⟦T⟧.seen → `{}`", "🦀 日本語 “quotes” \\ \\n %s {0}", "*/ /* // /** */",
            "≥ 1 — “≤”",
            " trailing blanks   ", "\tbegins with a tab", "r#\"raw\"# 'x' '\\''", "ghost ensures { result ≡ 1 }",
            "#[derive(Nothing)]", "} ) ] > ;", "\u00a0no\u200bbreak\u200d", "a very long line " * 12,
            "combining e\u0301 and right-to-left \u0627\u0644\u0639", "control \x0c and \x7f")
COMMENTS = ("// plain", "// λ 🦀 */", "/* one */", "/* two\n   lines */", "/* a /* nested */ one */", "//// four",
            "//", "/**/", "/***/", "// \"an open quote", "/* 'a */ // { ( [", "// TODO: #[speedy(skip)]")
# Other items of a file of a project. `{name}` is a type of the file that has no parameters.
OTHERS = {
    "fn": "pub fn half(x: u32) -> u32 { if x > 1 { x / 2 } else { 0 } }",
    "const_fn": "pub const fn twice(x: usize) -> usize { x << 1 }",
    "generic_fn": "fn show<T: std::fmt::Debug>(it: &T) -> String where T: Clone { format!(\"{:?} {{}}\", it) }",
    "impl": "impl {name} {{\n    pub const LEVEL: u8 = b'\\'';\n\n    pub fn hello(&self) -> &'static str {{\n"
            "        r#\"a \"quoted\" text }}\"#\n    }}\n}}",
    "impl_trait": "impl std::fmt::Display for {name} {{\n    fn fmt(&self, f: &mut std::fmt::Formatter<'_>) "
                  "-> std::fmt::Result {{\n        write!(f, \"{{}}\", '}}')\n    }}\n}}",
    "trait": "pub trait Sized2 { type Out; const K: u8 = 1; fn size(&self) -> usize { 0 } }",
    "static": "static TABLE: [u8; 3] = [1, 2, b'\"'];",
    "const_text": "pub const NAME: &str = \"a \\\"name\\\"; {\";",
    "const_bytes": "const MAGIC_BYTES: &[u8; 4] = b\"\\x7fELF\";",
    "const_call": "const SUM: u32 = u32::MAX - 3;",
    "mod": "mod inner {\n    pub struct Inner;\n    pub mod deeper { pub fn f() {} }\n}",
    "tests": "#[cfg(test)]\nmod tests {\n    use super::*;\n\n    #[test]\n    fn works() {\n"
             "        assert_eq!(1 + 1, 2, \"{}\", 'a');\n    }\n}",
    "macro_rules": "macro_rules! many {\n    ($($a:ident),* $(,)?) => { $(let _ = $a;)* };\n}",
    "macro_call": "thread_local! { static DEPTH: std::cell::Cell<u8> = std::cell::Cell::new(0); }",
    "plain_struct": "#[derive(Debug, Clone)]\npub struct PlainOnly { pub f: fn(u8) -> u8, pub p: *const u8 }",
    "plain_enum": "pub enum PlainKind { A = 1, B }",
    "union": "#[repr(C)]\nunion Both { a: u32, b: f32 }",
    "extern": "extern \"C\" { fn abs(x: i32) -> i32; }",
    "extern_crate": "extern crate std as standard;",
    "generic_alias": "pub type Pairs<T> = Vec<(T, T)>;",
    "alias_fn": "type Callback = Box<dyn Fn(&str) -> u8 + Send>;",
}


class Words:
    """Draws names, documentation and comments."""

    def __init__(self, source):
        self.source = source
        self.random = source.random

    def pick(self, plain, odd, feature, taken):
        """A name that is not taken yet, of the odd ones where the feature is drawn."""
        pool = odd if self.source.draws(feature) else plain
        if feature == "odd_fields" and self.source.draws("raw_names"):
            pool = RAW
        elif feature != "odd_parameters" and self.source.draws("foreign_names"):
            pool = FOREIGN
        free = [it for it in pool if it not in taken] or [f"{it}{len(taken)}" for it in plain]
        name = self.random.choice(free)
        taken.add(name)
        return name

    def docs(self, indent):
        """Lines of documentation, or none."""
        if not self.source.draws("docs"):
            return ""
        lines = [self.random.choice(ODD_DOCS if self.source.draws("odd_docs") else PLAIN_DOCS)
                 for _ in range(self.random.randint(1, 3))]
        if self.source.draws("block_docs"):
            inner = "\n * ".join(it for it in lines if "*/" not in it and "/*" not in it)
            return f"{indent}/** {inner} */\n"
        if self.source.draws("doc_attribute"):
            return f"{indent}#[doc = \"says {len(lines)}\"]\n"
        blank = self.random.choice([" ", " ", ""])
        return "".join(f"{indent}///{blank}{it}\n" for it in lines)

    def comment(self, indent):
        """A comment on lines of its own, or none."""
        if not self.source.draws("comments"):
            return ""
        return f"{indent}{self.random.choice(COMMENTS)}\n"

    def header(self):
        """Documentation of the file, or none."""
        if not self.source.draws("inner_docs"):
            return ""
        lines = [self.random.choice(ODD_DOCS if self.source.draws("odd_docs") else PLAIN_DOCS) for _ in range(2)]
        return "".join(f"//! {it}\n" for it in lines) + "\n"

    def visibility(self):
        """What stands before an item or a field."""
        if self.source.draws("visibility"):
            return self.random.choice(["pub(crate) ", "pub(super) ", "pub(self) ", "pub(in crate) "
                                       if self.source.draws("pub_in") else "pub "])
        return self.random.choice(["pub ", "pub ", ""])

    def noise(self, indent, place):
        """Attributes that say nothing of the bytes, or none."""
        found = ""
        if self.source.draws("lints"):
            found += indent + self.random.choice(["#[allow(dead_code)]", "#[allow(non_camel_case_types, unused)]",
                                                  "#[warn(missing_docs)]"]) + "\n"
        if self.source.draws("hidden"):
            found += f"{indent}#[doc(hidden)]\n"
        if place == "item" and self.source.draws("cfg_attr"):
            found += f"{indent}#[cfg_attr(feature = \"json\", derive(serde::Serialize))]\n"
        if place != "item" and self.source.draws("cfg"):
            found += f"{indent}#[cfg(not(feature = \"small\"))]\n"
        return found

    def other_items(self, plain_types):
        """Items of a project beside its types, each once, or none."""
        found = []
        for name, text in OTHERS.items():
            if self.source.draws(f"item_{name}"):
                if "{name}" in text and not plain_types:
                    continue
                found.append(text.format(name=self.random.choice(plain_types)) if "{name}" in text else text)
        return found
