"""The words of the kit: which names cannot stand in code, which are written otherwise in clauses, and its limits."""

# No name of a field, a variable, a parameter or an item. There are no raw names (`r#type`): each needs another name.
KEYWORDS = frozenset("""
    as async await break const continue crate dyn else enum extern false fn for if impl in let loop match mod move mut
    pub ref return self Self static struct super trait true type unsafe use where while
    abstract become box do final gen macro override priv try typeof unsized virtual yield
    ghost requires ensures""".split())
# Those of them that Rust takes as names (`gen` until its edition of 2024).
OURS = frozenset(("ghost", "requires", "ensures", "gen"))
# No name of a parameter, though of a field and a variable. A made function has no parameter from the file.
NO_PARAMETER = frozenset(("result",))
# Words of clauses. In a clause they are quoted, as `«data»` and `it.«data»`. The made clauses name fields behind a dot,
# or by their place.
CLAUSE_WORDS = frozenset("""
    data record module package using open unfoldable abbrev axiom unfold unfolding ruleset mutual infix infixl infixr
    elim coe fcoe tcoe hcom com Type where use mod pub as let in do""".split())
# Neither a field, a variant, an item nor a parameter, and not to be quoted either.
NOWHERE = frozenset(("deriving",))
# Tactics: no name of a variable in a clause.
TACTICS = frozenset(("assumption", "ground", "search", "grind", "simp", "omega", "cc", "rw", "grw", "hlevel"))
# An item of such a name is refused: what the kit makes lies there.
NO_ITEM = frozenset(("TheVariants",))

# In scope without an import. An item of one of these names takes its place in its module, where these paths still name
# the kit's. A variant or an item `Ok`, `Err`, `Some` or `None` is reached as `Result::Ok`, `Option::None`.
PRELUDE = {
    "Result": "std::result::Result", "Option": "std::option::Option", "Vec": "std::vec::Vec",
    "String": "std::string::String", "Box": "std::boxed::Box", "Drop": "std::ops::Drop",
    "Clone": "std::clone::Clone", "Copy": "std::marker::Copy", "Default": "std::default::Default",
    "PartialEq": "std::cmp::PartialEq", "Eq": "std::cmp::Eq", "PartialOrd": "std::cmp::PartialOrd",
    "Ord": "std::cmp::Ord", "Ok": "std::result::Result::Ok", "Err": "std::result::Result::Err",
    "Some": "std::option::Option::Some", "None": "std::option::Option::None",
}

# Two items of a module (structs, enums, functions, traits, modules) may not differ in the case of their letters alone,
# as `Wire` and `WIRE`: the kit makes a file of each. Fields, variants, aliases and constants may.
FOLDED = ("struct", "enum", "fn", "trait", "mod")

MOST_VARIANTS = 256
MOST_PARTS_OF_A_TUPLE = 11
# The types of const parameters: integers and `bool`, no `char`, with no default; a type parameter may have one. The
# length of an array is a number or the name of one parameter, nothing computed of it. A type parameter that no field
# names is refused, as in Rust: `PhantomData` names it.
CONST_TYPES = ("u8", "u16", "u32", "u64", "u128", "usize", "i8", "i16", "i32", "i64", "i128", "isize", "bool")
# Names are of ASCII letters, digits and `_`.
IS_NAME = r"[A-Za-z_][A-Za-z0-9_]*"
