"""Reads the items of a Rust file from its tokens."""
import expressions
import syntax
from refusal import Refusal
from tokens import cut
from words import KEYWORDS, OURS

# What else a file may hold.
OTHER_ITEMS = {
    "fn": "a function", "impl": "an impl", "trait": "a trait", "static": "a static", "mod": "a module",
    "union": "a union", "extern": "an `extern`", "macro_rules": "a macro", "unsafe": "`unsafe` code",
    "async": "an `async` function", "macro": "a macro", "auto": "a trait",
}


# So deep may types, expressions and modules nest.
MOST_DEEP = 60


class Deeper:
    """Counts how deep a parser stands, which has a limit."""

    def __init__(self, parser):
        self.parser = parser

    def __enter__(self):
        self.parser.depth += 1
        if self.parser.depth > MOST_DEEP:
            raise self.parser.refuse(f"this nests more than {MOST_DEEP} deep: declare types of its parts")

    def __exit__(self, *_):
        self.parser.depth -= 1


class Parser:
    """Goes through the tokens once."""

    def __init__(self, tokens):
        self.tokens = tokens
        self.at = 0
        self.depth = 0

    # Tokens.

    @property
    def token(self):
        """The token here."""
        return self.tokens[self.at]

    @property
    def line(self):
        """Its line."""
        return self.token.line

    def ahead(self, count=1):
        """A later token."""
        return self.tokens[min(self.at + count, len(self.tokens) - 1)]

    def refuse(self, message, line=None):
        """The error that this is not taken."""
        return Refusal(line or self.line, message)

    def advance(self):
        """Takes the token here."""
        token = self.token
        if token.kind != "end":
            self.at += 1
        return token

    def is_mark(self, text):
        """Whether this mark stands here."""
        return self.token.kind == "mark" and self.token.text == text

    def is_word(self, text):
        """Whether this keyword stands here."""
        return self.token.kind == "name" and self.token.text == text and self.token.suffix != "raw"

    def take_mark(self, text):
        """Takes this mark if it is here."""
        found = self.is_mark(text)
        if found:
            self.advance()
        return found

    def take_word(self, text):
        """Takes this keyword if it is here."""
        found = self.is_word(text)
        if found:
            self.advance()
        return found

    def expect(self, text):
        """Takes this mark, which has to be here."""
        if not self.take_mark(text):
            raise self.refuse(f"here `{text}` is missing, before `{self.token.text}`")

    def name(self, what):
        """Takes a name that is no keyword, or a raw one."""
        is_keyword = self.token.text in KEYWORDS - OURS and self.token.suffix != "raw"
        if self.token.kind != "name" or is_keyword:
            raise self.refuse(f"here the name of {what} is missing, before `{self.token.text}`")
        return self.advance().text

    # The file.

    def file(self):
        """All of it."""
        found = syntax.File()
        while self.token.kind != "end":
            self.item_or_docs(found)
        return found

    def item_or_docs(self, found):
        """One item, or documentation or an attribute of what holds the items."""
        if self.token.kind == "inner_doc":
            if found.uses or found.items:
                raise self.refuse("`//!` stands at the head of the file")
            found.docs.extend(self.advance().value)
        elif self.is_mark("#") and self.ahead().text == "!":
            line = self.advance().line
            self.advance()
            self.expect("[")
            self.balanced("]")
            self.expect("]")
            found.notes.append((line, "this attribute of the file is left out"))
        else:
            self.item(found)

    def item(self, found):
        """One item. What is no type, constant, alias or import is passed by with a note."""
        docs, attributes = self.attributes()
        line, visibility = self.line, self.visibility()
        if self.is_word("use"):
            found.uses.extend(self.use(line, visibility))
        elif self.is_word("const") and self.ahead().text not in ("fn", "unsafe", "_", "async", "extern"):
            self.constant(found, line, docs, visibility)
        elif self.is_word("type"):
            self.alias(found, line, docs, visibility)
        elif self.is_word("struct") or self.is_word("enum"):
            found.items.append(self.declared(line, docs, attributes, visibility))
        elif self.is_word("mod") and self.ahead(2).text == "{":
            found.items.append(self.module(line, docs, attributes, visibility))
        else:
            self.other_item(found, line)

    def module(self, line, docs, attributes, visibility):
        """`mod name { .. }`."""
        self.advance()
        name = self.name("a module")
        self.expect("{")
        inner = syntax.File()
        with self.deeper():
            while not self.is_mark("}"):
                if self.token.kind == "end":
                    raise self.refuse("here `}` is missing")
                self.item_or_docs(inner)
        self.expect("}")
        return syntax.Module(line, docs, attributes, visibility, name, inner)

    def other_item(self, found, line):
        """Passes by what is no type, with a note."""
        text = self.token.text
        if self.token.kind == "end":
            raise self.refuse("behind these attributes an item is missing")
        what = OTHER_ITEMS.get(text, "this constant" if text == "const" else None)
        if self.ahead().text in ("!", "::"):
            what = "a macro"
        if what is None:
            raise self.refuse(f"`{text}` begins no item")
        self.skip_item()
        found.notes.append((line, f"{what} is left out of what is made: it stays in this file"))

    def skip_item(self):
        """Takes the tokens of an item, up to its `;` or the end of its braces."""
        pairs = {"(": ")", "[": "]", "{": "}"}
        self.advance()
        while not self.take_mark(";"):
            if self.token.kind == "end" or self.is_mark("}"):
                raise self.refuse("this item has no end")
            opening = self.token.text if self.token.kind == "mark" else ""
            self.advance()
            if opening in pairs:
                self.balanced(pairs[opening])
                self.advance()
                if opening == "{" and not self.is_mark(";"):
                    return

    def deeper(self):
        """Counts how deep what is read nests, which has a limit."""
        return Deeper(self)

    def visibility(self):
        """`pub`, `pub(crate)` and the like, with a blank behind it; or nothing."""
        if not self.take_word("pub"):
            return ""
        if self.is_mark("(") and self.ahead().text in ("crate", "super", "self") and self.ahead(2).text == ")":
            self.advance()
            inner = self.advance().text
            self.expect(")")
            return "" if inner == "self" else f"pub({inner}) "
        if self.is_mark("(") and self.ahead().text == "in":
            raise self.refuse("`pub(in ..)` is not taken: write `pub(crate)` or `pub(super)`")
        return "pub "

    def attributes(self):
        """The documentation and the attributes before an item, a field or a variant."""
        docs, found = [], []
        while True:
            if self.token.kind == "doc":
                docs.extend(self.advance().value)
            elif self.token.kind == "inner_doc":
                raise self.refuse("`//!` stands at the head of the file")
            elif self.is_mark("#"):
                found.append(self.attribute())
            else:
                return docs, found

    def attribute(self):
        """`#[..]`."""
        line = self.advance().line
        self.expect("[")
        if self.token.kind != "name":
            raise self.refuse("here the name of an attribute is missing")
        name = self.advance().text
        while self.take_mark("::"):
            name += "::" + self.name("an attribute")
        inner = self.balanced("]")
        self.expect("]")
        return syntax.Attribute(line, name, tuple(inner))

    def balanced(self, closing):
        """The tokens up to this mark, with brackets in pairs."""
        pairs, stack, found = {"(": ")", "[": "]", "{": "}"}, [], []
        while stack or not self.is_mark(closing):
            token = self.token
            if token.kind == "end":
                raise self.refuse(f"here `{(stack or [closing])[-1]}` is missing")
            if token.kind == "mark" and token.text in pairs:
                stack.append(pairs[token.text])
            elif token.kind == "mark" and token.text in pairs.values():
                if not stack or stack.pop() != token.text:
                    raise self.refuse(f"`{token.text}` closes nothing")
            found.append(self.advance())
        return found

    # Items.

    def use(self, line, visibility):
        """`use path::{..};`."""
        self.advance()
        self.take_mark("::")
        found = self.use_tree(line, visibility, ())
        self.expect(";")
        return found

    def use_tree(self, line, visibility, path):
        """What a path brings, with all in its braces."""
        if self.take_mark("{"):
            found = []
            with self.deeper():
                while not self.is_mark("}"):
                    found.extend(self.use_tree(self.line, visibility, path))
                    if not self.take_mark(","):
                        break
            self.expect("}")
            return found
        if self.take_mark("*"):
            return [syntax.Use(line, visibility, path, "*")]
        if self.token.kind != "name":
            raise self.refuse(f"here a name is missing, before `{self.token.text}`")
        part = self.advance().text
        if part == "self" and path:
            part_path = path
        else:
            part_path = path + (part,)
        if self.take_mark("::"):
            return self.use_tree(line, visibility, part_path)
        name = part_path[-1]
        if self.take_word("as"):
            name = "_" if self.is_word("_") else None
            name = self.advance().text if name else self.name("an import")
        return [syntax.Use(line, visibility, part_path, name)] if name != "_" else []

    def constant(self, found, line, docs, visibility):
        """`const NAME: TYPE = VALUE;`. One whose value is no sum of numbers is passed by with a note."""
        self.advance()
        name = self.name("a constant")
        self.expect(":")
        start = self.at
        try:
            kind = self.type()
            self.expect("=")
            value = expressions.expression(self)
            self.expect(";")
        except Refusal:
            self.at = start
            self.skip_item()
            found.notes.append((line, f"the constant `{name}` is left out of what is made: it stays in this file"))
            return
        found.items.append(syntax.Constant(line, docs, visibility, name, kind, value))

    def alias(self, found, line, docs, visibility):
        """`type NAME<..> = TYPE;`. One of what is no type of a part is passed by with a note."""
        self.advance()
        name = self.name("an alias")
        start = self.at
        try:
            parameters = self.parameters()
            self.expect("=")
            target = self.type()
            self.expect(";")
        except Refusal:
            self.at = start
            self.skip_item()
            found.notes.append((line, f"the alias `{name}` is left out of what is made: it stays in this file"))
            return
        found.items.append(syntax.Alias(line, docs, visibility, name, target, parameters))

    def declared(self, line, docs, attributes, visibility):
        """A struct or an enum. What is not taken of one that derives neither trait is no fault of the file."""
        start, is_enum = self.at, self.is_word("enum")
        try:
            return (self.enum if is_enum else self.struct)(line, docs, attributes, visibility)
        except Refusal as refusal:
            self.at = start + 1
            name = self.name("an enum" if is_enum else "a struct")
            self.at = start
            self.skip_item()
            return syntax.Struct(line, docs, attributes, visibility, name, [], [], refusal=refusal)

    def struct(self, line, docs, attributes, visibility):
        """A struct of any shape."""
        self.advance()
        name = self.name("a struct")
        parameters = self.parameters()
        wheres = self.wheres()
        shape, fields = "unit", []
        if self.is_mark("{"):
            shape, fields = "named", self.named_fields()
        elif self.is_mark("("):
            shape, fields = "tuple", self.tuple_fields()
            wheres += self.wheres()
            self.expect(";")
        else:
            self.expect(";")
        return syntax.Struct(line, docs, attributes, visibility, name, parameters, wheres, shape=shape, fields=fields)

    def enum(self, line, docs, attributes, visibility):
        """An enum."""
        self.advance()
        name = self.name("an enum")
        parameters = self.parameters()
        wheres = self.wheres()
        self.expect("{")
        variants = []
        while not self.is_mark("}"):
            variants.append(self.variant())
            if not self.take_mark(","):
                break
        self.expect("}")
        return syntax.Enum(line, docs, attributes, visibility, name, parameters, wheres, variants=variants)

    def variant(self):
        """A variant of an enum."""
        docs, attributes = self.attributes()
        line, name = self.line, self.name("a variant")
        shape, fields, discriminant = "unit", [], None
        if self.is_mark("{"):
            shape, fields = "named", self.named_fields()
        elif self.is_mark("("):
            shape, fields = "tuple", self.tuple_fields()
        if self.take_mark("="):
            discriminant = expressions.expression(self)
        return syntax.Variant(line, docs, name, shape, fields, discriminant, attributes)

    def named_fields(self):
        """`{ a: A, b: B }`."""
        self.expect("{")
        fields = []
        while not self.is_mark("}"):
            docs, attributes = self.attributes()
            visibility = self.visibility()
            line, name = self.line, self.name("a field")
            self.expect(":")
            fields.append(syntax.Field(line, docs, visibility, name, self.type(), attributes))
            if not self.take_mark(","):
                break
        self.expect("}")
        return fields

    def tuple_fields(self):
        """`(A, B)`."""
        self.expect("(")
        fields = []
        while not self.is_mark(")"):
            docs, attributes = self.attributes()
            visibility, line = self.visibility(), self.line
            fields.append(syntax.Field(line, docs, visibility, None, self.type(), attributes))
            if not self.take_mark(","):
                break
        self.expect(")")
        return fields

    # Generics.

    def parameters(self):
        """`<'a, T: B = D, const N: usize>`, or nothing."""
        found = []
        if not self.take_mark("<"):
            return found
        while not self.is_mark(">"):
            found.append(self.parameter())
            if not self.take_mark(","):
                break
        self.expect(">")
        return found

    def parameter(self):
        """One of them."""
        line = self.line
        if self.is_mark("#"):
            raise self.refuse("an attribute of a parameter is not taken: leave it out")
        if self.token.kind == "lifetime":
            name = self.advance().text
            bounds = self.bounds() if self.take_mark(":") else ()
            return syntax.Parameter(line, "lifetime", name, bounds)
        if self.take_word("const"):
            name = self.name("a constant")
            self.expect(":")
            kind = self.type()
            if self.is_mark("="):
                raise self.refuse("Rattle has no default of a const parameter: leave it out")
            return syntax.Parameter(line, "const", name, constant_type=kind)
        name = self.name("a type parameter")
        bounds = self.bounds() if self.take_mark(":") else ()
        default = self.type() if self.take_mark("=") else None
        return syntax.Parameter(line, "type", name, bounds, default)

    def bounds(self):
        """`A + 'a + ?Sized`."""
        found = []
        while True:
            line = self.line
            if self.token.kind == "lifetime":
                found.append(syntax.Lifetime(line, self.advance().text))
            elif self.take_mark("?"):
                self.name("a bound")
                found.append(syntax.Unsized(line))
            elif self.is_word("for"):
                raise self.refuse("a bound with `for<..>` is not taken: Rattle's bounds bind no lifetime")
            elif self.token.kind == "name" or self.is_mark("::"):
                found.append(self.named_type())
            else:
                return tuple(found)
            if not self.take_mark("+"):
                return tuple(found)

    def wheres(self):
        """`where A: B, ..`, or nothing."""
        found = []
        if not self.take_word("where"):
            return found
        while not (self.is_mark("{") or self.is_mark(";")):
            line = self.line
            if self.token.kind == "lifetime":
                subject = syntax.Lifetime(line, self.advance().text)
            else:
                subject = self.type()
            self.expect(":")
            found.append(syntax.Where(line, subject, self.bounds()))
            if not self.take_mark(","):
                break
        return found

    # Types.

    def type(self):
        """A type."""
        with self.deeper():
            return self.inner_type()

    def inner_type(self):
        """The same, within what counts how deep it stands."""
        line = self.line
        if self.is_mark("&") or self.is_mark("&&"):
            return self.reference()
        if self.take_mark("["):
            item = self.type()
            if self.take_mark("]"):
                return syntax.Slice(line, item)
            self.expect(";")
            length = expressions.expression(self)
            self.expect("]")
            return syntax.Array(line, item, length)
        if self.take_mark("("):
            return self.tuple_type(line)
        if self.is_mark("<"):
            raise self.refuse("a type by `<T as Trait>::Name` is not taken: write out what it stands for")
        for text, what in (("*", "a raw pointer"), ("!", "the type `!`"), ("fn", "a function pointer"),
                           ("dyn", "a `dyn` value"), ("impl", "an `impl` type"), ("unsafe", "a function pointer"),
                           ("extern", "a function pointer"), ("_", "a type that is left out")):
            if self.token.text == text and self.token.kind in ("mark", "name"):
                raise self.refuse(f"{what} has no bytes: it is no part of what is read or written")
        return self.named_type()

    def reference(self):
        """`&'a T`, or `&&'a T`."""
        line = self.line
        if self.is_mark("&&"):
            raise self.refuse("a reference to a reference is not taken: name the lifetimes of a type of your own")
        self.advance()
        lifetime = None
        if self.token.kind == "lifetime":
            lifetime = syntax.Lifetime(self.line, self.advance().text)
        mutable = self.take_word("mut")
        return syntax.Reference(line, lifetime, mutable, self.type())

    def tuple_type(self, line):
        """What stands behind `(`."""
        parts, comma = [], False
        while not self.is_mark(")"):
            parts.append(self.type())
            comma = self.take_mark(",")
            if not comma:
                break
        self.expect(")")
        if len(parts) == 1 and not comma:
            return parts[0]
        return syntax.Tuple(line, tuple(parts))

    def named_type(self):
        """A path with what it is applied to."""
        line = self.line
        self.take_mark("::")
        path, arguments = [], ()
        while True:
            if self.token.kind != "name" or (self.token.text in KEYWORDS
                                             and self.token.text not in ("crate", "self", "super", "Self")):
                raise self.refuse(f"here a type is missing, before `{self.token.text}`")
            path.append(self.advance().text)
            if self.is_mark("<"):
                if arguments:
                    raise self.refuse("a path with two lists of arguments is not taken")
                arguments = self.arguments()
            if not self.take_mark("::"):
                break
        if self.is_mark("("):
            raise self.refuse("a bound on functions is not taken: functions have no bytes")
        if self.is_mark("!"):
            raise self.refuse("a macro is not taken: write out what it makes")
        return syntax.Named(line, tuple(path), arguments)

    def arguments(self):
        """`<'a, T, 4>`."""
        self.expect("<")
        found = []
        while not self.is_mark(">"):
            if self.token.kind == "lifetime":
                found.append(syntax.Lifetime(self.line, self.advance().text))
            elif self.token.kind in ("integer", "char", "byte") or self.is_mark("-") or self.is_mark("{"):
                found.append(self.constant_argument())
            else:
                found.append(self.type())
                if self.is_mark("="):
                    raise self.refuse("a bound on an associated type is not taken: write out what it stands for")
            if not self.take_mark(","):
                break
        self.expect(">")
        return tuple(found)

    def constant_argument(self):
        """A number, or a constant in braces."""
        if self.take_mark("{"):
            value = expressions.expression(self)
            self.expect("}")
            return value
        return expressions.unary(self)


def parse(text):
    """The items of a Rust file."""
    return Parser(cut(text)).file()
