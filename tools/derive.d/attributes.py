"""What the attributes of items, fields and variants say."""
from dataclasses import dataclass

import expressions
import syntax
from parse import Parser
from refusal import Refusal
from tokens import Token

WIDTHS = ("u7", "u8", "u16", "u32", "u64", "u64_varint")
# What only the compiler of the original reads, and means nothing here.
LINTS = ("allow", "warn", "deny", "forbid", "expect", "must_use")
OF_FIELDS = ("length", "length_type", "varint", "constant_prefix", "skip", "default_on_eof")
OF_STRUCTS = ("depth",)
OF_ENUMS = ("tag_type", "peek_tag", "depth")
OF_VARIANTS = ("tag",)
# A depth past this is refused: from 34 on the check of a library refuses the macro that makes its levels.
MOST_LEVELS = 32
# The traits of std that a type may derive.
DERIVED = ("Debug", "Clone", "Copy", "PartialEq", "Eq", "PartialOrd", "Ord", "Hash", "Default")


@dataclass
class Options:
    """What `#[speedy(..)]` says of a field."""
    length: object = None
    length_type: object = None
    varint: bool = False
    constant: object = None
    skip: bool = False
    # Whether it takes the rest of the input, and whether it may be missing at the end of that.
    is_rest: bool = False
    may_be_missing: bool = False


def sub_parser(attribute):
    """A parser of what an attribute holds."""
    end = Token("end", "the end of the attribute", attribute.line)
    return Parser(list(attribute.tokens) + [end])


def inner_parser(attribute):
    """A parser of what stands in the brackets of `name(..)`."""
    parser = sub_parser(attribute)
    if not parser.take_mark("("):
        raise parser.refuse(f"here `(` is missing: write `{attribute.name}(..)`", attribute.line)
    inner = parser.balanced(")")
    parser.expect(")")
    if parser.token.kind != "end":
        raise parser.refuse(f"`{parser.token.text}` stands behind the attribute")
    return sub_parser(syntax.Attribute(attribute.line, attribute.name, tuple(inner)))


def settings(attributes, known, place):
    """The settings of all `#[speedy(..)]`, by their names: each a line and a parser at its value, or None."""
    found = {}
    for attribute in attributes:
        if attribute.name != "speedy":
            continue
        parser = inner_parser(attribute)
        while parser.token.kind != "end":
            line, name = parser.line, parser.name("a setting")
            if name not in known:
                raise Refusal(line, f"{place} has no setting `{name}`: it has {', '.join(f'`{it}`' for it in known)}")
            if name in found:
                raise Refusal(line, f"`{name}` is set twice")
            found[name] = setting(parser, name, line)
            if not parser.take_mark(","):
                break
        if parser.token.kind != "end":
            raise parser.refuse(f"`{parser.token.text}` stands behind a setting: here `,` is missing")
    return found


def setting(parser, name, line):
    """The line and the value of one setting, None where it has none."""
    flags = ("varint", "skip", "default_on_eof", "peek_tag")
    if name in flags:
        if parser.is_mark("="):
            raise Refusal(line, f"`{name}` has no value")
        return line, None
    if not parser.take_mark("="):
        raise Refusal(line, f"`{name}` needs a value: write `{name} = ..`")
    if name in ("length_type", "tag_type"):
        width = parser.name("a width")
        if width not in WIDTHS:
            raise Refusal(line, f"`{width}` is no width: write {', '.join(f'`{it}`' for it in WIDTHS)}")
        return line, width
    return line, expressions.expression(parser)


def of_field(field, notes):
    """What is set of a field."""
    field.attributes = opened(field.attributes)
    others(field.attributes, notes)
    found = settings(field.attributes, OF_FIELDS, "a field")
    options = Options(skip="skip" in found, varint="varint" in found, may_be_missing="default_on_eof" in found)
    if options.may_be_missing and len(found) > 1:
        raise Refusal(found["default_on_eof"][0], "a field with `default_on_eof` has no other setting: put it into a "
                                                  "struct of its own")
    if options.skip and len(found) > 1:
        raise Refusal(found["skip"][0], "a field with `skip` has no bytes, and so no other setting")
    if "length" in found and isinstance(found["length"][1], syntax.Open):
        options.is_rest = True
        if len(found) > 1:
            raise Refusal(found["length"][0], "a field with `length = ..` has no other setting")
    elif "length" in found:
        options.length = found["length"][1]
    if "length_type" in found:
        line, options.length_type = found["length_type"]
        if options.length is not None:
            raise Refusal(line, "a field with `length` writes no length, and so has no `length_type`")
    if options.varint and (options.length_type or options.length is not None):
        raise Refusal(found["varint"][0], "a number has no length: leave that out")
    if "constant_prefix" in found:
        options.constant = constant(*found["constant_prefix"])
    return options


def constant(line, value):
    """The bytes that stand before a field."""
    negative = isinstance(value, syntax.Unary) and value.sign == "-"
    literal = value.inner if negative else value
    if not isinstance(literal, syntax.Literal):
        raise Refusal(line, "`constant_prefix` is a literal: a text, bytes, a character, a flag, or `1_u8` or `1_i8`")
    token = literal.token
    if token.kind == "integer":
        return one_byte(line, -token.value if negative else token.value, token.suffix)
    if negative or token.kind == "float":
        raise Refusal(line, "`constant_prefix` is a text, bytes, a character, a flag, or `1_u8` or `1_i8`")
    if token.kind in ("text", "char"):
        return token.value.encode()
    if token.kind == "bytes":
        return token.value
    if token.kind == "byte":
        return bytes([token.value])
    return bytes([token.text == "true"])


def one_byte(line, value, suffix):
    """The byte of a number, which names its type."""
    least, past = {"u8": (0, 256), "i8": (-128, 128)}.get(suffix, (0, 0))
    if past == 0:
        raise Refusal(line, "a number in `constant_prefix` is one byte and names its type: write `1_u8` or `1_i8`, "
                            "or the bytes of a wider one as `b\"..\"`")
    if not least <= value < past:
        raise Refusal(line, f"{value} is no `{suffix}`")
    return bytes([value % 256])


def others(attributes, notes):
    """Notes what is not read here."""
    for attribute in attributes:
        if attribute.name in ("speedy", "doc", "default") or attribute.name in LINTS:
            continue
        if attribute.name == "cfg":
            notes.append((attribute.line, "what stands behind `cfg(..)` is made as if that holds"))
        else:
            notes.append((attribute.line, f"the attribute `{attribute.name}` is left out: it changes no bytes"))


def is_ours(attribute):
    """Whether an attribute derives `Readable` or `Writable`, by whatever name, or sets something of ours."""
    return attribute.name == "speedy" \
        or attribute.name in ("derive", "cfg_attr") and any(it.text in ("Readable", "Writable", "speedy")
                                                            for it in attribute.tokens)


def is_skipped(field):
    """Whether a field has no bytes."""
    return has_setting(field, "skip")


def has_setting(field, name):
    """Whether a field has a setting, before its attributes are read."""
    return any(it.name in ("speedy", "cfg_attr") and any(token.text == name for token in it.tokens)
               for it in field.attributes)


def opened(attributes):
    """The attributes, where `cfg_attr(..)` with a derive or settings of ours stands for these."""
    found = []
    for attribute in attributes:
        inner = inside_cfg_attr(attribute) if attribute.name == "cfg_attr" else []
        found += [it for it in inner if it.name in ("derive", "speedy")] or [attribute]
    return found


def inside_cfg_attr(attribute):
    """The attributes in `cfg_attr(condition, ..)`."""
    parser = inner_parser(attribute)
    condition, found = True, []
    while parser.token.kind != "end":
        line = parser.line
        if condition:
            while parser.token.kind != "end" and not parser.is_mark(","):
                opening = parser.advance().text
                if opening == "(":
                    parser.balanced(")")
                    parser.advance()
            condition = False
        else:
            name = parser.name("an attribute")
            tokens = []
            while parser.token.kind != "end" and not parser.is_mark(","):
                token = parser.advance()
                tokens.append(token)
                if token.text == "(":
                    tokens += [*parser.balanced(")"), parser.advance()]
            found.append(syntax.Attribute(line, name, tuple(tokens)))
        parser.take_mark(",")
    return found


def of_item(item, scope):
    """Sorts the attributes of a struct or an enum."""
    is_enum, rest = isinstance(item, syntax.Enum), []
    item.attributes = opened(item.attributes)
    for attribute in item.attributes:
        if attribute.name == "derive":
            derive(item, attribute, scope)
        elif attribute.name == "repr":
            representation(item, attribute, is_enum, scope.notes)
        elif attribute.name == "non_exhaustive" and not attribute.tokens:
            item.kept.append("#[non_exhaustive]")
        else:
            rest.append(attribute)
    if not item.readable and not item.writable:
        return
    others(rest, scope.notes)
    found = settings(item.attributes, OF_ENUMS if is_enum else OF_STRUCTS, "an enum" if is_enum else "a struct")
    if "peek_tag" in found:
        raise Refusal(found["peek_tag"][0], "an enum with `peek_tag` leaves its tag to be read again, so it has no "
                      "encoding of its own: leave `peek_tag` out, and in the code that calls a reader take the tag by "
                      "`let tag = reader.peek_u8()?;` before `reader.read_value()?`")
    if "tag_type" in found:
        item.tag_type = found["tag_type"][1]
    if "depth" in found:
        item.depth = depth(item, *found["depth"], scope)


def depth(item, line, value, scope):
    """How many levels the values of a type have at most that hold values of the type itself."""
    found = expressions.number(value, scope.constants)
    if not 1 <= found <= MOST_LEVELS:
        raise Refusal(line, f"`depth` is a number of levels from 1 to {MOST_LEVELS}: each takes room on the stack, and "
                            "no constant of a library is made of more")
    if item.parameters:
        raise Refusal(line, f"a type with `depth` has no parameters: write the impls of `{item.name}` by hand")
    return found


def derive(item, attribute, scope):
    """Takes a `derive` apart."""
    parser = inner_parser(attribute)
    while parser.token.kind != "end":
        line = parser.line
        path = scope.full_path(parser.named_type().path)
        name = path[-1]
        if name in item.derives or (name == "Readable" and item.readable) or (name == "Writable" and item.writable):
            raise Refusal(line, f"`{name}` is derived twice")
        if name == "Readable":
            item.readable = True
        elif name == "Writable":
            item.writable = True
        elif name in DERIVED and path[0] in (name, "std", "derive_more"):
            item.derives.append(name)
        else:
            item.left_out.append((line, name))
        if not parser.take_mark(","):
            break
    if parser.token.kind != "end":
        raise parser.refuse(f"here `,` is missing, before `{parser.token.text}`")


def representation(item, attribute, is_enum, notes):
    """A `repr`, which changes no bytes. What Rattle has not is left out, with a note."""
    parser = inner_parser(attribute)
    words = [token.text for token in parser.tokens if token.kind == "name"]
    if not is_enum and words in (["C"], ["transparent"]):
        item.kept.append(f"#[repr({words[0]})]")
        return
    is_numbered = any(it.discriminant is not None for it in syntax.variants_of(item)) if is_enum else False
    numbers = ", though `as` gives the place of a variant, and not its discriminant" if is_numbered else ""
    notes.append((attribute.line, f"`repr({', '.join(words)})` of `{item.name}` is left out: Rattle has none, and the "
                                  f"bytes are the same{numbers}"))


def of_variant(variant, notes):
    """The tag that is set of a variant, as an expression, or None."""
    variant.attributes = opened(variant.attributes)
    others(variant.attributes, notes)
    found = settings(variant.attributes, OF_VARIANTS, "a variant")
    return found["tag"][1] if "tag" in found else None
