"""The expressions of constants, lengths and tags: read, evaluated and written."""
from dataclasses import replace

import syntax
from refusal import Refusal
from tokens import Token

# How tightly a sign binds. Comparisons stand in no row.
COMPARED = ("==", "!=", "<", ">", "<=", ">=")
STRENGTH = {"||": 1, "&&": 2, **dict.fromkeys(COMPARED, 3), "|": 4, "^": 5, "&": 6, "<<": 7, ">>": 7, "+": 8, "-": 8,
            "*": 9, "/": 9, "%": 9}
CAST = 10
# So many signs may stand in one row.
MOST_TERMS = 200
# A number of more bits is past each type.
MOST_BITS = 256


def expression(parser, least=1):
    """An expression whose signs bind at least so tightly."""
    with parser.deeper():
        return row(parser, least)


def row(parser, least):
    """The same, within what counts how deep it stands."""
    if parser.is_mark("..") or parser.is_mark("..="):
        return syntax.Open(parser.advance().line)
    left = unary(parser)
    for _ in range(MOST_TERMS):
        line = parser.line
        if parser.is_word("as"):
            parser.advance()
            left = syntax.Cast(line, left, parser.type())
            continue
        sign = sign_here(parser)
        if sign is None or STRENGTH[sign] < least:
            return left
        for _ in range(len(sign) if sign[0] == ">" else 1):
            parser.advance()
        left = syntax.Binary(line, sign, left, expression(parser, STRENGTH[sign] + 1))
    raise parser.refuse(f"an expression of more than {MOST_TERMS} parts is not taken: name its parts by constants")


def sign_here(parser):
    """The sign between two expressions that stands here. A `>` is a token of its own."""
    if parser.is_mark(">"):
        return {">": ">>", "=": ">="}.get(parser.ahead().text, ">")
    token = parser.token
    return token.text if token.kind == "mark" and token.text in STRENGTH else None


def unary(parser):
    """An expression without a sign between two parts."""
    line = parser.line
    if parser.is_mark("-") or parser.is_mark("!"):
        sign = parser.advance().text
        with parser.deeper():
            return syntax.Unary(line, sign, unary(parser))
    if parser.is_mark("&") or parser.is_mark("*"):
        parser.advance()
        with parser.deeper():
            return unary(parser)
    found = single(parser)
    while parser.take_mark("."):
        found = inner(parser, found)
    if parser.is_mark("[") or parser.is_mark("?"):
        raise parser.refuse(f"`{parser.token.text}` is not taken here: write numbers, constants, earlier fields and "
                            "their sums")
    return found


def inner(parser, value):
    """What stands behind a point: a field, or a call of a method."""
    line = parser.line
    if parser.token.kind == "integer":
        return syntax.Inner(line, value, parser.advance().text)
    name = parser.name("a field")
    if not parser.is_mark("("):
        return syntax.Inner(line, value, name)
    return syntax.Apply(line, (name,), (value, *call_arguments(parser)), True)


def call_arguments(parser):
    """`(a, b)`."""
    parser.expect("(")
    found = []
    while not parser.is_mark(")"):
        found.append(expression(parser))
        if not parser.take_mark(","):
            break
    parser.expect(")")
    return tuple(found)


def single(parser):
    """A literal, a name, a call, a choice or an expression in brackets."""
    token, line = parser.token, parser.line
    if token.kind in ("integer", "float", "text", "bytes", "char", "byte"):
        return syntax.Literal(parser.advance())
    if parser.take_mark("("):
        found = expression(parser)
        parser.expect(")")
        return found
    if parser.take_mark("["):
        return items(parser, line)
    if parser.take_mark("{"):
        found = expression(parser)
        parser.expect("}")
        return found
    if parser.take_word("if"):
        return choice(parser, line)
    if token.kind == "name" and token.text in ("true", "false"):
        return syntax.Literal(parser.advance())
    if token.kind == "name":
        return mention(parser, line)
    raise parser.refuse(f"here a value is missing, before `{token.text}`")


def choice(parser, line):
    """What stands behind `if`."""
    condition = expression(parser)
    parser.expect("{")
    yes = expression(parser)
    parser.expect("}")
    if not parser.take_word("else"):
        raise parser.refuse("here `else` is missing: an `if` without it has no value")
    if parser.take_word("if"):
        with parser.deeper():
            return syntax.Choice(line, condition, yes, choice(parser, line))
    parser.expect("{")
    no = expression(parser)
    parser.expect("}")
    return syntax.Choice(line, condition, yes, no)


def items(parser, line):
    """What stands behind `[`."""
    found = []
    while not parser.is_mark("]"):
        found.append(expression(parser))
        if parser.is_mark(";"):
            raise parser.refuse("`[a; n]` is not taken: write out the items")
        if not parser.take_mark(","):
            break
    parser.expect("]")
    return syntax.Items(line, tuple(found))


def mention(parser, line):
    """A name with its path, or a call by it."""
    path = [parser.advance().text]
    while parser.take_mark("::"):
        path.append(parser.name("a constant"))
    if parser.is_mark("("):
        return syntax.Apply(line, tuple(path), call_arguments(parser))
    if parser.is_mark("!"):
        raise parser.refuse("a macro is not taken here: write numbers, constants, earlier fields and their sums")
    return syntax.Mention(line, tuple(path))


def path_of(value):
    """The names of a named value, or of a field of it behind the value's own; None of anything else."""
    if isinstance(value, syntax.Mention):
        return ["::".join(value.path)]
    front = path_of(value.value) if isinstance(value, syntax.Inner) else None
    return None if front is None else [*front, value.name]


def mentions(value):
    """The named values in an expression, each with the field of it that is named; of None there are none."""
    if path_of(value) is not None:
        return [value]
    if isinstance(value, syntax.Binary):
        return mentions(value.left) + mentions(value.right)
    if isinstance(value, syntax.Choice):
        return mentions(value.condition) + mentions(value.yes) + mentions(value.no)
    if isinstance(value, syntax.Apply):
        return [it for argument in value.arguments for it in mentions(argument)]
    if isinstance(value, syntax.Inner):
        return mentions(value.value)
    return mentions(value.inner) if isinstance(value, (syntax.Cast, syntax.Unary)) else []


def number(value, constants, seen=()):
    """The number that an expression stands for, by the constants of the file."""
    if isinstance(value, syntax.Literal) and value.token.kind in ("integer", "byte"):
        return value.token.value
    if isinstance(value, syntax.Mention) and value.path[-1] in constants and len(value.path) == 1:
        name = value.path[0]
        if name in seen:
            raise Refusal(value.line, f"the constant `{name}` is told by itself")
        return number(constants[name], constants, (*seen, name))
    if isinstance(value, syntax.Unary) and value.sign == "-":
        return -number(value.inner, constants, seen)
    if isinstance(value, syntax.Cast):
        return cast_number(value, number(value.inner, constants, seen))
    if isinstance(value, syntax.Binary) and value.sign not in COMPARED and value.sign not in ("&&", "||"):
        return binary_number(value, *(number(it, constants, seen) for it in (value.left, value.right)))
    raise Refusal(value.line, "here stands no number that this file tells: write the number itself")


def cast_number(value, inner):
    """`inner as target`, which keeps as many bits as the type has."""
    name = value.target.path[-1] if isinstance(value.target, syntax.Named) else ""
    sizes = {"size": 64} | {str(bits): bits for bits in (8, 16, 32, 64, 128)}
    if name[:1] not in ("u", "i") or name[1:] not in sizes:
        raise Refusal(value.line, "here stands no number that this file tells: write the number itself")
    bits = sizes[name[1:]]
    kept = inner % (1 << bits)
    return kept - (1 << bits) if name[0] == "i" and kept >= 1 << (bits - 1) else kept


def binary_number(value, left, right):
    """The number that a sum, a product or the like stands for."""
    if value.sign in ("/", "%") and (right == 0 or left < 0 or right < 0):
        raise Refusal(value.line, "this division has no result that is told: write the number itself")
    if value.sign in ("<<", ">>") and not 0 <= right < 128:
        raise Refusal(value.line, "this shift is too wide")
    compute = {"+": lambda: left + right, "-": lambda: left - right, "*": lambda: left * right,
               "/": lambda: left // right, "%": lambda: left % right, "<<": lambda: left << right,
               ">>": lambda: left >> right, "&": lambda: left & right, "|": lambda: left | right,
               "^": lambda: left ^ right}
    found = compute[value.sign]()
    if found.bit_length() > MOST_BITS:
        raise Refusal(value.line, "this number is past each type")
    return found


def without_lost_bits(value, constants):
    """An expression with the number in place of each cast that loses bits, which Rattle refuses in a constant."""
    if isinstance(value, syntax.Binary):
        left, right = (without_lost_bits(it, constants) for it in (value.left, value.right))
        return replace(value, left=left, right=right)
    if isinstance(value, syntax.Items):
        return replace(value, items=tuple(without_lost_bits(it, constants) for it in value.items))
    if isinstance(value, syntax.Cast):
        try:
            found = number(value, constants)
            is_kept = found == number(value.inner, constants)
        except Refusal:
            is_kept = True
        if not is_kept:
            literal = syntax.Literal(Token("integer", str(abs(found)), value.line, abs(found)))
            return literal if found >= 0 else syntax.Unary(value.line, "-", literal)
    if isinstance(value, (syntax.Cast, syntax.Unary)):
        return replace(value, inner=without_lost_bits(value.inner, constants))
    return value


def written(value, of_type, names=lambda path: "::".join(path), outer=0):
    """The text of an expression. `of_type` writes a type, `names` a name, `outer` is what binds it from outside."""
    if isinstance(value, syntax.Literal):
        return value.token.text
    if isinstance(value, syntax.Mention):
        return names(value.path)
    if isinstance(value, syntax.Unary):
        return value.sign + written(value.inner, of_type, names, CAST + 1)
    if isinstance(value, syntax.Items):
        return "[" + ", ".join(written(item, of_type, names) for item in value.items) + "]"
    if isinstance(value, syntax.Cast):
        text = written(value.inner, of_type, names, CAST) + " as " + of_type(value.target)
        return f"({text})" if outer > CAST else text
    if isinstance(value, syntax.Binary):
        strength = STRENGTH[value.sign]
        left = written(value.left, of_type, names, strength)
        right = written(value.right, of_type, names, strength + 1)
        text = f"{left} {value.sign} {right}"
        return f"({text})" if outer > strength else text
    raise Refusal(value.line, "this expression is not taken in a constant: write out its value")
