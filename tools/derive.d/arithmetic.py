"""How a length is computed from numbers: as Rust code that answers `None` where Rust would panic, and as a clause."""
from dataclasses import dataclass

import expressions
import syntax
from expressions import CAST, COMPARED, STRENGTH
from refusal import Refusal

# How many bits the numbers of a type have.
UNSIGNED = {"u8": 8, "u16": 16, "u32": 32, "u64": 64, "usize": 64}
SIGNED = {"i8": 8, "i16": 16, "i32": 32, "i64": 64}
BITS = UNSIGNED | SIGNED
TAKEN = "`u8` to `u64`, `usize` or `i8` to `i64`"
CHECKED = {"+": "checked_add", "-": "checked_sub", "*": "checked_mul", "/": "checked_div", "%": "checked_rem",
           "<<": "checked_shl", ">>": "checked_shr"}
BITWISE = {"&": "bit_and", "|": "bit_or", "^": "bit_xor"}
# The test of each comparison over two numbers, whether these change places and whether the branches do.
TESTS = {"<": ("lt", False, False), "<=": ("le", False, False), ">": ("lt", True, False), ">=": ("le", True, False),
         "==": ("eq", False, False), "!=": ("eq", False, True)}
# The clause of a test that holds and of one that does not.
HOLDS = {"lt": ("{0} < {1}", "{1} ≤ {0}"), "le": ("{0} ≤ {1}", "{1} < {0}"), "eq": ("{0} ≡ {1}", "{0} ≢ {1}")}
# The longest code that stands in one step.
CHAIN = 56
# Binds tighter than any sign.
ALONE = CAST + 1
INTEGERS = "Rattle.std.specs.Int."


@dataclass
class Term:
    """A part of an expression. `kind` is its type, None of a literal that names none, and `value` is the number that a
    literal or a constant stands for. `conditions` are the clauses under which it has a value at all."""
    code: str
    clause: str
    kind: object
    code_strength: int = ALONE
    clause_strength: int = ALONE
    conditions: tuple = ()
    value: object = None

    def inside(self, strength):
        """Its code within what binds so tightly."""
        return bracketed(self.code, self.code_strength, strength)

    def said(self, strength=ALONE):
        """Its clause within what binds so tightly."""
        return bracketed(self.clause, self.clause_strength, strength)

    def receiver(self):
        """Its code before a method: a literal names its type there."""
        return f"{self.value}_{self.kind}" if self.code[:1].isdigit() else self.inside(ALONE)


class Computed:
    """The length that an expression stands for. `named` gives the term of a name, `taken` are names in the code."""

    def __init__(self, value, named, taken):
        self.named = named
        self.taken = taken
        # What clauses import: from `Prelude`, and by the paths of others.
        self.ghosts = set()
        self.ghost_paths = set()
        # The variables of the code, where it is too long for one line; None within a branch, which may not be taken.
        self.steps = None
        term = self.length(value)
        if len(term.code) > CHAIN:
            self.steps = []
            term = self.length(value)
        self.told = term.clause
        self.conditions = list(dict.fromkeys(term.conditions))
        self.code = [f"let {name} = {code};" for name, code in self.steps or []] + [f"Some({term.code})"]
        if term.code.endswith(").ok()?"):
            self.code[-1] = term.code[:-1]

    def is_told(self):
        """The clause under which there is a length."""
        if len(self.conditions) < 2:
            return "".join(self.conditions) or "Unit {0}"
        return " × ".join(f"({it})" for it in self.conditions)

    def length(self, value):
        """The whole expression, as a `usize`."""
        term = self.term(value)
        if term.kind is None:
            return typed(value.line, term, "usize")
        return term if term.kind == "usize" else self.cast_to(value.line, term, "usize")

    def term(self, value, wanted=None):
        """A part of the expression. `wanted` is the type that it has where it names none itself."""
        if isinstance(value, syntax.Literal) and value.token.kind == "integer":
            return number(value.line, value.token.text, value.token.value, value.token.suffix or None)
        if isinstance(value, (syntax.Mention, syntax.Inner)):
            return self.named(value)
        if isinstance(value, syntax.Cast):
            return self.cast(value)
        if isinstance(value, syntax.Choice):
            return self.choice(value)
        if isinstance(value, syntax.Apply):
            return self.applied(value)
        if isinstance(value, syntax.Binary) and value.sign in CHECKED | BITWISE:
            return self.shift(value, wanted) if value.sign in ("<<", ">>") else self.binary(value)
        raise refused(value)

    # Casts.

    def cast(self, value):
        """`inner as target`, which may not lose bits."""
        inner, kind = self.term(value.inner), None
        if isinstance(value.target, syntax.Named) and len(value.target.path) == 1:
            kind = value.target.path[0]
        if kind not in BITS:
            raise Refusal(value.line, f"a length is computed in {TAKEN}")
        return typed(value.line, inner, kind) if inner.kind is None else self.cast_to(value.line, inner, kind)

    def cast_to(self, line, term, kind):
        """A number as one of another type: one below zero is none of an unsigned type."""
        if term.kind in SIGNED and kind in UNSIGNED and BITS[term.kind] <= BITS[kind]:
            self.integers("pos", "◌≤ℤ◌", "unsigned_abs")
            return Term(f"{kind}::try_from({term.code}).ok()?", f"unsigned_abs {term.said()}", kind, ALONE, CAST,
                        (*term.conditions, f"pos 0 ≤ℤ {term.said()}"))
        is_same_sign = (term.kind in SIGNED) == (kind in SIGNED)
        if BITS[term.kind] > BITS[kind] or (BITS[term.kind] == BITS[kind] and not is_same_sign):
            raise Refusal(line, f"`as {kind}` loses bits of a `{term.kind}`: compute in the wider type")
        clause, strength = term.clause, term.clause_strength
        if term.kind in UNSIGNED and kind in SIGNED:
            self.integers("pos")
            clause, strength = f"pos {term.said()}", CAST
        return Term(f"{term.inside(CAST)} as {kind}", clause, kind, CAST, strength, term.conditions, term.value)

    # Calls.

    def applied(self, value):
        """`a.min(b)`, `max(a, b)`, `usize::from(a)`, `a.saturating_sub(b)`."""
        name, count = value.name[-1], len(value.arguments)
        if name in ("min", "max") and count == 2 and (value.is_method or value.name[:-1] in ((), ("std", "cmp"),
                                                                                            ("core", "cmp"), ("cmp",))):
            left, right, kind = self.two(value, *value.arguments)
            self.ghosts.add(name) if kind in UNSIGNED else self.integer_paths(f"int_{name}")
            function = name if kind in UNSIGNED else f"int_{name}"
            return self.call(name, function, left, right, kind)
        if name == "saturating_sub" and count == 2 and value.is_method:
            left, right, kind = self.two(value, *value.arguments)
            if kind in UNSIGNED:
                self.ghosts.add("◌-◌")
                clause = f"{left.said(STRENGTH['-'])} - {right.said(STRENGTH['-'] + 1)}"
                return Term(f"{left.receiver()}.saturating_sub({right.code})", clause, kind, ALONE, STRENGTH["-"],
                            left.conditions + right.conditions)
        if name == "from" and count == 1 and len(value.name) == 2 and value.name[0] in BITS:
            inner = self.term(value.arguments[0])
            if inner.kind is None:
                return typed(value.line, inner, value.name[0])
            if inner.kind not in ("usize", value.name[0]) and not (value.name[0] == "usize" and BITS[inner.kind] > 16):
                made = self.cast_to(value.line, inner, value.name[0])
                return Term(f"{value.name[0]}::from({inner.code})", made.clause, made.kind, ALONE,
                            made.clause_strength, made.conditions)
        raise refused(value)

    def call(self, method, function, left, right, kind):
        """A call of a method that always has a result."""
        return Term(f"{left.receiver()}.{method}({right.code})", f"{function} {left.said()} {right.said()}", kind,
                    ALONE, CAST, left.conditions + right.conditions)

    # Choices.

    def choice(self, value):
        """`if a < b { x } else { y }`."""
        test = value.condition
        if not isinstance(test, syntax.Binary) or test.sign not in COMPARED:
            raise Refusal(value.line, "an `if` of a length compares two numbers")
        left, right, kind = self.two(test, test.left, test.right)
        kept, self.steps = self.steps, None
        yes, no, of_branches = self.two(value, value.yes, value.no)
        self.steps = kept
        name, is_turned, are_turned = TESTS[test.sign]
        one, other = (right, left) if is_turned else (left, right)
        holds, fails = self.tested(name, one, other, kind)
        branches = (no, yes) if are_turned else (yes, no)
        function = f"nat_{name}" if kind in UNSIGNED else f"int_{name}"
        clause = f"if {function} {one.said()} {other.said()} then {branches[0].said()} else {branches[1].said()}"
        code = f"if {left.inside(ALONE)} {test.sign} {right.inside(ALONE)} {{ {yes.code} }} else {{ {no.code} }}"
        conditions = [f"{holds} → {it}" for it in branches[0].conditions]
        conditions += [f"{fails} → {it}" for it in branches[1].conditions]
        found = Term(code, clause, of_branches, 0, 0, left.conditions + right.conditions + tuple(conditions))
        return Term(self.step(code), clause, of_branches, 0 if self.steps is None else ALONE, 0, found.conditions)

    def tested(self, name, one, other, kind):
        """The clauses that a test holds, and that it does not."""
        self.ghosts |= {"if◌then◌else◌", "◌<◌", "◌≤◌", "◌≢◌", "◌≡◌"}
        if kind in UNSIGNED:
            self.ghosts.add(f"nat_{name}")
            return tuple(it.format(one.said(STRENGTH["+"]), other.said(STRENGTH["+"])) for it in HOLDS[name])
        if name != "lt":
            raise Refusal(0, "signed numbers are compared by `<` and `>` alone in a length")
        self.integers("int_lt", "◌<ℤ◌", "◌≤ℤ◌")
        return f"{one.said()} <ℤ {other.said()}", f"{other.said()} ≤ℤ {one.said()}"

    # Operations.

    def two(self, value, first, second):
        """Two terms of one type, and that type."""
        if is_open(first):
            right = self.term(second)
            left = self.term(first, right.kind)
        else:
            left = self.term(first)
            right = self.term(second, left.kind)
        kind = left.kind or right.kind or "usize"
        left, right = typed(value.line, left, kind), typed(value.line, right, kind)
        if left.kind in SIGNED:
            left, right = self.signed(left), self.signed(right)
        if left.kind != right.kind:
            sign = getattr(value, "sign", "")
            raise Refusal(value.line, f"a `{left.kind}` and a `{right.kind}` have no `{sign}` in Rust: write "
                                      "`as usize` at each" if sign else "both numbers have one type in Rust: write "
                                                                        "`as usize` at each")
        return left, right, kind

    def signed(self, term):
        """A term of a signed type, where it may be a literal."""
        if term.value is None or term.kind not in SIGNED or not term.clause.isdigit():
            return term
        self.integers("pos")
        return Term(term.code, f"pos {term.value}", term.kind, term.code_strength, CAST, term.conditions, term.value)

    def binary(self, value):
        """Two numbers with a sign between them."""
        if is_open(value.left) and is_open(value.right):
            return folded(value)
        left, right, kind = self.two(value, value.left, value.right)
        if kind in SIGNED:
            return self.signed_binary(value, left, right, kind)
        if value.sign in BITWISE:
            return self.bitwise(value, left, right, kind)
        sign, strength = value.sign, STRENGTH[value.sign]
        clause = f"{left.said(strength)} {sign} {right.said(strength + 1)}"
        self.ghosts.add(f"◌{sign}◌")
        own = self.condition(value, kind, clause, left, right)
        if own is None:
            return Term(f"{left.inside(strength)} {sign} {right.code}", clause, kind, strength, strength,
                        left.conditions + right.conditions)
        code = self.step(f"{left.receiver()}.{CHECKED[sign]}({right.code})?")
        return Term(code, clause, kind, ALONE, strength, left.conditions + right.conditions + (own,))

    def condition(self, value, kind, clause, left, right):
        """The clause under which an operation has a result in its type, None where it always has."""
        if value.sign in ("/", "%"):
            if right.value == 0:
                raise Refusal(value.line, "this divides by zero")
            if right.value is not None:
                return None
            self.ghosts.add("◌≢◌")
            return f"{right.said()} ≢ 0"
        if value.sign == "-":
            self.ghosts.add("◌≤◌")
            return f"{right.said(STRENGTH['+'])} ≤ {left.said(STRENGTH['+'])}"
        self.ghosts |= {"◌<◌", "◌^◌"}
        return f"{clause} < 2 ^ {BITS[kind]}"

    def bitwise(self, value, left, right, kind):
        """`&`, `|` and `^`."""
        function, strength = BITWISE[value.sign], STRENGTH[value.sign]
        self.ghosts.add(function)
        code = f"{left.inside(strength)} {value.sign} {right.inside(strength + 1)}"
        return Term(code, f"{function} {left.said()} {right.said()}", kind, strength, CAST,
                    left.conditions + right.conditions)

    def shift(self, value, wanted):
        """`<<`, which loses the bits that go past the type, and `>>`."""
        if is_open(value.left) and is_open(value.right):
            return folded(value)
        left, right = self.term(value.left, wanted), self.term(value.right)
        left = typed(value.line, left, wanted or "usize")
        if left.kind in SIGNED or right.kind in SIGNED:
            raise Refusal(value.line, "signed numbers are not shifted in a length")
        bits = BITS[left.kind]
        if right.value is not None and right.value >= bits:
            raise Refusal(value.line, "this shift is too wide")
        self.ghosts |= {"◌^◌"} | ({"◌*◌", "◌%◌"} if value.sign == "<<" else {"◌/◌"})
        power, strength = f"2 ^ {right.said()}", STRENGTH["*"]
        clause = f"{left.said(strength)} * {power} % 2 ^ {bits}" if value.sign == "<<" \
            else f"{left.said(strength)} / {power}"
        conditions = left.conditions + right.conditions
        if right.value is not None:
            own = STRENGTH[value.sign]
            front = left.receiver()
            return Term(f"{front} {value.sign} {right.code}", clause, left.kind, own, strength, conditions)
        self.ghosts.add("◌<◌")
        count = right.code if right.kind == "u32" else f"{right.inside(CAST)} as u32" if BITS[right.kind] < 32 \
            else f"u32::try_from({right.code}).ok()?"
        code = self.step(f"{left.receiver()}.{CHECKED[value.sign]}({count})?")
        return Term(code, clause, left.kind, ALONE, strength, (*conditions, f"{right.said(STRENGTH['+'])} < {bits}"))

    def signed_binary(self, value, left, right, kind):
        """Signed numbers with a sign between them. Each clause stands in brackets, since antt reads them otherwise."""
        sign, width = value.sign, f"w{BITS[kind]}"
        conditions = left.conditions + right.conditions
        if sign in ("+", "-", "*"):
            self.integers(f"◌{sign}ℤ◌", "FitsSigned")
            self.integer_paths(width)
            clause = f"{left.said()} {sign}ℤ {right.said()}"
            own = f"FitsSigned {width} ({clause})"
        elif sign in ("/", "%"):
            if right.value == 0:
                raise Refusal(value.line, "this divides by zero")
            function = "int_div" if sign == "/" else "int_rem"
            self.integers(function)
            self.integer_paths(width, "CanDivide")
            clause = f"{function} {left.said()} {right.said()}"
            own = f"CanDivide {width} {left.said()} {right.said()}"
        else:
            raise Refusal(value.line, f"`{sign}` of signed numbers is not taken in a length: write `as u32` and the "
                                      "like at each")
        code = self.step(f"{left.receiver()}.{CHECKED[sign]}({right.code})?")
        return Term(code, clause, kind, ALONE, 0, (*conditions, own))

    # Names.

    def integers(self, *names):
        """Imports what clauses say of signed numbers."""
        self.ghosts |= set(names)

    def integer_paths(self, *names):
        """The same, of those that the prelude has not."""
        self.ghost_paths |= {INTEGERS + name for name in names}

    def step(self, code):
        """A step of the code, or the variable that it is bound to."""
        if self.steps is None:
            return code
        place = len(self.steps) + 1
        name = f"step{place}" if f"step{place}" not in self.taken else f"step{place}_"
        self.steps.append((name, code))
        return name


def refused(value):
    """The error that a length is made of something else."""
    return Refusal(value.line, "a length is made of earlier fields, integers, constants, the signs of arithmetic, "
                               "`as`, `if` with a comparison, `min`, `max`, `from` and `saturating_sub`: write the "
                               "impls of this type by hand")


def is_open(value):
    """Whether an expression is made of literals alone, at its left where it is a shift, and so names no type."""
    if isinstance(value, syntax.Binary) and value.sign in CHECKED | BITWISE:
        return is_open(value.left) and (value.sign in ("<<", ">>") or is_open(value.right))
    return isinstance(value, syntax.Literal) and not value.token.suffix


def bracketed(text, strength, outer):
    """A part of an expression inside one that binds so tightly."""
    return f"({text})" if strength < outer else text


def number(line, code, value, kind):
    """A literal, or a constant of the file."""
    if kind is not None and kind not in BITS:
        raise Refusal(line, f"a length is computed in {TAKEN}")
    bits = BITS[kind or "usize"] - (kind in SIGNED)
    if value < 0 or value >= 1 << bits:
        raise Refusal(line, f"{value} is no `{kind or 'usize'}`")
    return Term(code, str(value), kind, value=value)


def typed(line, term, kind):
    """A term of this type, where it may be a literal that names none."""
    return number(line, term.code, term.value, kind) if term.kind is None else term


def folded(value):
    """The number that literals make."""
    result = expressions.number(value, {})
    return number(value.line, str(result), result, None)
