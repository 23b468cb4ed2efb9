"""Lengths that earlier fields tell: computed as the made code does, which has none where Rust would panic."""
from dataclasses import dataclass

import expressions
import syntax
from arithmetic import BITS, BITWISE, CHECKED, SIGNED, TESTS, UNSIGNED, is_open
from expressions import STRENGTH, path_of


class NoLength(Exception):
    """The numbers tell no length."""


@dataclass(frozen=True)
class Term:
    """A part of an expression: its type, None of a literal that names none, and the function from the numbers by their
    paths to its value."""
    kind: object
    value: object


class Told:
    """The length that an expression tells. `kinds` has the types of the numbers by their paths, `constants` those of
    the constants with their values."""

    def __init__(self, expression, kinds, constants):
        self.expression = expression
        self.kinds = kinds
        self.constants = constants
        self.paths = sorted({".".join(path) for path in map(path_of, expressions.mentions(expression))
                             if ".".join(path) in kinds})
        self.value = self.cast_to(self.term(expression), "usize").value

    def length(self, numbers):
        """The length that these numbers tell, or None."""
        try:
            return self.value(numbers)
        except NoLength:
            return None

    def text(self):
        """The expression as the source has it."""
        return said(self.expression)

    def term(self, value, wanted=None):
        """A part of the expression. `wanted` is the type that it has where it names none itself."""
        if isinstance(value, syntax.Literal):
            return constant(value.token.suffix or None, value.token.value)
        if isinstance(value, (syntax.Mention, syntax.Inner)):
            return self.named(".".join(path_of(value)))
        if isinstance(value, syntax.Cast):
            inner, kind = self.term(value.inner), value.target.path[0]
            return Term(kind, inner.value) if inner.kind is None else self.cast_to(inner, kind)
        if isinstance(value, syntax.Choice):
            return self.choice(value)
        if isinstance(value, syntax.Apply):
            return self.applied(value)
        return self.binary(value, wanted)

    def named(self, path):
        """A number that is read, or a constant."""
        if path in self.kinds:
            return Term(self.kinds[path], lambda numbers: numbers[path])
        return constant(*self.constants[path])

    @staticmethod
    def cast_to(term, kind):
        """A number as one of another type, of which it may be none."""
        if term.kind is None or term.kind not in SIGNED or kind not in UNSIGNED:
            return Term(kind, term.value)

        def value(numbers):
            found = term.value(numbers)
            if found < 0:
                raise NoLength
            return found

        return Term(kind, value)

    def two(self, first, second):
        """Two terms of one type, and that type."""
        if is_open(first):
            right = self.term(second)
            left = self.term(first, right.kind)
        else:
            left = self.term(first)
            right = self.term(second, left.kind)
        return left.value, right.value, left.kind or right.kind or "usize"

    def choice(self, value):
        """`if a < b { x } else { y }`, of which one branch is computed."""
        test = value.condition
        left, right, _ = self.two(test.left, test.right)
        yes, no, kind = self.two(value.yes, value.no)
        name, is_turned, are_turned = TESTS[test.sign]
        compare = {"lt": lambda a, b: a < b, "le": lambda a, b: a <= b, "eq": lambda a, b: a == b}[name]
        one, other = (right, left) if is_turned else (left, right)
        return Term(kind, lambda numbers: yes(numbers) if compare(one(numbers), other(numbers)) != are_turned
                    else no(numbers))

    def applied(self, value):
        """`a.min(b)`, `max(a, b)`, `usize::from(a)`, `a.saturating_sub(b)`."""
        name = value.name[-1]
        if name == "from":
            inner = self.term(value.arguments[0])
            return self.cast_to(inner, value.name[0])
        left, right, kind = self.two(*value.arguments)
        function = {"min": min, "max": max, "saturating_sub": lambda a, b: max(a - b, 0)}[name]
        return Term(kind, lambda numbers: function(left(numbers), right(numbers)))

    def binary(self, value, wanted):
        """Two numbers with a sign between them."""
        if is_open(value.left) and is_open(value.right):
            return constant(None, expressions.number(value, {}))
        if value.sign in ("<<", ">>"):
            left, right = self.term(value.left, wanted), self.term(value.right)
            return shifted(value.sign, left.value, right.value, left.kind or wanted or "usize")
        left, right, kind = self.two(value.left, value.right)
        compute = OPERATIONS[value.sign]

        def result(numbers):
            one, other = left(numbers), right(numbers)
            # The remainder of what has no quotient is none either.
            if value.sign == "%" and not fits(divided(one, other), kind):
                raise NoLength
            found = compute(one, other)
            if not fits(found, kind):
                raise NoLength
            return found

        return Term(kind, result)


def constant(kind, number):
    """A number that is always the same."""
    return Term(kind, lambda _: number)


def fits(number, kind):
    """Whether a number is one of a type."""
    if kind in SIGNED:
        return -(1 << BITS[kind] - 1) <= number < 1 << BITS[kind] - 1
    return 0 <= number < 1 << BITS[kind]


def shifted(sign, left, right, kind):
    """`<<`, which loses the bits that go past the type, and `>>`."""
    bits = BITS[kind]

    def result(numbers):
        count = right(numbers)
        if not 0 <= count < bits:
            raise NoLength
        return (left(numbers) << count) % (1 << bits) if sign == "<<" else left(numbers) >> count

    return Term(kind, result)


def divided(left, right):
    """A quotient, towards zero."""
    if right == 0:
        raise NoLength
    found = abs(left) // abs(right)
    return found if (left < 0) == (right < 0) else -found


def remainder(left, right):
    """What such a quotient leaves."""
    return left - divided(left, right) * right


OPERATIONS = {"+": lambda a, b: a + b, "-": lambda a, b: a - b, "*": lambda a, b: a * b, "/": divided,
              "%": remainder, "&": lambda a, b: a & b, "|": lambda a, b: a | b, "^": lambda a, b: a ^ b}
assert OPERATIONS.keys() | {"<<", ">>"} == CHECKED.keys() | BITWISE.keys()


def said(value, outer=0):
    """An expression as the source has it."""
    if isinstance(value, syntax.Literal):
        return value.token.text
    if isinstance(value, (syntax.Mention, syntax.Inner)):
        return ".".join(path_of(value))
    if isinstance(value, syntax.Cast):
        text = f"{said(value.inner, expressions.CAST)} as {value.target.path[-1]}"
        return f"({text})" if outer > expressions.CAST else text
    if isinstance(value, syntax.Choice):
        test = f"{said(value.condition.left)} {value.condition.sign} {said(value.condition.right)}"
        return f"if {test} {{ {said(value.yes)} }} else {{ {said(value.no)} }}"
    if isinstance(value, syntax.Apply):
        if value.is_method:
            first, *others = value.arguments
            return f"{said(first, expressions.CAST + 1)}.{value.name[-1]}({', '.join(map(said, others))})"
        return f"{'::'.join(value.name)}({', '.join(map(said, value.arguments))})"
    if isinstance(value, syntax.Binary):
        strength = STRENGTH[value.sign]
        text = f"{said(value.left, strength)} {value.sign} {said(value.right, strength + 1)}"
        return f"({text})" if outer > strength else text
    return "?"
