"""Number expressions and conditions by operators.

Operators build one byte form each, from left to right: `a + b + c` is `(a + b) + c`, as in the text form. Balanced trees of many
parts are in `folds`.
"""

from __future__ import annotations

from typing import Callable, Union

from .errors import ModelError, Trouble
from .forms import AND, ATOM, CHOICE, COMPARISON, NOT, OR, PREFIX, PRODUCT, SUM, UNION, Expr, Form, Value, formed
from .numbers import DIVISOR_ZERO, OUT_OF_RANGE, in_range


def ranged(number: int) -> int:
    """The number, if it lies in the range of number expressions."""
    if not in_range(number):
        raise Trouble(OUT_OF_RANGE, "a number out of range")
    return number


def floor_quotient(dividend: int, divisor: int) -> int:
    if divisor == 0:
        raise Trouble(DIVISOR_ZERO, "a quotient by zero")
    return ranged(dividend // divisor)


class IntExpr(Expr):
    """A number: `+ - * //`, comparisons, unary minus."""

    __slots__ = ()

    def __add__(self, other: "Number") -> "IntExpr":
        return _arithmetic(0x22, "+", SUM, self, other, lambda x, y: ranged(x + y))

    def __radd__(self, other: "Number") -> "IntExpr":
        return number(other) + self

    def __sub__(self, other: "Number") -> "IntExpr":
        return _arithmetic(0x23, "-", SUM, self, other, lambda x, y: ranged(x - y))

    def __rsub__(self, other: "Number") -> "IntExpr":
        return number(other) - self

    def __mul__(self, other: "Number") -> "IntExpr":
        return _arithmetic(0x24, "*", PRODUCT, self, other, lambda x, y: ranged(x * y))

    def __rmul__(self, other: "Number") -> "IntExpr":
        return number(other) * self

    def __floordiv__(self, other: "Number") -> "IntExpr":
        return _arithmetic(0x25, "/", PRODUCT, self, other, floor_quotient)

    def __rfloordiv__(self, other: "Number") -> "IntExpr":
        return number(other) // self

    def __neg__(self) -> "IntExpr":
        return 0 - self

    def __eq__(self, other: "Number") -> "Condition":  # type: ignore[override]
        return comparison(0x50, "=", self, number(other), lambda x, y: x == y)

    def __ne__(self, other: "Number") -> "Condition":  # type: ignore[override]
        return ~(self == other)

    def __lt__(self, other: "Number") -> "Condition":
        return comparison(0x51, "<", self, number(other), lambda x, y: x < y)

    def __le__(self, other: "Number") -> "Condition":
        return comparison(0x52, "<=", self, number(other), lambda x, y: x <= y)

    def __gt__(self, other: "Number") -> "Condition":
        return number(other) < self

    def __ge__(self, other: "Number") -> "Condition":
        return number(other) <= self


# Terms and variables are classes beside one another: where the right side's class is below the left side's, Python swaps the
# sides of a comparison.


class IntTerm(IntExpr):
    """A number expression that is no variable."""

    __slots__ = ()


Number = Union[IntExpr, int]


def number(given: Number) -> IntExpr:
    """A number expression; an int is a literal."""
    if isinstance(given, IntExpr):
        return given
    if isinstance(given, bool) or not isinstance(given, int):
        raise ModelError(f"a number is due, not {given!r}")
    if not in_range(given):
        raise ModelError(f"{given} is out of the range of numbers")
    level = ATOM if given >= 0 else PREFIX
    code = b"\x20" + given.to_bytes(4, "little", signed=True)
    return IntTerm(Form(code, 1, str(given), level, lambda values: given, None))


def _arithmetic(
    byte: int, sign: str, level: int, left: Number, right: Number, compute: Callable[[int, int], int]
) -> IntExpr:
    first, second = number(left), number(right)
    x, y = first.form, second.form
    text = f"{x.within(level)} {sign} {y.within(level + 1)}"
    return IntTerm(formed(bytes([byte]), [first, second], text, level, lambda v: compute(x.value(v), y.value(v))))


def pair(byte: int, word: str, first: IntExpr, second: IntExpr, compute: Callable[[int, int], int]) -> IntExpr:
    """`min(x, y)` or `max(x, y)`."""
    x, y = first.form, second.form
    text = f"{word}({x.text}, {y.text})"
    return IntTerm(formed(bytes([byte]), [first, second], text, ATOM, lambda v: compute(x.value(v), y.value(v))))


def comparison(byte: int, sign: str, first: Expr, second: Expr, compute: Callable[[int, int], bool]) -> "Condition":
    """A comparison of two parts by a sign."""
    x, y = first.form, second.form
    text = f"{x.within(UNION)} {sign} {y.within(UNION)}"
    return Condition(formed(bytes([byte]), [first, second], text, COMPARISON, lambda v: compute(x.value(v), y.value(v))))


class Condition(Expr):
    """A condition: `&` and, `|` or, `~` not."""

    __slots__ = ()

    def __and__(self, other: "Condition") -> "Condition":
        x, y = self.form, condition(other).form
        text = f"{x.within(AND)} and {y.within(NOT)}"
        return Condition(formed(b"\x58", [self, other], text, AND, lambda v: x.value(v) and y.value(v)))

    def __or__(self, other: "Condition") -> "Condition":
        x, y = self.form, condition(other).form
        text = f"{x.within(OR)} or {y.within(AND)}"
        return Condition(formed(b"\x59", [self, other], text, OR, lambda v: x.value(v) or y.value(v)))

    def __invert__(self) -> "Condition":
        x = self.form
        text = f"not {x.within(COMPARISON)}"
        return Condition(formed(b"\x57", [self], text, NOT, lambda v: not x.value(v)))

    def if_then_else(self, then: Number, otherwise: Number) -> IntExpr:
        """The first number where the condition holds, else the second; only that one is evaluated."""
        first, second = number(then), number(otherwise)
        p, x, y = self.form, first.form, second.form
        text = f"if {p.within(OR)} then {x.within(OR)} else {y.within(OR)}"
        value: Value = lambda v: x.value(v) if p.value(v) else y.value(v)
        return IntTerm(formed(b"\x2B", [self, first, second], text, CHOICE, value))


def condition(given: Condition) -> Condition:
    if not isinstance(given, Condition):
        raise ModelError(f"a condition is due, not {given!r}")
    return given
