"""What every expression has: its bytes (docs/FORMAT.md, "Expressions"), its text (docs/TEXT.md) and its value in a state."""

from __future__ import annotations

from typing import Any, Callable, Optional, Sequence

from .errors import ModelError

# The levels of signs in the text form, from the loosest to the tightest.
CHOICE, OR, AND, NOT, COMPARISON, UNION, INTERSECTION, SUM, PRODUCT, PREFIX, ATOM = range(11)

# A state's values by variable: numbers and objects as int, sets as bits in an int.
Values = Sequence[int]
Value = Callable[[Values], Any]


class Form:
    """What an expression is written as: its bytes, nesting, text with its level, and the value in a state."""

    __slots__ = ("code", "nesting", "text", "level", "value", "model")

    def __init__(self, code: bytes, nesting: int, text: str, level: int, value: Value, model: Optional[object]) -> None:
        self.code = code
        self.nesting = nesting
        self.text = text
        self.level = level
        self.value = value
        self.model = model

    def within(self, level: int) -> str:
        """The text as an operand that may be as loose as this level."""
        return self.text if self.level >= level else f"({self.text})"


def formed(head: bytes, parts: Sequence["Expr"], text: str, level: int, value: Value) -> Form:
    """A form of its first bytes and its parts, which belong to one model."""
    model = None
    for part in parts:
        owner = part.form.model
        if owner is not None and model is not None and owner is not model:
            raise ModelError("the parts of an expression belong to different models")
        model = owner if owner is not None else model
    code = head + b"".join(part.form.code for part in parts)
    nesting = 1 + max((part.form.nesting for part in parts), default=0)
    return Form(code, nesting, text, level, value, model)


class Expr:
    """An expression of one of the four kinds."""

    __slots__ = ("form",)
    __hash__ = None  # type: ignore[assignment]

    def __init__(self, form: Form) -> None:
        self.form = form

    def __bool__(self) -> bool:
        raise TypeError("an expression has no truth value here: write & for and, | for or, ~ for not, s.contains(e) for in")

    def __str__(self) -> str:
        return self.form.text

    def __repr__(self) -> str:
        return f"<{type(self).__name__} {self.form.text}>"
