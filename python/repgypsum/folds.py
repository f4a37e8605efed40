"""Many parts as one expression: balanced trees, split at half, as the text form's forall, exists, sum, max and min."""

from __future__ import annotations

import builtins
from typing import Callable, Iterable, List, Optional, TypeVar

from .errors import ModelError
from .expressions import Condition, IntExpr, Number, condition, number, pair
from .forms import Expr
from .objects import always

Kind = TypeVar("Kind", bound=Expr)


def balanced(parts: List[Kind], join: Callable[[Kind, Kind], Kind], none: Optional[Kind]) -> Kind:
    """Of n parts the first n // 2 and the rest are joined, each joined in the same way."""
    if not parts:
        if none is None:
            raise ModelError("there is no greatest or least of no numbers")
        return none
    if len(parts) == 1:
        return parts[0]
    half = len(parts) // 2
    return join(balanced(parts[:half], join, none), balanced(parts[half:], join, none))


def forall(parts: Iterable[Condition]) -> Condition:
    """Holds when all parts do, with none always."""
    return balanced([condition(part) for part in parts], lambda p, q: p & q, always())


def exists(parts: Iterable[Condition]) -> Condition:
    """Holds when a part does, with none never."""
    return balanced([condition(part) for part in parts], lambda p, q: p | q, ~always())


def sum(parts: Iterable[Number]) -> IntExpr:  # noqa: A001 - the word of the text form
    """The sum of numbers, of none 0."""
    return balanced([number(part) for part in parts], lambda x, y: x + y, number(0))


def max(*parts: Number) -> IntExpr:  # noqa: A001 - didppy's word
    """The greatest of one number or more."""
    join = lambda x, y: pair(0x27, "max", x, y, builtins.max)
    return balanced([number(part) for part in parts], join, None)


def min(*parts: Number) -> IntExpr:  # noqa: A001 - didppy's word
    """The least of one number or more."""
    join = lambda x, y: pair(0x26, "min", x, y, builtins.min)
    return balanced([number(part) for part in parts], join, None)
