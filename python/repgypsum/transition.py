"""Transitions: conditions, a cost or a range of costs, and effects."""

from __future__ import annotations

from typing import Iterable, List, Optional, Tuple, Union

from .errors import ModelError
from .expressions import Condition, IntExpr, Number, condition, number
from .forms import Expr
from .objects import Object, SetExpr, element
from .variables import ElementVar, IntVar, SetVar, Variable

Effect = Tuple[Variable, Union[Number, Object, SetExpr]]


def new_value(variable: Variable, given: Union[Number, Object, SetExpr]) -> Expr:
    """An effect's expression, of the variable's kind and count."""
    if isinstance(variable, IntVar):
        return number(given)  # type: ignore[arg-type]
    if isinstance(variable, SetVar):
        if not isinstance(given, SetExpr) or given.count != variable.count:
            raise ModelError(f"the new value of {variable} is a set of {variable.count} objects, not {given!r}")
        return given
    if not isinstance(variable, ElementVar):
        raise ModelError(f"{variable!r} is no variable")
    one = element(given, variable.objects)  # type: ignore[arg-type]
    if one.count > variable.count:
        raise ModelError(f"an element of {one.count} objects does not fit {variable}, which has {variable.count}")
    return one


class Transition:
    """A step that a plan can take.

    `cost` is the step's own cost, which the model's cost rule adds up or takes the largest of; there is no state cost in it.
    Where it is known only within a range, `cost` is the low end and `high` the high one, which the search works on.
    All effects read the state before the step.
    """

    def __init__(
        self,
        name: Optional[str] = None,
        cost: Number = 0,
        preconditions: Iterable[Condition] = (),
        effects: Iterable[Effect] = (),
        high: Optional[Number] = None,
    ) -> None:
        self.name = name
        self.cost: IntExpr = number(cost)
        self.high: Optional[IntExpr] = None if high is None else number(high)
        self.preconditions: List[Condition] = [condition(one) for one in preconditions]
        self.effects: List[Tuple[Variable, Expr]] = []
        self.number: Optional[int] = None
        for variable, value in effects:
            self.add_effect(variable, value)

    def add_precondition(self, given: Condition) -> None:
        self.preconditions.append(condition(given))

    def add_effect(self, variable: Variable, value: Union[Number, Object, SetExpr]) -> None:
        """The variable's new value; a variable has one effect at most."""
        new = new_value(variable, value)
        if any(one.index == variable.index for one, _ in self.effects):
            raise ModelError(f"{variable} has a second effect")
        self.effects.append((variable, new))

    def expressions(self) -> List[Expr]:
        return [*self.preconditions, *self.costs(), *(value for _, value in self.effects)]

    def costs(self) -> List[IntExpr]:
        """The cost, and the high cost if there is one."""
        return [self.cost] if self.high is None else [self.cost, self.high]

    def code(self) -> bytes:
        """The commands 07, 08, 09, 10 and 0A."""
        conditions = (b"\x08" + one.form.code for one in self.preconditions)
        effects = (bytes([0x0A, variable.index]) + value.form.code for variable, value in self.effects)
        costs = (byte + cost.form.code for byte, cost in zip([b"\x09", b"\x10"], self.costs()))
        return b"\x07" + b"".join([*conditions, *costs, *effects])

    def text(self) -> str:
        """The transition as commands of the text form."""
        lines = ["transition:" if self.name is None else f"transition {self.name}:"]
        lines += [f"    when {one}" for one in self.preconditions]
        lines += [f"    {word} {cost}" for word, cost in zip(["cost", "high"], self.costs())]
        lines += [f"    {variable} := {value}" for variable, value in self.effects]
        return "\n".join(lines)

    def __repr__(self) -> str:
        return f"<Transition {self.name if self.name is not None else self.number}>"
