"""States, and plans followed step by step. These values are Python's own; no proof reaches here."""

from __future__ import annotations

from typing import FrozenSet, Iterable, Iterator, List, NamedTuple, Optional, Sequence, Tuple, Union

from .errors import Trouble
from .numbers import HIGH_BELOW_LOW, NEGATIVE_COST
from .objects import ObjectType
from .transition import Transition
from .variables import ElementVar, SetVar, Variable

Shown = Union[int, str, FrozenSet[Union[int, str]]]


def shown(objects: ObjectType, index: int) -> Union[int, str]:
    """An object by its name, or by its number where it has none."""
    return index if objects.objects is None else objects.word(index)


class State:
    """The value of each variable: numbers as int, objects by name or number, sets as frozensets of those."""

    def __init__(self, variables: Sequence[Variable], values: Sequence[int]) -> None:
        self.variables = tuple(variables)
        self.values = tuple(values)

    def __getitem__(self, variable: Union[Variable, str]) -> Shown:
        if isinstance(variable, str):
            found = [one for one in self.variables if one.name == variable]
            if not found:
                raise KeyError(variable)
            variable = found[0]
        value = self.values[variable.index]
        if isinstance(variable, (SetVar, ElementVar)):
            objects = variable.objects
            assert objects is not None
            if isinstance(variable, ElementVar):
                return shown(objects, value)
            return frozenset(shown(objects, index) for index in range(objects.number) if value >> index & 1)
        return value

    def words(self) -> List[str]:
        """The values in the words of the text form, by variable."""
        return [variable.words(value) for variable, value in zip(self.variables, self.values)]

    def __iter__(self) -> Iterator[Shown]:
        return (self[variable] for variable in self.variables)

    def __eq__(self, other: object) -> bool:
        return isinstance(other, State) and self.values == other.values

    def __hash__(self) -> int:
        return hash(self.values)

    def __str__(self) -> str:
        parts = (f"{variable} = {word}" for variable, word in zip(self.variables, self.words()))
        return ", ".join(parts) or "no variables"

    __repr__ = __str__


class Step(NamedTuple):
    """A step of a plan or path: its transition, its own cost, the cost up to and with it, the state after it; both costs at low figures."""

    number: int
    name: Optional[str]
    cost: int
    total: int
    state: State
    low: int
    low_total: int

    def __str__(self) -> str:
        return str(self.number) if self.name is None else f"{self.number} {self.name}"


def after(transition: Transition, state: State) -> State:
    """The state after a step; conditions and constraints are not asked."""
    values = list(state.values)
    for variable, value in transition.effects:
        values[variable.index] = value.form.value(state.values)
    return State(state.variables, values)


def follow(transitions: Sequence[Transition], rule: str, target: State, plan: Iterable[int]) -> List[Step]:
    """The steps from the target, with their costs and states."""
    steps: List[Step] = []
    state, total, low_total = target, 0, 0
    for number in plan:
        transition = transitions[number]
        low, cost = costs(transition, state)
        total = total + cost if rule == "sum" else max(total, cost)
        low_total = low_total + low if rule == "sum" else max(low_total, low)
        state = after(transition, state)
        steps.append(Step(number, transition.name, cost, total, state, low, low_total))
    return steps


def costs(transition: Transition, state: State) -> Tuple[int, int]:
    """The low and the high cost of a step."""
    low = transition.cost.form.value(state.values)
    if low < 0:
        raise Trouble(NEGATIVE_COST, "a step with a negative cost")
    high = low if transition.high is None else transition.high.form.value(state.values)
    if high < low:
        raise Trouble(HIGH_BELOW_LOW, "a step with a high cost below its low cost")
    return low, high
