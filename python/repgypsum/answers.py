"""Answers of the search and of the plan check."""

from __future__ import annotations

from dataclasses import dataclass
from typing import Tuple

from .library import Found
from .numbers import CHEAPEST, NO_PLAN, REFUSALS, VERDICTS
from .states import Step


@dataclass(frozen=True)
class Answer(Found):
    """The answer of a search.

    `number` is the verdict's number, or the refusal's where `refused`; `name` is it in words. `steps` are those of the plan,
    or of the path to the state of a refusal 11 to 13 or 17; their costs and states are Python's own, outside the proofs. Where costs
    are ranges, `cost` and `bound` are at high figures and `low` is the cost at low ones: the real cost lies between `low` and `cost`.
    """

    steps: Tuple[Step, ...]

    @property
    def name(self) -> str:
        return (REFUSALS if self.refused else VERDICTS).get(self.number, "unknown")

    @property
    def is_optimal(self) -> bool:
        """Whether the mark is "cheapest": no plan costs less (at high figures), if the declared bounds and preferences are true."""
        return not self.refused and self.number == CHEAPEST

    @property
    def is_infeasible(self) -> bool:
        """Whether the mark is "no plan": there is none, if the declarations are true, or if the target breaks a constraint."""
        return not self.refused and self.number == NO_PLAN

    @property
    def best_bound(self) -> int:
        """didppy's name for the bound."""
        return self.bound

    @property
    def expanded(self) -> int:
        """didppy's name for the expansions."""
        return self.expansions

    @property
    def transitions(self) -> Tuple[str, ...]:
        """The steps by name, or by number where there is no name."""
        return tuple(step.name if step.name is not None else str(step.number) for step in self.steps)

    @property
    def line(self) -> str:
        """The line that the command line prints."""
        if self.refused:
            return f"refused {self.number}"
        fields = (self.cost, self.bound, self.length, self.expansions, self.rounds, self.width, self.low)
        numbers = [self.number, int(self.plan_given), *fields]
        return " ".join([*map(str, numbers), ":", *map(str, self.plan)])

    def __str__(self) -> str:
        if self.refused:
            return f"refused {self.number}, {self.name}"
        if not self.plan_given:
            return f"{self.name}, no plan is given, bound {self.bound}"
        cost = f"cost {self.cost}" if self.low == self.cost else f"cost {self.cost}, low {self.low}"
        return f"{self.name}, {cost}, bound {self.bound}: " + ", ".join(self.transitions)


@dataclass(frozen=True)
class Checked:
    """The answer of the plan check: 0 with the cost at high and at low figures exactly for a plan, else a refusal's number."""

    number: int
    cost: int
    low: int

    @property
    def is_plan(self) -> bool:
        return self.number == 0

    @property
    def name(self) -> str:
        return "a plan" if self.is_plan else REFUSALS.get(self.number, "unknown")

    def __bool__(self) -> bool:
        return self.is_plan
