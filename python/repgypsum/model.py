"""A model under construction, in didppy's vocabulary; it is written as bytes and as text, and planned by the proved search."""

from __future__ import annotations

import os
from pathlib import Path
from typing import Iterable, List, Optional, Sequence, TypeVar, Union

from . import library, program
from .answers import Answer, Checked
from .errors import ModelError
from .expressions import Condition, IntExpr, Number, condition, number
from .forms import Expr
from .names import Names
from .numbers import (
    MOST_BASE_CASES,
    MOST_BOUNDS,
    MOST_CONDITIONS,
    MOST_CONSTRAINTS,
    MOST_MODEL_BYTES,
    MOST_NESTING,
    MOST_TABLES,
    MOST_TRANSITIONS,
    MOST_VARIABLES,
    in_range,
)
from .objects import ObjectType, SetExpr, members, set_constant
from .program import Declarations
from .states import State, after, follow
from .tables import IntTable, Side
from .transition import Transition
from .variables import ElementVar, IntVar, SetVar, Variable

Objects = Union[ObjectType, int]
OneStep = Union[int, str, Transition]

Kind = TypeVar("Kind", bound=Expr)

RULES = {"sum": 0, "largest": 1}

#: The widest beam and the length limit where none is given.
WIDTH = 16
LENGTH = 64


def _without_length(length: Optional[int]) -> None:
    if length is not None:
        raise ValueError("the loading profile chooses the length: `loading` or `length`, not both")


def _without_width(width: Optional[int]) -> None:
    if width is not None:
        raise ValueError("the last of the widths is the widest beam: `widths` or `width`, not both")


class Model:
    """A model of docs/FORMAT.md. What it takes, the reader of the proved core accepts."""

    def __init__(self, cost: str = "sum", name: str = "model") -> None:
        """`cost` is the rule by which step costs make a plan's cost: "sum" or "largest"."""
        if cost not in RULES:
            raise ModelError(f'the cost rule is "sum" or "largest", not {cost!r}')
        if Path(name).name != name:
            raise ModelError(f"`{name}` is no name of a model: it is a file's name, without folders")
        self.cost = cost
        self.name = name
        self.object_types: List[ObjectType] = []
        self.variables: List[Variable] = []
        self.tables: List[IntTable] = []
        self.transitions: List[Transition] = []
        self.base_cases: List[List[Condition]] = []
        self.state_constrs: List[Condition] = []
        self.dual_bounds: List[IntExpr] = []
        self._names = Names()

    # Declarations.

    def add_object_type(
        self, number: Optional[int] = None, name: Optional[str] = None, objects: Optional[Sequence[str]] = None
    ) -> ObjectType:
        """Objects by their number, or by their names, in the order of their numbers."""
        if (number is None) == (objects is None):
            raise ModelError("either the number of the objects or their names are due")
        count = number if number is not None else len(objects or ())
        kind = ObjectType(self._names, count, name, objects)
        self.object_types.append(kind)
        return kind

    def _objects(self, given: Objects) -> ObjectType:
        return given if isinstance(given, ObjectType) else ObjectType(Names(), given, None, None)

    def _variable(self, variable: Variable) -> None:
        self._room(self.variables, MOST_VARIABLES, "variables")
        self._names.thing(variable.name)
        self.variables.append(variable)

    def add_set_var(
        self, object_type: Objects, target: Iterable[Union[int, str]], name: Optional[str] = None
    ) -> SetVar:
        """A set variable; `target` has the members at the start."""
        objects = self._objects(object_type)
        variable = SetVar(self, len(self.variables), objects, members(list(target), objects), name)
        self._variable(variable)
        return variable

    def add_element_var(
        self,
        object_type: Objects,
        target: Union[int, str],
        name: Optional[str] = None,
        less_is_better: Optional[bool] = None,
    ) -> ElementVar:
        """An element variable; with `less_is_better` it declares a preference, as didppy's resource variables do."""
        objects = self._objects(object_type)
        start = objects.index(target)
        variable = ElementVar(self, len(self.variables), objects, start, less_is_better, name)
        self._variable(variable)
        return variable

    def add_int_var(self, target: int, name: Optional[str] = None, less_is_better: Optional[bool] = None) -> IntVar:
        """A number variable; with `less_is_better` it declares a preference, as didppy's resource variables do."""
        if isinstance(target, bool) or not isinstance(target, int) or not in_range(target):
            raise ModelError(f"{target!r} is no start of a number variable")
        variable = IntVar(self, len(self.variables), target, less_is_better, name)
        self._variable(variable)
        return variable

    def add_element_resource_var(
        self, object_type: Objects, target: Union[int, str], less_is_better: bool = False, name: Optional[str] = None
    ) -> ElementVar:
        """didppy's name for an element variable with a preference."""
        return self.add_element_var(object_type, target, name, less_is_better)

    def add_int_resource_var(self, target: int, less_is_better: bool = False, name: Optional[str] = None) -> IntVar:
        """didppy's name for a number variable with a preference."""
        return self.add_int_var(target, name, less_is_better)

    def add_table(
        self,
        table: Sequence[Union[int, Sequence[int]]],
        name: Optional[str] = None,
        object_types: Sequence[Side] = (),
    ) -> IntTable:
        """A list of numbers, or rows of numbers. With `object_types`, one a side, indices may be objects by name."""
        self._room(self.tables, MOST_TABLES, "tables")
        made = IntTable(self, len(self.tables), table, name, object_types)
        self._names.thing(name)
        self.tables.append(made)
        return made

    add_int_table = add_table

    def create_set_const(self, object_type: Objects, value: Iterable[Union[int, str]]) -> SetExpr:
        """A set of known members."""
        objects = self._objects(object_type)
        return set_constant(members(list(value), objects), objects)

    # Commands.

    def add_transition(self, transition: Transition) -> int:
        """Takes a transition, and gives its number."""
        self._room(self.transitions, MOST_TRANSITIONS, "transitions")
        if transition.number is not None:
            raise ModelError(f"{transition!r} is there already")
        if len(transition.preconditions) > MOST_CONDITIONS:
            raise ModelError(f"a transition has at most {MOST_CONDITIONS} conditions; forall joins several into one")
        for variable, _ in transition.effects:
            self._own(variable)
        for expression in transition.expressions():
            self._own(expression)
        self._names.transition(transition.name)
        transition.number = len(self.transitions)
        self.transitions.append(transition)
        return transition.number

    def add_base_case(self, conditions: Iterable[Condition]) -> None:
        """A state is base if all conditions hold."""
        self._room(self.base_cases, MOST_BASE_CASES, "base cases")
        case = [self._own(condition(one)) for one in conditions]
        if len(case) > MOST_CONDITIONS:
            raise ModelError(f"a base case has at most {MOST_CONDITIONS} conditions; forall joins several into one")
        self.base_cases.append(case)

    def add_state_constr(self, constraint: Condition) -> None:
        """A condition that every state of a plan meets, the target included."""
        self._room(self.state_constrs, MOST_CONSTRAINTS, "state constraints")
        self.state_constrs.append(self._own(condition(constraint)))

    def add_dual_bound(self, bound: Number) -> None:
        """Declares a number that is at most the cost of every plan from a state."""
        self._room(self.dual_bounds, MOST_BOUNDS, "dual bounds")
        self.dual_bounds.append(self._own(number(bound)))

    def _room(self, there: Sequence[object], most: int, what: str) -> None:
        if len(there) >= most:
            raise ModelError(f"a model has at most {most} {what}")

    def _own(self, expression: Kind) -> Kind:
        form = expression.form
        if form.model is not None and form.model is not self:
            raise ModelError(f"`{expression}` belongs to another model")
        if form.nesting > MOST_NESTING:
            raise ModelError(f"an expression is nested {form.nesting} deep; {MOST_NESTING} are allowed")
        return expression

    # What the model is written as.

    def to_bytes(self) -> bytes:
        """The bytes of docs/FORMAT.md, the same as those of the text form's."""
        parts = [bytes([0x01, RULES[self.cost]])]
        parts += [variable.code() for variable in self.variables]
        parts += [table.code() for table in self.tables]
        parts += [transition.code() for transition in self.transitions]
        for case in self.base_cases:
            parts.append(b"\x0B" + b"".join(b"\x08" + one.form.code for one in case))
        parts += [b"\x0C" + constraint.form.code for constraint in self.state_constrs]
        parts += [b"\x0D" + bound.form.code for bound in self.dual_bounds]
        code = b"".join(parts) + b"\x0E"
        if len(code) > MOST_MODEL_BYTES:
            raise ModelError(f"the model has {len(code)} bytes; at most {MOST_MODEL_BYTES} are allowed")
        return code

    def to_text(self) -> str:
        """The text of docs/TEXT.md, which assembles to the same bytes."""
        lines = [f"cost {self.cost}", ""]
        named = (kind for kind in self.object_types if kind.objects is not None)
        lines += [f"objects {kind.name} = {' '.join(kind.objects or ())}" for kind in named]
        lines += [variable.declaration() for variable in self.variables]
        lines += [table.text() for table in self.tables]
        for transition in self.transitions:
            lines += ["", transition.text()]
        for case in self.base_cases:
            lines += ["", "base:"] + [f"    when {one}" for one in case]
        lines += [f"\nconstraint {constraint}" for constraint in self.state_constrs]
        lines += [f"\nbound {bound}" for bound in self.dual_bounds]
        return "\n".join(lines) + "\n"

    # States, outside the proofs.

    @property
    def target_state(self) -> State:
        """The state of the start values."""
        return State(self.variables, [variable.target for variable in self.variables])

    def after(self, transition: OneStep, state: State) -> State:
        """The state after a step; conditions and constraints are not asked."""
        return after(self.transitions[self._step(transition)], state)

    # Plans, by the proved library.

    def plan(
        self,
        width: Optional[int] = None,
        length: Optional[int] = None,
        budget: int = 100_000,
        loading: bool = False,
        widths: Optional[Sequence[int]] = None,
    ) -> Answer:
        """Looks for the cheapest plan by the proved search. What cannot be searched is a refusal in the answer.

        `width` is 16 and `length` 64 if none is given. With `loading` the model has to be in the loading profile, which chooses the
        length. With `widths` the rounds have these widths in the place of 1, 2, 4 up to `width`.
        """
        if loading:
            _without_length(length)
        limit = LENGTH if length is None else length
        model = self.to_bytes()
        if widths is None:
            widest = WIDTH if width is None else width
            found = library.load(model, widest, budget) if loading else library.search(model, widest, limit, budget)
        else:
            _without_width(width)
            if loading:
                found = library.load_widths(model, widths, budget)
            else:
                found = library.search_widths(model, widths, limit, budget)
        steps = follow(self.transitions, self.cost, self.target_state, found.plan)
        return Answer(**vars(found), steps=tuple(steps))

    def check(self, plan: Iterable[OneStep]) -> Checked:
        """The proved plan check; steps by number, by name or as transitions."""
        steps = bytes(self._step(one) for one in plan)
        return Checked(*library.check(self.to_bytes(), steps))

    def _step(self, given: OneStep) -> int:
        if isinstance(given, Transition):
            if given.number is None or self.transitions[given.number : given.number + 1] != [given]:
                raise ModelError(f"{given!r} is no transition of this model")
            return given.number
        if isinstance(given, str):
            found = [number for number, one in enumerate(self.transitions) if one.name == given]
            if not found:
                raise ModelError(f"there is no transition `{given}`")
            return found[0]
        if isinstance(given, bool) or not isinstance(given, int) or not 0 <= given < 256:
            raise ModelError(f"{given!r} is no step: its number is 0 to 255")
        return given

    # By the command line program.

    def declarations(
        self, states: Optional[int] = None, walks: Optional[int] = None, seed: Optional[int] = None
    ) -> Declarations:
        """Looks whether the declared bounds and preferences are true, by `repgypsum declarations`."""
        given = {"--states": states, "--walks": walks, "--seed": seed}
        options = [f"{name}={value}" for name, value in given.items() if value is not None]
        return Declarations(program.ask("declarations", options, f"{self.name}.dp", self.to_text()))

    def page(
        self,
        out: Union[str, "os.PathLike[str]"],
        lane: Optional[Union[Variable, str]] = None,
        clock: Optional[Union[Variable, str]] = None,
        width: Optional[int] = None,
        length: Optional[int] = None,
        budget: int = 100_000,
        loading: bool = False,
        widths: Optional[Sequence[int]] = None,
    ) -> str:
        """Plans, and writes the auditor's page, by `repgypsum explain --html`; gives what is printed beside it."""
        path = str(Path(out).absolute())
        if loading:
            _without_length(length)
        limit = "--loading" if loading else f"--length={LENGTH if length is None else length}"
        if widths is None:
            beam = f"--width={WIDTH if width is None else width}"
        else:
            _without_width(width)
            beam = "--widths=" + ",".join(str(one) for one in widths)
        options = [beam, limit, f"--budget={budget}", f"--html={path}"]
        options += [] if lane is None else [f"--lane={lane}"]
        options += [] if clock is None else [f"--clock={clock}"]
        _, output = program.run("explain", options, f"{self.name}.dp", self.to_text())
        return output
