"""Variables of a model: expressions with a place in the state and a target value."""

from __future__ import annotations

from typing import Optional, Union

from .expressions import IntExpr
from .forms import ATOM, Form
from .objects import ElementExpr, ObjectType, SetExpr

# A preference as an operand of 03 and 04.
PREFERENCES = {None: 0, True: 1, False: 2}
PREFER = {None: "", True: " prefer less", False: " prefer more"}


def variable_form(model: object, byte: int, word: str, index: int, name: Optional[str]) -> Form:
    text = name if name is not None else f"{word} {index}"
    return Form(bytes([byte, index]), 1, text, ATOM, lambda values: values[index], model)


class SetVar(SetExpr):
    """A set variable."""

    __slots__ = ("index", "name", "target")
    word = "set"

    def __init__(self, model: object, index: int, objects: ObjectType, target: int, name: Optional[str]) -> None:
        form = variable_form(model, 0x41, self.word, index, name)
        super().__init__(form, objects.number, objects)
        self.index = index
        self.name = name
        self.target = target

    def code(self) -> bytes:
        return bytes([0x02, self.count]) + self.target.to_bytes(8, "little")

    def declaration(self) -> str:
        assert self.objects is not None
        name = "" if self.name is None else f" {self.name}"
        return f"set{name} of {self.objects.side()} = {self.objects.braces(self.target)}"

    def words(self, value: int) -> str:
        assert self.objects is not None
        return self.objects.braces(value)


class ElementVar(ElementExpr):
    """An element variable."""

    __slots__ = ("index", "name", "target", "less_is_better")
    word = "element"

    def __init__(
        self, model: object, index: int, objects: ObjectType, target: int, less: Optional[bool], name: Optional[str]
    ) -> None:
        form = variable_form(model, 0x31, self.word, index, name)
        super().__init__(form, objects.number, objects)
        self.index = index
        self.name = name
        self.target = target
        self.less_is_better = less

    def code(self) -> bytes:
        return bytes([0x03, self.count, PREFERENCES[self.less_is_better], self.target])

    def declaration(self) -> str:
        assert self.objects is not None
        name = "" if self.name is None else f" {self.name}"
        start = self.objects.word(self.target)
        return f"element{name} of {self.objects.side()} = {start}{PREFER[self.less_is_better]}"

    def words(self, value: int) -> str:
        assert self.objects is not None
        return self.objects.word(value)


class IntVar(IntExpr):
    """A number variable."""

    __slots__ = ("index", "name", "target", "less_is_better")
    word = "number"

    def __init__(self, model: object, index: int, target: int, less: Optional[bool], name: Optional[str]) -> None:
        super().__init__(variable_form(model, 0x21, self.word, index, name))
        self.index = index
        self.name = name
        self.target = target
        self.less_is_better = less

    def code(self) -> bytes:
        return bytes([0x04, PREFERENCES[self.less_is_better]]) + self.target.to_bytes(4, "little", signed=True)

    def declaration(self) -> str:
        name = "" if self.name is None else f" {self.name}"
        return f"number{name} = {self.target}{PREFER[self.less_is_better]}"

    def words(self, value: int) -> str:
        return str(value)


Variable = Union[SetVar, ElementVar, IntVar]
