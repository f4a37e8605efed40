"""Objects, element expressions and set expressions by operators and methods."""

from __future__ import annotations

from typing import Callable, Iterator, Optional, Sequence, Union

from .errors import ModelError
from .expressions import Condition, IntExpr, IntTerm, comparison
from .forms import ATOM, COMPARISON, INTERSECTION, PREFIX, PRODUCT, SUM, UNION, Expr, Form, formed
from .names import Names
from .numbers import MOST_OBJECTS


class ObjectType:
    """Objects that belong together, numbered from 0, perhaps with names; didppy's object type."""

    __slots__ = ("number", "name", "objects")

    def __init__(self, names: Names, number: int, name: Optional[str], objects: Optional[Sequence[str]]) -> None:
        if not 1 <= number <= MOST_OBJECTS:
            raise ModelError(f"an object count is 1 to {MOST_OBJECTS}, not {number}")
        if objects is not None and name is None:
            raise ModelError("objects with names need a name for their group")
        names.thing(name)
        for one in objects or ():
            names.thing(one)
        self.number = number
        self.name = name
        self.objects = None if objects is None else tuple(objects)

    def index(self, given: Union[int, str]) -> int:
        """The number of an object by number or name."""
        if isinstance(given, str):
            if self.objects is None or given not in self.objects:
                raise ModelError(f"`{given}` is no object of {self.side()}")
            return self.objects.index(given)
        if isinstance(given, bool) or not isinstance(given, int) or not 0 <= given < self.number:
            raise ModelError(f"{given!r} is no object of {self.side()}")
        return given

    def word(self, index: int) -> str:
        """An object's name, or its number."""
        return str(index) if self.objects is None else self.objects[index]

    def side(self) -> str:
        """The group's name where its objects have names, else the object count: what stands behind `of`."""
        return str(self.number) if self.objects is None or self.name is None else self.name

    def braces(self, members: int) -> str:
        words = [self.word(index) for index in range(self.number) if members >> index & 1]
        return "{" + ", ".join(words) + "}"

    def __len__(self) -> int:
        return self.number

    def __getitem__(self, given: Union[int, str]) -> "ElementExpr":
        return constant(self.index(given), self)

    def __iter__(self) -> Iterator["ElementExpr"]:
        return (constant(index, self) for index in range(self.number))


Object = Union["ElementExpr", int, str]


class ElementExpr(Expr):
    """An element: `==` and `!=` with another, or with an object by number or name."""

    __slots__ = ("count", "objects")

    def __init__(self, form: Form, count: int, objects: Optional[ObjectType]) -> None:
        super().__init__(form)
        self.count = count
        self.objects = objects

    def __eq__(self, other: Object) -> Condition:  # type: ignore[override]
        return comparison(0x53, "=", self, element(other, self.objects), lambda x, y: x == y)

    def __ne__(self, other: Object) -> Condition:  # type: ignore[override]
        return ~(self == other)


class ElementTerm(ElementExpr):
    """An element expression that is no variable."""

    __slots__ = ()


def constant(index: int, objects: Optional[ObjectType]) -> ElementExpr:
    """The object of this number."""
    if not 0 <= index < MOST_OBJECTS:
        raise ModelError(f"an object's number is 0 to {MOST_OBJECTS - 1}, not {index}")
    named = objects is not None and objects.objects is not None and index < objects.number
    text = objects.word(index) if named and objects is not None else f"object {index}"
    form = Form(bytes([0x30, index]), 1, text, ATOM, lambda values: index, None)
    return ElementTerm(form, index + 1, objects)


def element(given: Object, objects: Optional[ObjectType]) -> ElementExpr:
    """An element expression; an int or a name is an object, of this type where it is known."""
    if isinstance(given, ElementExpr):
        return given
    if isinstance(given, str):
        if objects is None:
            raise ModelError(f"`{given}`: names of objects are known where a type of objects is")
        return constant(objects.index(given), objects)
    if isinstance(given, bool) or not isinstance(given, int):
        raise ModelError(f"an element is due, not {given!r}")
    return constant(given, objects)


class SetExpr(Expr):
    """A set: `|`, `&`, `-` and `~` with another set; `add`, `remove`, `contains` and the rest by name."""

    __slots__ = ("count", "objects")

    def __init__(self, form: Form, count: int, objects: Optional[ObjectType]) -> None:
        super().__init__(form)
        self.count = count
        self.objects = objects

    def _like(self, form: Form) -> "SetExpr":
        return SetTerm(form, self.count, self.objects)

    def _element(self, given: Object) -> ElementExpr:
        one = element(given, self.objects)
        if one.count > self.count:
            raise ModelError(f"an element of {one.count} objects does not fit a set of {self.count}")
        return one

    def _same_count(self, other: "SetExpr") -> "SetExpr":
        if not isinstance(other, SetExpr):
            raise ModelError(f"a set is due, not {other!r}")
        if other.count != self.count:
            raise ModelError(f"a set of {other.count} objects does not fit a set of {self.count}")
        return other

    def _with_element(self, byte: int, sign: str, given: Object, compute: Callable[[int, int], int]) -> "SetExpr":
        one = self._element(given)
        e, s = one.form, self.form
        text = f"{s.within(SUM)} {sign} {e.within(PRODUCT)}"
        return self._like(formed(bytes([byte]), [one, self], text, SUM, lambda v: compute(s.value(v), 1 << e.value(v))))

    def _with_set(self, byte: int, sign: str, level: int, other: "SetExpr", compute: Callable[[int, int], int]) -> "SetExpr":
        second = self._same_count(other)
        s, t = self.form, second.form
        text = f"{s.within(level)} {sign} {t.within(level + 1)}"
        return self._like(formed(bytes([byte]), [self, second], text, level, lambda v: compute(s.value(v), t.value(v))))

    def add(self, given: Object) -> "SetExpr":
        """The set with an element."""
        return self._with_element(0x42, "+", given, lambda s, e: s | e)

    def remove(self, given: Object) -> "SetExpr":
        """The set without an element, whether it is a member or not."""
        return self._with_element(0x43, "-", given, lambda s, e: s & ~e)

    discard = remove

    def contains(self, given: Object) -> Condition:
        """Whether an element is a member."""
        one = self._element(given)
        e, s = one.form, self.form
        text = f"{e.within(UNION)} in {s.within(UNION)}"
        return Condition(formed(b"\x54", [one, self], text, COMPARISON, lambda v: s.value(v) >> e.value(v) & 1 == 1))

    def __contains__(self, given: object) -> bool:
        raise TypeError("write s.contains(e) in place of e in s")

    def union(self, other: "SetExpr") -> "SetExpr":
        return self._with_set(0x44, "|", UNION, other, lambda s, t: s | t)

    __or__ = union

    def intersection(self, other: "SetExpr") -> "SetExpr":
        return self._with_set(0x45, "&", INTERSECTION, other, lambda s, t: s & t)

    __and__ = intersection

    def difference(self, other: "SetExpr") -> "SetExpr":
        return self._with_set(0x46, "-", SUM, other, lambda s, t: s & ~t)

    __sub__ = difference

    def complement(self) -> "SetExpr":
        """The objects of the count that are no members."""
        s, full = self.form, (1 << self.count) - 1
        return self._like(formed(b"\x47", [self], f"~{s.within(ATOM)}", PREFIX, lambda v: full & ~s.value(v)))

    __invert__ = complement

    def is_empty(self) -> Condition:
        s = self.form
        return Condition(formed(b"\x55", [self], f"empty({s.text})", ATOM, lambda v: s.value(v) == 0))

    def issubset(self, other: "SetExpr") -> Condition:
        return comparison(0x56, "subset", self, self._same_count(other), lambda s, t: s & ~t == 0)

    __le__ = issubset

    def issuperset(self, other: "SetExpr") -> Condition:
        return self._same_count(other).issubset(self)

    __ge__ = issuperset

    def isdisjoint(self, other: "SetExpr") -> Condition:
        return (self & other).is_empty()

    def len(self) -> IntExpr:
        """How many members there are."""
        s = self.form
        return IntTerm(formed(b"\x29", [self], f"count({s.text})", ATOM, lambda v: bin(s.value(v)).count("1")))

    def __eq__(self, other: object) -> Condition:  # type: ignore[override]
        raise ModelError("sets have no ==: write s.issubset(t) & t.issubset(s)")

    __ne__ = __eq__  # type: ignore[assignment]


class SetTerm(SetExpr):
    """A set expression that is no variable."""

    __slots__ = ()


def members(given: Sequence[Union[int, str]], objects: ObjectType) -> int:
    """The objects as bits, each named once."""
    bits = 0
    for one in given:
        bit = 1 << objects.index(one)
        if bits & bit:
            raise ModelError(f"{one!r} is named twice")
        bits |= bit
    return bits


def set_constant(bits: int, objects: ObjectType) -> SetExpr:
    """A set of known members."""
    braces = objects.braces(bits)
    named = objects.objects is not None and bits != 0
    text = braces if named else f"{braces} of {objects.side()}"
    code = bytes([0x40, objects.number]) + bits.to_bytes(8, "little")
    return SetTerm(Form(code, 1, text, ATOM, lambda values: bits, None), objects.number, objects)


def always() -> Condition:
    """The condition that always holds, as the text form writes it."""
    bits = Form(b"\x40\x01" + bytes(8), 1, "{} of 1", ATOM, lambda values: 0, None)
    return SetTerm(bits, 1, None).is_empty()
