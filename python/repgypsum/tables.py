"""Tables of numbers: entries by elements, and sums over the rows in a set."""

from __future__ import annotations

from typing import List, Optional, Sequence, Tuple, Union

from .errors import ModelError
from .expressions import IntExpr, IntTerm, ranged
from .forms import ATOM, Form, formed
from .numbers import MOST_OBJECTS, in_range
from .objects import ElementExpr, Object, ObjectType, SetExpr, constant, element

Side = Optional[ObjectType]


class IntTable:
    """A table of the model; of a list, `columns` is 1 and the column is not written."""

    __slots__ = ("index", "name", "rows", "columns", "entries", "sides", "is_list", "model")

    def __init__(
        self,
        model: object,
        index: int,
        entries: Sequence[Union[int, Sequence[int]]],
        name: Optional[str],
        sides: Sequence[Side],
    ) -> None:
        self.model = model
        self.index = index
        self.name = name
        self.is_list = all(isinstance(row, int) for row in entries)
        rows: List[List[int]] = [[row] if isinstance(row, int) else list(row) for row in entries]
        self.rows = len(rows)
        self.columns = len(rows[0]) if rows else 0
        self.entries = rows
        self.sides: Tuple[Side, ...] = tuple(sides)
        self._check()

    def _check(self) -> None:
        if not (1 <= self.rows <= MOST_OBJECTS and 1 <= self.columns <= MOST_OBJECTS):
            raise ModelError(f"a table has 1 to {MOST_OBJECTS} rows and columns")
        for row in self.entries:
            if len(row) != self.columns:
                raise ModelError("the rows of a table are equally long")
            for entry in row:
                if isinstance(entry, bool) or not isinstance(entry, int) or not in_range(entry):
                    raise ModelError(f"{entry!r} is no entry of a table")
        lengths = (self.rows,) if self.is_list else (self.rows, self.columns)
        if len(self.sides) not in (0, len(lengths)):
            raise ModelError(f"a table of {len(lengths)} sides has as many types of objects, or none")
        for side, length in zip(self.sides, lengths):
            if side is not None and side.number != length:
                raise ModelError(f"a side of {length} does not fit {side.number} objects")

    def _side(self, place: int) -> Side:
        return self.sides[place] if self.sides else None

    def _word(self) -> str:
        return self.name if self.name is not None else f"table {self.index}"

    def _text(self, row: str, column: str) -> str:
        return f"{self._word()}[{row}]" if self.is_list else f"{self._word()}[{row}, {column}]"

    def _indices(self, given: object) -> Tuple[object, object]:
        if self.is_list:
            return given, constant(0, None)
        if not isinstance(given, tuple) or len(given) != 2:
            raise ModelError(f"{self._word()} has a row and a column")
        return given[0], given[1]

    def _column(self, given: Object) -> ElementExpr:
        column = element(given, None if self.is_list else self._side(1))
        if column.count > self.columns:
            raise ModelError(f"an index of {column.count} objects does not fit {self.columns} columns")
        return column

    def __getitem__(self, given: object) -> IntExpr:
        """The entry at an element, or at two; with a set in place of the row the sum, as `sum` gives it."""
        row, column = self._indices(given)
        if isinstance(row, SetExpr):
            return self._sum(row, column)  # type: ignore[arg-type]
        one = element(row, self._side(0))  # type: ignore[arg-type]
        if one.count > self.rows:
            raise ModelError(f"an index of {one.count} objects does not fit {self.rows} rows")
        other = self._column(column)  # type: ignore[arg-type]
        r, c, entries = one.form, other.form, self.entries
        text = self._text(r.text, c.text)
        form = formed(bytes([0x28, self.index]), [one, other], text, ATOM, lambda v: entries[r.value(v)][c.value(v)])
        return self._owned(form)

    def sum(self, rows: SetExpr, column: Object = 0) -> IntExpr:
        """The sum of the entries in a column, at the rows that are members of the set."""
        if not isinstance(rows, SetExpr):
            raise ModelError(f"a set is due, not {rows!r}")
        return self._sum(rows, constant(0, None) if self.is_list else column)

    def _sum(self, rows: SetExpr, column: Object) -> IntExpr:
        if rows.count > self.rows:
            raise ModelError(f"a set of {rows.count} objects does not fit {self.rows} rows")
        other = self._column(column)
        s, c, entries = rows.form, other.form, self.entries

        def total(values: Sequence[int]) -> int:
            inside, at = s.value(values), c.value(values)
            return ranged(sum(row[at] for index, row in enumerate(entries) if inside >> index & 1))

        text = f"sum({self._text(s.text, c.text)})"
        return self._owned(formed(bytes([0x2A, self.index]), [rows, other], text, ATOM, total))

    def _owned(self, form: Form) -> IntExpr:
        owner = form.model
        if owner is not None and owner is not self.model:
            raise ModelError("a table and its index belong to different models")
        form.model = self.model
        return IntTerm(form)

    def code(self) -> bytes:
        """The command 05 with its entries."""
        entries = (b"\x06" + entry.to_bytes(4, "little", signed=True) for row in self.entries for entry in row)
        return bytes([0x05, self.rows, self.columns]) + b"".join(entries)

    def text(self) -> str:
        """The table as a command of the text form."""
        lengths = (self.rows,) if self.is_list else (self.rows, self.columns)
        sides = [str(length) for length in lengths]
        for place, side in enumerate(self.sides):
            sides[place] = side.side() if side is not None else sides[place]
        name = "" if self.name is None else self.name
        head = f"table {name}[{', '.join(sides)}] ="
        if self.is_list:
            return f"{head} {' '.join(str(row[0]) for row in self.entries)}"
        rows = ("    " + " ".join(str(entry) for entry in row) for row in self.entries)
        return head + "\n" + " /\n".join(rows)
