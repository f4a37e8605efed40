"""Expressions: their bytes, their text, their values, and what is refused."""

import random
import unittest
from typing import Callable, List, Tuple

import repgypsum as rg
from repgypsum import Model, ModelError, Transition, Trouble
from repgypsum.forms import Expr

from .surroundings import assembled, needs_library, needs_program


class Small:
    """A model with a variable and a table of each kind."""

    def __init__(self) -> None:
        self.model = Model()
        self.kind = self.model.add_object_type(objects=["a", "b", "c"], name="letter")
        self.s = self.model.add_set_var(self.kind, ["a", "c"], name="s")
        self.t = self.model.add_set_var(3, [1])
        self.e = self.model.add_element_var(self.kind, "b", name="e")
        self.x = self.model.add_int_var(7, name="x")
        self.y = self.model.add_int_var(-2)
        self.list = self.model.add_table([10, 20, 30], name="row", object_types=[self.kind])
        self.grid = self.model.add_table([[1, 2], [3, 4], [5, 6]])

    def value(self, expression: Expr) -> object:
        return expression.form.value(self.model.target_state.values)


class Forms(unittest.TestCase):
    """Every byte form: code, text and value at the target s = {a, c}, t = {b}, e = b, x = 7, y = -2."""

    def cases(self) -> List[Tuple[Expr, str, str, object]]:
        m = Small()
        s, t, e, x, y = m.s, m.t, m.e, m.x, m.y
        letters = m.model.create_set_const(m.kind, ["a", "b"])
        return [
            (x + y, "2221032104", "x + number 4", 5),
            (x - 3, "2321032003000000", "x - 3", 4),
            (3 - x, "2320030000002103", "3 - x", -4),
            (x * y, "2421032104", "x * number 4", -14),
            (x // y, "2521032104", "x / number 4", -4),
            (-x, "2320000000002103", "0 - x", -7),
            (rg.min(x, y), "2621032104", "min(x, number 4)", -2),
            (rg.max(x, y), "2721032104", "max(x, number 4)", 7),
            (m.list[e], "280031023000", "row[e]", 20),
            (m.grid[e, 1], "280131023001", "table 1[e, object 1]", 4),
            (s.len(), "294100", "count(s)", 2),
            (m.list[s], "2a0041003000", "sum(row[s])", 40),
            (m.grid.sum(s, 1), "2a0141003001", "sum(table 1[s, object 1])", 8),
            ((x < 0).if_then_else(1, y), "2b5121032000000000" + "2001000000" + "2104", "if x < 0 then 1 else number 4", -2),
            (s.add(e), "4231024100", "s + e", 0b111),
            (s.remove("a"), "4330004100", "s - a", 0b100),
            (s | t, "4441004101", "s | set 1", 0b111),
            (s & letters, "4541004003" + "0300000000000000", "s & {a, b}", 0b001),
            (s - t, "4641004101", "s - set 1", 0b101),
            (~s, "474100", "~s", 0b010),
            (x == 7, "5021032007000000", "x = 7", True),
            (x < y, "5121032104", "x < number 4", False),
            (x > y, "5121042103", "number 4 < x", True),
            (x <= y, "5221032104", "x <= number 4", False),
            (x >= y, "5221042103", "number 4 <= x", True),
            (x != y, "575021032104", "not x = number 4", True),
            (e == "b", "5331023001", "e = b", True),
            (e != 0, "575331023000", "not e = a", True),
            (s.contains(e), "5431024100", "e in s", False),
            (t.is_empty(), "554101", "empty(set 1)", False),
            (t.issubset(~s), "564101474100", "set 1 subset ~s", True),
            (s.contains(0) & t.contains(0), "58" + "5430004100" + "5430004101", "a in s and object 0 in set 1", False),
            (s.contains(0) | t.contains(0), "59" + "5430004100" + "5430004101", "a in s or object 0 in set 1", True),
            (rg.forall([]), "5540010000000000000000", "empty({} of 1)", True),
            (rg.exists([]), "575540010000000000000000", "not empty({} of 1)", False),
        ]

    def test_code_text_and_value(self) -> None:
        for expression, code, text, value in self.cases():
            self.assertEqual(expression.form.code.hex(), code, text)
            self.assertEqual(str(expression), text)
            m = Small()
            self.assertEqual(m.value(expression), value, text)

    def test_all_forms_are_there(self) -> None:
        heads = {expression.form.code[0] for expression, _, _, _ in self.cases()}
        forms = set(range(0x22, 0x2C)) | set(range(0x42, 0x48)) | set(range(0x50, 0x5A))
        self.assertEqual(heads, forms)

    def test_sides_stay_in_order(self) -> None:
        """A variable on the right is not moved to the left, as Python does with subclasses."""
        m = Small()
        self.assertEqual(str(m.x + 1 == m.y), "x + 1 = number 4")
        self.assertEqual(str(m.list[m.e] == m.x), "row[e] = x")
        self.assertEqual(str(m.kind["a"] == m.e), "a = e")
        self.assertEqual(str(5 < m.x), "5 < x")


class Balanced(unittest.TestCase):
    def test_split_at_half(self) -> None:
        m = Small()
        self.assertEqual(str(rg.sum([m.x, 1, 2, 3, 4])), "x + 1 + (2 + (3 + 4))")
        self.assertEqual(str(rg.max(m.x, 1, 2)), "max(x, max(1, 2))")
        self.assertEqual(str(rg.sum([])), "0")
        self.assertEqual(str(rg.sum([m.x])), "x")
        self.assertEqual(rg.sum([m.x] * 200).form.nesting, 9)
        with self.assertRaises(ModelError):
            rg.max()


class Trees(unittest.TestCase):
    """Random trees: what they are written as assembles to their bytes, and the search sees the value that Python has."""

    def number(self, m: Small, chance: random.Random, depth: int) -> rg.IntExpr:
        if depth == 0:
            return chance.choice([m.x, m.y, m.list[m.e], m.s.len(), rg.sum([chance.randint(-9, 9)])])
        pick = lambda: self.number(m, chance, chance.randrange(depth))
        joins: List[Callable[[], rg.IntExpr]] = [
            lambda: pick() + pick(),
            lambda: pick() - pick(),
            lambda: pick() * pick(),
            lambda: pick() // (rg.max(pick(), 1)),
            lambda: rg.min(pick(), pick()),
            lambda: self.condition(m, chance, depth - 1).if_then_else(pick(), pick()),
            lambda: m.grid.sum(self.set(m, chance, depth - 1), chance.randrange(2)),
        ]
        return chance.choice(joins)()

    def set(self, m: Small, chance: random.Random, depth: int) -> rg.SetExpr:
        if depth == 0:
            return chance.choice([m.s, m.t, m.model.create_set_const(3, chance.sample(range(3), 2))])
        pick = lambda: self.set(m, chance, chance.randrange(depth))
        joins: List[Callable[[], rg.SetExpr]] = [
            lambda: pick().add(m.e),
            lambda: pick().remove(chance.randrange(3)),
            lambda: pick() | pick(),
            lambda: pick() & pick(),
            lambda: pick() - pick(),
            lambda: ~pick(),
        ]
        return chance.choice(joins)()

    def condition(self, m: Small, chance: random.Random, depth: int) -> rg.Condition:
        if depth == 0:
            return chance.choice([m.e == 1, m.s.contains(m.e), m.t.is_empty(), m.x < m.y])
        pick = lambda: self.condition(m, chance, chance.randrange(depth))
        joins: List[Callable[[], rg.Condition]] = [
            lambda: pick() & pick(),
            lambda: pick() | pick(),
            lambda: ~pick(),
            lambda: self.number(m, chance, depth - 1) <= self.number(m, chance, depth - 1),
            lambda: self.set(m, chance, depth - 1).issubset(self.set(m, chance, depth - 1)),
        ]
        return chance.choice(joins)()

    def models(self, count: int) -> List[Tuple[Model, object]]:
        """Models of one step, whose cost is a tree made positive, and the cost that Python finds."""
        chance = random.Random(7)
        found = []
        for _ in range(count):
            m = Small()
            tree = self.number(m, chance, 5)
            try:
                value = m.value(rg.max(0, tree))
            except Trouble as trouble:
                value = trouble
            done = m.model.add_int_var(0)
            m.model.add_transition(Transition("go", rg.max(0, tree), [done == 0], [(done, 1)]))
            m.model.add_base_case([done == 1])
            found.append((m.model, value))
        return found

    @needs_program
    def test_text(self) -> None:
        for model, _ in self.models(60):
            self.assertEqual(assembled(model.to_text()), model.to_bytes(), model.to_text())

    @needs_library
    def test_values(self) -> None:
        for model, value in self.models(400):
            answer = model.check([0])
            due = (value.number, 0) if isinstance(value, Trouble) else (0, value)
            self.assertEqual((answer.number, answer.cost), due, model.to_text())


class Refusals(unittest.TestCase):
    def refused(self, words: str, build: Callable[[], object]) -> None:
        with self.assertRaises(ModelError) as caught:
            build()
        self.assertIn(words, str(caught.exception))

    def test_kinds_and_counts(self) -> None:
        m = Small()
        self.refused("does not fit a set", lambda: m.s.contains(3))
        self.refused("does not fit a set", lambda: m.s | m.model.create_set_const(4, []))
        self.refused("does not fit 3 rows", lambda: m.list[5])
        self.refused("does not fit 2 columns", lambda: m.grid[0, m.e])
        self.refused("a row and a column", lambda: m.grid[m.e])
        self.refused("a number is due", lambda: m.x + m.e)  # type: ignore[operator]
        self.refused("a number is due", lambda: m.x + True)
        self.refused("out of the range", lambda: m.x + 2**31)
        self.refused("is no object of letter", lambda: m.s.add("z"))
        self.refused("sets have no ==", lambda: m.s == m.t)
        self.refused("named twice", lambda: m.model.create_set_const(m.kind, ["a", 0]))
        self.refused("does not fit e", lambda: Transition(effects=[(m.e, 3)]))
        self.refused("second effect", lambda: Transition(effects=[(m.x, 3), (m.x, 4)]))
        self.refused("is a set of 3 objects", lambda: Transition(effects=[(m.s, 3)]))

    def test_truth_values(self) -> None:
        m = Small()
        for wrong in [lambda: bool(m.x < 3), lambda: 1 in m.s, lambda: 0 < m.x < 3, lambda: not m.s.is_empty()]:
            with self.assertRaises(TypeError):
                wrong()

    def test_models_apart(self) -> None:
        one, other = Small(), Small()
        self.refused("different models", lambda: one.x + other.x)
        self.refused("different models", lambda: one.list[other.e])
        self.refused("another model", lambda: one.model.add_state_constr(other.x < 3))

    def test_names(self) -> None:
        m = Small()
        self.refused("is no name", lambda: m.model.add_int_var(0, name="two words"))
        self.refused("is no name", lambda: m.model.add_int_var(0, name="sum"))
        self.refused("is there already", lambda: m.model.add_int_var(0, name="letter"))
        m.model.add_transition(Transition("go 1"))
        self.refused("is there already", lambda: m.model.add_transition(Transition("go 1")))
        self.refused("no name of a transition", lambda: m.model.add_transition(Transition("1 go")))
        self.refused("file's name", lambda: Model(name="a/b"))

    def test_limits(self) -> None:
        m = Small()
        deep = m.x
        for _ in range(31):
            deep = deep + 1
        m.model.add_dual_bound(deep)
        self.refused("nested 33 deep", lambda: m.model.add_dual_bound(deep + 1))
        for _ in range(11):
            m.model.add_int_var(0)
        self.refused("at most 16 variables", lambda: m.model.add_int_var(0))
        self.refused("at most 16 conditions", lambda: m.model.add_base_case([m.x < 3] * 17))
        self.refused("1 to 64", lambda: m.model.add_object_type(65))
        self.refused("equally long", lambda: m.model.add_table([[1, 2], [3]]))
        self.refused("no entry", lambda: m.model.add_table([2**31]))
        long = Model()
        x = long.add_int_var(0)
        for _ in range(256):
            long.add_transition(Transition(cost=rg.sum([x] * 60)))
        self.refused("at most 256 transitions", lambda: long.add_transition(Transition()))
        for _ in range(8):
            long.add_dual_bound(rg.sum([x] * 1000))
        self.refused("bytes", long.to_bytes)


if __name__ == "__main__":
    unittest.main()
