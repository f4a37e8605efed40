"""Answers: every verdict and refusal with its name, plans by number, name and transition, and the states along them."""

import json
import subprocess
import threading
import unittest
from typing import Any, Callable, Dict, List, Tuple

import repgypsum as rg
from repgypsum import Model, Transition, library, program, states

from .examples import EXAMPLES, three_designs
from .surroundings import needs_library, needs_program


def stepping(bound: int = 0, cost: int = 1) -> Model:
    """From 0 to 3 by ones, at a cost each, with a bound."""
    model = Model()
    x = model.add_int_var(0, name="x")
    model.add_transition(Transition("one", cost=x * 0 + cost, preconditions=[x < 3], effects=[(x, x + 1)]))
    model.add_base_case([x == 3])
    model.add_dual_bound(bound)
    return model


def counting(low: Callable[[Any], Any], high: Callable[[Any], Any], rule: str = "sum") -> Model:
    """From 0 to 3 by ones, at a range of costs each."""
    model = Model(rule)
    x = model.add_int_var(0, name="x")
    model.add_transition(Transition("one", cost=low(x), high=high(x), effects=[(x, x + 1)]))
    model.add_base_case([x == 3])
    return model


def answers() -> List[Tuple[Model, Dict[str, int]]]:
    """Runs with every verdict, and with refusals."""
    designs = three_designs()
    blocked = stepping()
    blocked.add_state_constr(blocked.variables[0] < 3)
    divided = Model()
    x = divided.add_int_var(0)
    divided.add_transition(Transition(cost=1 // x, effects=[(x, x + 1)]))
    return [
        (designs, {}),
        (blocked, {}),
        (designs, {"width": 1}),
        (stepping(), {"length": 2}),
        (stepping(), {"budget": 0}),
        (stepping(bound=9), {}),
        (designs, {"width": 3}),
        (designs, {"length": 0}),
        (stepping(cost=-1), {}),
        (divided, {}),
        (counting(lambda x: 2, lambda x: 5), {}),
        (counting(lambda x: x, lambda x: 1), {}),
    ]


@needs_library
class Answers(unittest.TestCase):
    def test_verdicts_and_refusals(self) -> None:
        found = [(answer.refused, answer.number) for answer in (model.plan(**given) for model, given in answers())]
        verdicts = [(False, number) for number in range(6)]
        self.assertEqual(found, verdicts + [(True, 2), (True, 2), (True, 13), (True, 12), (False, 0), (True, 17)])

    @needs_program
    def test_names_and_fields_are_those_of_the_program(self) -> None:
        for model, given in answers():
            answer = model.plan(**given)
            options = [f"--{name}={value}" for name, value in given.items()]
            line = [program.program(), "plan", "--json", *options]
            said = json.loads(subprocess.run(line, input=model.to_bytes(), capture_output=True, check=False).stdout)
            for name in ["refused", "number", "name", "cost", "bound", "length", "expansions", "rounds", "width", "low"]:
                self.assertEqual(getattr(answer, name), said["answer"][name], name)
            self.assertEqual(answer.plan_given, said["answer"]["plan"])
            self.assertEqual(answer.line, said["line"])
            self.assertEqual(list(answer.plan), [step["number"] for step in said["steps"]])

    def test_loading_profile(self) -> None:
        """The length is chosen; the answer is that of the plain search with it."""
        designs = three_designs()
        self.assertEqual(designs.plan(loading=True), designs.plan(length=3))
        self.assertEqual(designs.plan(loading=True).line, "0 1 7 7 3 14 3 4 7 : 0 1 2")
        self.assertEqual(designs.plan(loading=True, width=1), designs.plan(width=1, length=3))
        inside = {"loading-order", "open-stacks", "reload-hours", "sop", "three-designs"}
        for name, build in EXAMPLES.items():
            answer = build().plan(loading=True)
            if name in inside:
                self.assertEqual(answer.line, build().plan().line, name)
            else:
                self.assertEqual((answer.refused, answer.number), (True, 15), name)
                self.assertEqual(str(answer), "refused 15, outside the loading profile")
        self.assertEqual(designs.plan(loading=True, width=3).number, 2)
        with self.assertRaises(ValueError):
            designs.plan(loading=True, length=3)
        damaged = designs.to_bytes() + b"\x00"
        self.assertEqual(library.load(damaged, 16, 100).number, 9)
        self.assertEqual(library.load(bytes(65_537), 16, 100).number, 1)

    def test_widths(self) -> None:
        """The rounds have the widths of the list; the built-in ones as a list give the same answer as the widest beam."""
        designs = three_designs()
        for widths, more, line in [
            ([1, 200], {}, "0 1 7 7 3 9 2 200 7 : 0 1 2"),
            ([3], {}, "0 1 7 7 3 13 2 3 7 : 0 1 2"),
            ((200,), {}, "0 1 7 7 3 10 1 200 7 : 0 1 2"),
            ([2], {}, "2 1 7 0 3 10 2 2 7 : 0 1 2"),
            ([1, 2, 4], {"length": 2}, "2 0 0 2 0 9 3 4 0 :"),
            ([1, 200], {"length": 2}, "3 0 0 5 0 6 2 200 0 :"),
            ([1, 200], {"loading": True}, "0 1 7 7 3 9 2 200 7 : 0 1 2"),
        ]:
            self.assertEqual(designs.plan(widths=widths, **more).line, line)
        for build in EXAMPLES.values():
            self.assertEqual(build().plan(widths=[1, 2, 4, 8, 16]), build().plan(width=16))
            self.assertEqual(build().plan(widths=[1, 2], loading=True), build().plan(width=2, loading=True))
        for wrong in [[], [0], [1, 0], [2, 2], [200, 1], [4097], [65_535], list(range(1, 18))]:
            for loading in [False, True]:
                answer = designs.plan(widths=wrong, loading=loading)
                self.assertEqual((answer.refused, answer.number), (True, 16), wrong)
                self.assertEqual(str(answer), "refused 16, bad widths")
        self.assertEqual(designs.plan(widths=[], length=0).number, 2)
        self.assertEqual(designs.plan(widths=list(range(1, 17))).number, 0)
        damaged = designs.to_bytes() + b"\x00"
        self.assertEqual(library.search_widths(damaged, [1, 200], 64, 100).number, 9)
        self.assertEqual(library.load_widths(damaged, [1, 200], 100).number, 9)
        self.assertEqual(library.search_widths(bytes(65_537), [], 0, 100).number, 1)
        with self.assertRaises(ValueError):
            designs.plan(widths=[1, 2], width=2)
        for no_number in [-1, 2**16, 1.5, True]:
            with self.assertRaises(ValueError):
                designs.plan(widths=[1, no_number])  # type: ignore[list-item]

    def test_ranges(self) -> None:
        """The cost at high figures and beside it that at low ones; a high cost below the low one is refused."""
        model = counting(lambda x: 2, lambda x: 5)
        due = "01 00 04 00 00000000 07 09 20 02000000 10 20 05000000 0A 00 22 21 00 20 01000000 0B 08 50 21 00 20 03000000 0E"
        self.assertEqual(model.to_bytes(), bytes.fromhex(due))
        answer = model.plan()
        self.assertEqual(answer.line, "0 1 15 15 3 3 1 1 6 : 0 0 0")
        self.assertEqual(str(answer), "cheapest, cost 15, low 6, bound 15: one, one, one")
        costs = [(step.low, step.cost, step.low_total, step.total) for step in answer.steps]
        self.assertEqual(costs, [(2, 5, 2, 5), (2, 5, 4, 10), (2, 5, 6, 15)])
        self.assertEqual(model.check([0, 0, 0]), rg.Checked(0, 15, 6))
        self.assertEqual(model.check([0, 0]), rg.Checked(14, 0, 0))
        largest = counting(lambda x: 4 - x, lambda x: 5 + x, "largest")
        self.assertEqual(largest.plan().line, "0 1 7 7 3 3 1 1 4 : 0 0 0")
        below = counting(lambda x: x, lambda x: 1)
        refused = below.plan()
        self.assertEqual(str(refused), "refused 17, high cost below low cost")
        fields = (refused.cost, refused.low, refused.bound, refused.length, refused.expansions, refused.plan)
        self.assertEqual(fields, (2, 1, 2, 2, 3, bytes([0, 0])))
        self.assertEqual([below.check([0] * n).number for n in (3, 2)], [17, 14])
        self.assertEqual(counting(lambda x: -1, lambda x: 1 // (x * 0)).plan().number, 13)
        self.assertEqual(counting(lambda x: 1, lambda x: 2**31 - 1 + (x * 0 + 1)).plan().number, 11)
        with self.assertRaises(rg.ModelError):
            Model().add_int_var(0, name="high")
        with self.assertRaises(rg.Trouble) as trouble:
            states.costs(below.transitions[0], rg.State(below.variables, [2]))
        self.assertEqual(trouble.exception.number, 17)

    def test_settings_that_are_no_numbers(self) -> None:
        for wrong in [-1, 2**32, 1.5, True]:
            with self.assertRaises(ValueError):
                three_designs().plan(width=wrong)  # type: ignore[arg-type]

    def test_what_an_answer_shows(self) -> None:
        answer = three_designs().plan()
        self.assertEqual(str(answer), "cheapest, cost 7, bound 7: load a, load b, load c")
        self.assertTrue(answer.is_optimal)
        self.assertFalse(answer.is_infeasible)
        self.assertEqual((answer.best_bound, answer.expanded), (7, 14))
        stopped = stepping().plan(budget=0)
        self.assertEqual(str(stopped), "budget spent, no plan is given, bound 0")
        self.assertEqual(str(three_designs().plan(width=3)), "refused 2, setting out of range")
        refused = stepping(cost=-1).plan()
        self.assertEqual((refused.steps, refused.plan), ((), b""))

    def test_plans_in_every_form(self) -> None:
        model = three_designs()
        a, b, c = model.transitions
        for plan in [[0, 1, 2], ["load a", "load b", "load c"], [a, b, c], bytes([0, 1, 2]), [a, 1, "load c"]]:
            self.assertEqual(model.check(plan), rg.Checked(0, 7, 7))
        wrong = model.check([0, 1])
        self.assertEqual((wrong.is_plan, wrong.number, wrong.cost, wrong.low, wrong.name), (False, 14, 0, 0, "not a plan"))
        self.assertFalse(model.check([9]))
        self.assertEqual(model.check([0] * 257).number, 2)
        for step in ["load z", 256, -1, three_designs().transitions[0], Transition("x")]:
            with self.assertRaises(rg.ModelError):
                model.check([step])

    def test_states(self) -> None:
        model = three_designs()
        state = model.target_state
        self.assertEqual(state[model.variables[0]], frozenset("abc"))
        self.assertEqual(str(state), "todo = {a, b, c}, at = none")
        state = model.after("load b", state)
        self.assertEqual((state["todo"], state["at"]), (frozenset("ac"), "b"))
        self.assertEqual(state, model.after(1, model.target_state))
        with self.assertRaises(KeyError):
            state["nothing"]

    def test_threads(self) -> None:
        """Calls at the same time give what each gives alone."""
        due = {name: build().plan().line for name, build in EXAMPLES.items()}
        found: List[Tuple[str, str]] = []

        def plan(name: str) -> None:
            found.append((name, EXAMPLES[name]().plan().line))

        threads = [threading.Thread(target=plan, args=(name,)) for name in list(EXAMPLES) * 5]
        for one in threads:
            one.start()
        for one in threads:
            one.join()
        self.assertEqual(len(found), 5 * len(EXAMPLES))
        self.assertTrue(all(due[name] == line for name, line in found))

    def test_damaged_bytes_are_refused(self) -> None:
        model = three_designs().to_bytes()
        self.assertEqual(library.search(model[:-1], 16, 64, 100).number, 4)
        self.assertEqual(library.search(b"", 16, 64, 100).number, 4)
        self.assertEqual(library.check(model + b"\x00", b"\x00")[0], 9)
        self.assertEqual(library.search(bytes(65_537), 16, 64, 100).number, 1)


if __name__ == "__main__":
    unittest.main()
