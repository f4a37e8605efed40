"""What is asked of the command line: declarations, the auditor's page; and the states that it and Python see."""

import tempfile
import unittest
from pathlib import Path

import repgypsum as rg
from repgypsum import program

from .examples import EXAMPLES, three_designs
from .surroundings import needs_library, needs_program


@needs_program
class Program(unittest.TestCase):
    def test_declarations(self) -> None:
        for name, build in EXAMPLES.items():
            found = build().declarations()
            self.assertTrue(found.enumerated and found.all_true and not found.some_false, name)
        model = three_designs()
        model.add_dual_bound(model.variables[0].len() * 2)
        model.add_dual_bound(8)
        found = model.declarations()
        self.assertEqual((found.bounds, found.preferences, found.some_false), (["true", "false"], None, True))
        self.assertIn("Bound 1, 8: False: at the target", str(found))
        example = found.answer["bounds"][1]["counterexample"]
        self.assertEqual((example["value"], example["cost"], example["confirmed"]), (8, 7, True))
        few = EXAMPLES["tsptw"]().declarations(states=3, walks=2, seed=5)
        self.assertEqual((few.enumerated, few.preferences), (False, "open"))

    @needs_library
    def test_states_are_those_of_the_program(self) -> None:
        """Every step's cost and state, by Python and by the independent implementation."""
        for name, build in EXAMPLES.items():
            model = build()
            steps = model.plan().steps
            said = program.ask("explain", [], "model.dp", model.to_text())
            self.assertEqual(len(said["steps"]), len(steps))
            for step, other in zip(steps, said["steps"]):
                due = tuple(other[name] for name in ["name", "cost", "total", "low", "low_total"])
                self.assertEqual((step.name, step.cost, step.total, step.low, step.low_total), due)
                values = [frozenset(one) if isinstance(one, list) else one for one in (v["value"] for v in other["state"])]
                self.assertEqual(list(step.state), values, name)

    def test_page(self) -> None:
        with tempfile.TemporaryDirectory() as folder:
            out = Path(folder) / "page.html"
            model = EXAMPLES["tsptw"]()
            said = model.page(out, lane=model.variables[1], clock="time")
            self.assertTrue(said.endswith(f"stands in {out}.\n"))
            page = out.read_text(encoding="utf-8")
            for words in ["tsptw.dp: cheapest", "A lane is a value of at.", "visit p2", "repgypsum verify tsptw.quote"]:
                self.assertIn(words, page)
            model = three_designs()
            self.assertIn("length limit 3, which the loading profile chooses", model.page(out, loading=True))
            self.assertIn("--loading", out.read_text(encoding="utf-8"))
            with self.assertRaises(ValueError):
                model.page(out, loading=True, length=3)
            self.assertIn("Widths 1, 200, length limit 64", model.page(out, widths=[1, 200]))
            self.assertIn("--widths 1,200", out.read_text(encoding="utf-8"))
            with self.assertRaises(ValueError):
                model.page(out, widths=[1, 200], width=2)
            model = EXAMPLES["tsptw"]()
            with self.assertRaisesRegex(rg.ModelError, "`todo` is no number"):
                model.page(out, clock="todo")
            out.write_text("something else")
            with self.assertRaisesRegex(rg.ModelError, "is no page"):
                model.page(out)
            self.assertEqual(out.read_text(), "something else")


class Missing(unittest.TestCase):
    def test_a_missing_program_is_told(self) -> None:
        import os
        from unittest import mock

        with mock.patch.dict(os.environ, {program.PROGRAM: "", "PATH": "/nowhere"}):
            with mock.patch.object(Path, "exists", return_value=False):
                with self.assertRaisesRegex(rg.MissingLibrary, "is not found"):
                    three_designs().declarations()


if __name__ == "__main__":
    unittest.main()
