"""The examples: the same bytes as the text form's, the lines that they print, and their plans."""

import subprocess
import unittest
from pathlib import Path

import repgypsum as rg
from repgypsum import program

from .examples import EXAMPLES, tour
from .surroundings import ROOT, assembled, needs_library, needs_program

FOLDER = ROOT / "examples"


class Examples(unittest.TestCase):
    def test_all_are_built(self) -> None:
        texts = sorted(path.stem for path in Path(FOLDER).glob("*.dp"))
        self.assertEqual(texts, sorted(EXAMPLES))

    def test_bytes_are_those_of_the_text(self) -> None:
        for name, build in EXAMPLES.items():
            self.assertEqual(build().to_bytes(), (FOLDER / f"{name}.model").read_bytes(), name)

    @needs_program
    def test_their_own_text_assembles_to_the_same_bytes(self) -> None:
        for name, build in EXAMPLES.items():
            model = build()
            self.assertEqual(assembled(model.to_text()), model.to_bytes(), name)

    @needs_program
    def test_the_tour_of_twenty(self) -> None:
        """Loops, constants and tables in files: the text of the repository assembles to the same bytes."""
        text = str(FOLDER / "tsptw-20" / "tour.dp")
        done = subprocess.run([program.program(), "assemble", text], capture_output=True, check=True)
        self.assertEqual(tour().to_bytes(), done.stdout)

    @needs_library
    def test_lines(self) -> None:
        for name, build in EXAMPLES.items():
            due = (FOLDER / f"{name}.out").read_text().rstrip("\n")
            self.assertEqual(build().plan().line, due, name)

    @needs_library
    def test_plans_pass_at_their_cost(self) -> None:
        for name, build in EXAMPLES.items():
            model = build()
            answer = model.plan()
            self.assertTrue(answer.is_optimal and answer.plan_given, name)
            self.assertEqual(model.check(answer.plan), rg.Checked(0, answer.cost, answer.low), name)
            self.assertEqual(model.check(answer.transitions).cost, answer.cost, name)
            last = answer.steps[-1]
            self.assertEqual((last.total, last.low_total), (answer.cost, answer.low), name)

    @needs_library
    def test_states_of_the_three_designs(self) -> None:
        answer = EXAMPLES["three-designs"]().plan()
        self.assertEqual(answer.transitions, ("load a", "load b", "load c"))
        self.assertEqual([step.cost for step in answer.steps], [2, 3, 2])
        first, last = answer.steps[0].state, answer.steps[-1].state
        self.assertEqual((first["todo"], first["at"]), (frozenset({"b", "c"}), "a"))
        self.assertEqual(str(last), "todo = {}, at = c")


if __name__ == "__main__":
    unittest.main()
