"""The families of models: the same bytes as those of host/src/families, which the host's tests write to a folder."""

import os
import unittest
from pathlib import Path
from typing import Iterator, Tuple

from repgypsum import Model

from .families import FAMILIES
from .surroundings import assembled, needs_library, needs_program

#: The folder with the models due, each in a file FAMILY-SIZE-SEED.model.
FOLDER = "REPGYPSUM_FAMILIES"


def due() -> Iterator[Tuple[Path, Model]]:
    """Each file with the model that is built for it here."""
    for path in sorted(Path(os.environ[FOLDER]).glob("*.model")):
        family, size, seed = path.stem.rsplit("-", 2)
        yield path, FAMILIES[family](int(size), int(seed))


@unittest.skipUnless(FOLDER in os.environ, f"{FOLDER} does not name the folder of the families' models")
class Families(unittest.TestCase):
    def test_all_families_are_built(self) -> None:
        names = {path.stem.rsplit("-", 2)[0] for path, _ in due()}
        self.assertEqual(names, set(FAMILIES))

    def test_bytes_are_those_of_the_host(self) -> None:
        for path, model in due():
            self.assertEqual(model.to_bytes(), path.read_bytes(), path.stem)


class Plans(unittest.TestCase):
    @needs_library
    def test_plans_are_followed_to_their_cost(self) -> None:
        """Costs and states by Python: the last total is the answer's, and the last state is base."""
        for name, build in FAMILIES.items():
            for seed in range(4):
                model = build(7, seed)
                answer = model.plan(width=256)
                if not answer.plan_given:
                    continue
                last = answer.steps[-1]
                self.assertEqual(last.total, answer.cost, name)
                base = [all(one.form.value(last.state.values) for one in case) for case in model.base_cases]
                self.assertTrue(any(base), name)
                self.assertTrue(all(one.form.value(last.state.values) for one in model.state_constrs), name)
                self.assertEqual(model.check(answer.plan).cost, answer.cost, name)


class Texts(unittest.TestCase):
    @needs_program
    def test_their_text_assembles_to_the_same_bytes(self) -> None:
        for name, build in FAMILIES.items():
            for size in [3, 12]:
                model = build(size, 5)
                self.assertEqual(assembled(model.to_text()), model.to_bytes(), f"{name} of {size}")


if __name__ == "__main__":
    unittest.main()
