"""docs/PYTHON.md: what stands in its boxes runs, and prints what stands below it."""

import contextlib
import io
import os
import tempfile
import unittest
from typing import Dict, List, Tuple

from .surroundings import ROOT, needs_library, needs_program


def boxes(page: str) -> List[Tuple[str, str]]:
    """The boxes of a page: their kind and their lines."""
    parts = page.split("```")[1::2]
    return [(part.split("\n", 1)[0], part.split("\n", 1)[1]) for part in parts]


class Page(unittest.TestCase):
    @needs_library
    @needs_program
    def test_boxes_print_what_they_show(self) -> None:
        found = boxes((ROOT / "docs" / "PYTHON.md").read_text(encoding="utf-8"))
        names: Dict[str, object] = {}
        pasted = 0
        before = os.getcwd()
        with tempfile.TemporaryDirectory() as folder:
            os.chdir(folder)
            try:
                for place, (kind, lines) in enumerate(found):
                    if kind != "python":
                        continue
                    printed = io.StringIO()
                    with contextlib.redirect_stdout(printed):
                        exec(lines, names)  # noqa: S102 - the page's own lines
                    self.assertEqual(found[place + 1], ("text", printed.getvalue()))
                    pasted += 1
                self.assertTrue(os.path.exists("designs.html"))
            finally:
                os.chdir(before)
        self.assertEqual(pasted, 3)

    def test_names_of_the_page_are_there(self) -> None:
        """What the table of didppy's names calls the same is in the package."""
        import repgypsum as rg

        page = (ROOT / "docs" / "PYTHON.md").read_text(encoding="utf-8")
        for name in rg.Model.__dict__:
            if name.startswith("add_"):
                self.assertIn(f"`{name}", page, name)
        rows = [line for line in page.splitlines() if line.startswith("| `add_") and "| the same" in line]
        self.assertGreaterEqual(len(rows), 6)
        for row in rows:
            for word in row.split("|")[1].split(","):
                name = word.strip(" `").split("(")[0]
                if name.startswith("add_"):
                    self.assertTrue(hasattr(rg.Model, name), name)


if __name__ == "__main__":
    unittest.main()
