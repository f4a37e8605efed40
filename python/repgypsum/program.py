"""The command line program `repgypsum`, for what stands there alone: declarations and the auditor's page."""

from __future__ import annotations

import json
import os
import shutil
import subprocess
import tempfile
from pathlib import Path
from typing import Any, Dict, List, Sequence, Tuple

from .errors import MissingLibrary, ModelError

#: The environment variable that names the program.
PROGRAM = "REPGYPSUM_PROGRAM"

ANSWERED, REFUSED = 0, 1


def program() -> str:
    """The program's path."""
    named = os.environ.get(PROGRAM)
    if named:
        return named
    built = Path(__file__).resolve().parents[2] / "host" / "target" / "release" / "repgypsum"
    found = shutil.which("repgypsum") or (str(built) if built.exists() else None)
    if found is None:
        raise MissingLibrary(f"the program repgypsum is not found: `make install` puts it in its place, or name it in {PROGRAM}")
    return found


def run(command: str, options: Sequence[str], title: str, text: str) -> Tuple[int, str]:
    """Runs a command on a model as text, whose file has this name, and gives its exit status and output."""
    with tempfile.TemporaryDirectory() as folder:
        (Path(folder) / title).write_text(text, encoding="utf-8")
        line: List[str] = [program(), command, *options, "--", title]
        done = subprocess.run(line, cwd=folder, capture_output=True, text=True, check=False)
    if done.returncode not in (ANSWERED, REFUSED):
        raise ModelError(done.stderr.strip() or f"`repgypsum {command}` ended with {done.returncode}")
    return done.returncode, done.stdout


def ask(command: str, options: Sequence[str], title: str, text: str) -> Dict[str, Any]:
    """The same with --json, and its answer as docs/JSON.md has it."""
    _, output = run(command, ["--json", *options], title, text)
    answer: Dict[str, Any] = json.loads(output)
    return answer


class Declarations:
    """What is known of the bounds and preferences of a model: "true", "false" or "open" each.

    `answer` is the whole answer as docs/JSON.md has it. True rests on the independent implementation, false on a plan that
    the proved plan check passes.
    """

    def __init__(self, answer: Dict[str, Any]) -> None:
        self.answer = answer
        self.enumerated: bool = answer["enumerated"]
        self.states: int = answer["states"]
        self.bounds: List[str] = [bound["truth"] for bound in answer["bounds"]]
        preferences = answer["preferences"]
        self.preferences = None if preferences is None else preferences["truth"]

    @property
    def truths(self) -> List[str]:
        return self.bounds + ([] if self.preferences is None else [self.preferences])

    @property
    def all_true(self) -> bool:
        """Whether every declaration was found true."""
        return all(truth == "true" for truth in self.truths)

    @property
    def some_false(self) -> bool:
        """Whether a declaration was shown false."""
        return "false" in self.truths

    def __str__(self) -> str:
        lines = (f"{part['heading']}: " + " ".join(one["text"] for one in part["sentences"]) for part in self.answer["parts"])
        return "\n".join(lines)
