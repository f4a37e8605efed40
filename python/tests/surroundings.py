"""What the tests stand on: the repository, the shared library and the program, if they are there."""

from __future__ import annotations

import subprocess
import unittest
from pathlib import Path
from typing import Callable, TypeVar

from repgypsum import MissingLibrary, library, program

ROOT = Path(__file__).resolve().parents[2]

Test = TypeVar("Test", bound=Callable[..., None])


def _there(find: Callable[[], object]) -> bool:
    try:
        find()
    except MissingLibrary:
        return False
    return True


def needs_library(test: Test) -> Test:
    return unittest.skipUnless(_there(library.library), "librepgypsum.so is not found")(test)


def needs_program(test: Test) -> Test:
    return unittest.skipUnless(_there(program.program), "the program repgypsum is not found")(test)


def assembled(text: str) -> bytes:
    """The bytes that the text form's assembler makes of a text."""
    done = subprocess.run([program.program(), "assemble"], input=text.encode(), capture_output=True, check=False)
    if done.returncode != 0:
        raise AssertionError(done.stderr.decode() + text)
    return done.stdout
