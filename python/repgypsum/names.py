"""Names as the text form takes them, so that every model can also be written as text."""

from __future__ import annotations

import re
from typing import Optional, Set

from .errors import ModelError

WORD = re.compile(r"[A-Za-z_][A-Za-z0-9_]*\Z")
DIGITS = re.compile(r"[0-9]+\Z")

RESERVED = frozenset(
    "and base bound constant constraint cost count element else empty exists for forall from high if in include largest less max "
    "min more not number object objects of or prefer set subset sum table then transition when".split()
)


class Names:
    """The names of a model: groups, objects, variables and tables never share one; transitions have names of their own."""

    def __init__(self) -> None:
        self._things: Set[str] = set()
        self._transitions: Set[str] = set()

    def thing(self, name: Optional[str]) -> None:
        """Takes the name of a group, an object, a variable or a table."""
        if name is None:
            return
        if not WORD.match(name) or name in RESERVED:
            raise ModelError(f"`{name}` is no name: a letter or _, then letters, digits and _, and no word of the text form")
        if name in self._things:
            raise ModelError(f"the name `{name}` is there already")
        self._things.add(name)

    def transition(self, name: Optional[str]) -> None:
        """Takes the name of a transition, which may have several words, and digits behind the first."""
        if name is None:
            return
        words = name.split(" ")
        good = WORD.match(words[0]) and all(WORD.match(word) or DIGITS.match(word) for word in words)
        if not good or RESERVED.intersection(words):
            raise ModelError(f"`{name}` is no name of a transition: words of letters, digits and _, with a blank between two")
        if name in self._transitions:
            raise ModelError(f"a transition `{name}` is there already")
        self._transitions.add(name)
