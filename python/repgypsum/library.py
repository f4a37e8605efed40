"""The proved library, by ctypes on librepgypsum.so."""

from __future__ import annotations

import ctypes
import ctypes.util
import os
from dataclasses import dataclass
from pathlib import Path
from typing import Any, Callable, List, Optional, Sequence, Tuple

from .errors import MissingLibrary
from .numbers import MOST_OBJECTS, MOST_STEPS, MOST_WIDTH, MOST_WIDTHS, words_needed

#: The environment variable that names the shared library.
LIBRARY = "REPGYPSUM_LIBRARY"

_NAME = "librepgypsum.so"


class Fields(ctypes.Structure):
    """`struct repgypsum_answer` of the header."""

    _fields_ = [
        ("refused", ctypes.c_uint32),
        ("verdict", ctypes.c_uint32),
        ("flag", ctypes.c_uint64),
        ("cost", ctypes.c_uint64),
        ("bound", ctypes.c_uint64),
        ("length", ctypes.c_uint64),
        ("expansions", ctypes.c_uint64),
        ("rounds", ctypes.c_uint64),
        ("width", ctypes.c_uint64),
        ("low", ctypes.c_uint64),
    ]


@dataclass(frozen=True)
class Found:
    """What a search returns, its fields as docs/FORMAT.md has them ("Answer"), and the steps at the front of the plan buffer."""

    refused: bool
    number: int
    plan_given: bool
    cost: int
    bound: int
    length: int
    expansions: int
    rounds: int
    width: int
    low: int
    plan: bytes


def places() -> List[str]:
    """Where the library is looked for, in this order."""
    named = os.environ.get(LIBRARY)
    if named:
        return [named]
    root = Path(__file__).resolve().parent
    beside = [root / _NAME, root.parents[1] / "target" / "shared" / _NAME]
    found = [str(path) for path in beside if path.exists()]
    system = ctypes.util.find_library("repgypsum")
    return found + [system or _NAME]


_loaded: Optional[ctypes.CDLL] = None


def library() -> ctypes.CDLL:
    """The library, loaded once."""
    global _loaded
    if _loaded is not None:
        return _loaded
    last: Optional[OSError] = None
    for place in places():
        try:
            _loaded = _typed(ctypes.CDLL(place))
            return _loaded
        except OSError as error:
            last = error
    raise MissingLibrary(f"{_NAME} is not found: `make install` puts it in its place, or name it in {LIBRARY} ({last})")


def _typed(found: ctypes.CDLL) -> ctypes.CDLL:
    byte, word, size = ctypes.c_char_p, ctypes.c_void_p, ctypes.c_size_t
    number = ctypes.c_uint32
    found.repgypsum_search.argtypes = [byte, size, number, number, number, word, size, word, size]
    found.repgypsum_search.restype = Fields
    found.repgypsum_load.argtypes = [byte, size, number, number, word, size, word, size]
    found.repgypsum_load.restype = Fields
    found.repgypsum_search_widths.argtypes = [byte, size, word, size, number, number, word, size, word, size]
    found.repgypsum_search_widths.restype = Fields
    found.repgypsum_load_widths.argtypes = [byte, size, word, size, number, word, size, word, size]
    found.repgypsum_load_widths.restype = Fields
    found.repgypsum_check_answer.argtypes = [byte, size, byte, size]
    found.repgypsum_check_answer.restype = ctypes.c_uint8
    found.repgypsum_check_cost.argtypes = [byte, size, byte, size]
    found.repgypsum_check_cost.restype = ctypes.c_uint64
    found.repgypsum_check_low.argtypes = [byte, size, byte, size]
    found.repgypsum_check_low.restype = ctypes.c_uint64
    return found


def fits(width: int, length: int) -> bool:
    """Whether a search can have these settings."""
    return _width_fits(width) and 1 <= length <= MOST_STEPS


def _width_fits(width: int) -> bool:
    return 1 <= width <= MOST_WIDTH and width & (width - 1) == 0


def rising(widths: Sequence[int]) -> bool:
    """Whether a search can have this list of widths."""
    rises = all(before < after for before, after in zip(widths, widths[1:]))
    return 1 <= len(widths) <= MOST_WIDTHS and 1 <= widths[0] and widths[-1] <= MOST_WIDTH and rises


def _setting(name: str, value: int, bits: int = 32) -> int:
    if isinstance(value, bool) or not isinstance(value, int) or not 0 <= value < 2**bits:
        raise ValueError(f"{name} is a whole number from 0 to {2**bits - 1}, not {value!r}")
    return value


def search(model: bytes, width: int, length: int, budget: int) -> Found:
    """The proved search, with buffers of the sizes due; settings that it refuses are lent nothing."""
    width, length = _setting("width", width), _setting("length", length)
    settings = (width, length, _setting("budget", budget))
    return _found(library().repgypsum_search, model, settings, _lent(width, length, fits(width, length)))


def load(model: bytes, width: int, budget: int) -> Found:
    """The proved search in the loading profile, which chooses the length; what the longest one needs is lent."""
    width = _setting("width", width)
    lent = _lent(width, MOST_OBJECTS, _width_fits(width))
    return _found(library().repgypsum_load, model, (width, _setting("budget", budget)), lent)


def search_widths(model: bytes, widths: Sequence[int], length: int, budget: int) -> Found:
    """The proved search with a list of widths in the place of the widest beam, which is its last entry."""
    listed, length = _listed(widths), _setting("length", length)
    settings = (_array(listed), len(listed), length, _setting("budget", budget))
    fit = rising(listed) and 1 <= length <= MOST_STEPS
    return _found(library().repgypsum_search_widths, model, settings, _lent(listed[-1] if fit else 0, length, fit))


def load_widths(model: bytes, widths: Sequence[int], budget: int) -> Found:
    """The same in the loading profile."""
    listed = _listed(widths)
    settings = (_array(listed), len(listed), _setting("budget", budget))
    fit = rising(listed)
    lent = _lent(listed[-1] if fit else 0, MOST_OBJECTS, fit)
    return _found(library().repgypsum_load_widths, model, settings, lent)


def _listed(widths: Sequence[int]) -> List[int]:
    return [_setting("a width", width, 16) for width in widths]


def _array(widths: List[int]) -> Any:
    return (ctypes.c_uint16 * len(widths))(*widths)


def _lent(width: int, length: int, fit: bool) -> Tuple[int, int]:
    """The plan bytes and words due at this width and length; none at settings that are refused."""
    return (length, words_needed(width, length)) if fit else (0, 0)


def _found(call: Callable[..., Fields], model: bytes, settings: Tuple[Any, ...], lent: Tuple[int, int]) -> Found:
    """What a search gives, with buffers of these sizes."""
    plan = (ctypes.c_uint8 * lent[0])()
    words = (ctypes.c_uint64 * lent[1])()
    got = call(model, len(model), *settings, plan, lent[0], words, lent[1])
    same = ("cost", "bound", "length", "expansions", "rounds", "width", "low")
    fields = {name: getattr(got, name) for name in same}
    steps = bytes(plan[: got.length])
    return Found(refused=got.refused == 1, number=got.verdict, plan_given=got.flag == 1, plan=steps, **fields)


def check(model: bytes, plan: bytes) -> Tuple[int, int, int]:
    """The proved plan check: 0 exactly for a plan, else the refusal's number; the plan's cost at high figures and at low ones, else 0."""
    found = library()
    given = (model, len(model), plan, len(plan))
    answer = found.repgypsum_check_answer(*given)
    return answer, found.repgypsum_check_cost(*given), found.repgypsum_check_low(*given)
