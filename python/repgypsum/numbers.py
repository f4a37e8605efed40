"""The numbers of docs/FORMAT.md: limits, verdicts, refusals."""

from __future__ import annotations

MOST_MODEL_BYTES = 65_536
MOST_VARIABLES = 16
MOST_TABLES = 32
MOST_OBJECTS = 64
MOST_TRANSITIONS = 256
MOST_BASE_CASES = 16
MOST_CONSTRAINTS = 32
MOST_BOUNDS = 8
MOST_CONDITIONS = 16
MOST_NESTING = 32
MOST_WIDTH = 4_096
MOST_WIDTHS = 16
MOST_STEPS = 256

LEAST_NUMBER = -(2**31)
MOST_NUMBER = 2**31 - 1

CHEAPEST = 0
NO_PLAN = 1
WIDTH_STOP = 2
LENGTH_STOP = 3
BUDGET_SPENT = 4
CONTRADICTED = 5

VERDICTS = {
    CHEAPEST: "cheapest",
    NO_PLAN: "no plan",
    WIDTH_STOP: "width stop",
    LENGTH_STOP: "length stop",
    BUDGET_SPENT: "budget spent",
    CONTRADICTED: "contradicted",
}

OUT_OF_RANGE = 11
DIVISOR_ZERO = 12
NEGATIVE_COST = 13
HIGH_BELOW_LOW = 17

REFUSALS = {
    1: "model too long",
    2: "setting out of range",
    3: "too little lent",
    4: "bytes end early",
    5: "a byte that begins nothing due here",
    6: "wrong kind, undeclared name or counts that do not fit",
    7: "outside its limits",
    8: "nested too deep",
    9: "bytes after the end command",
    OUT_OF_RANGE: "number out of range",
    DIVISOR_ZERO: "quotient by zero",
    NEGATIVE_COST: "negative cost",
    14: "not a plan",
    15: "outside the loading profile",
    16: "bad widths",
    HIGH_BELOW_LOW: "high cost below low cost",
}


def words_needed(width: int, length: int) -> int:
    """The working words that a search with these settings has to be lent."""
    return 64 * width + width * (length + 1)


def in_range(number: int) -> bool:
    return LEAST_NUMBER <= number <= MOST_NUMBER
