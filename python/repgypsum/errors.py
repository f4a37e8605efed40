"""What can go wrong: a model that the format has no room for, and trouble in a state."""


class ModelError(ValueError):
    """A model, a name or an expression that the format does not allow."""


class Trouble(ArithmeticError):
    """An expression without a value in a state, or a cost that no step has; `number` is the refusal's number, 11 to 13 or 17."""

    def __init__(self, number: int, what: str) -> None:
        super().__init__(f"refusal {number}: {what}")
        self.number = number


class MissingLibrary(OSError):
    """The shared library or the command line program is not found."""
