"""Repgypsum from Python: models by operators in didppy's vocabulary, planned and checked by the proved library.

What is proved is the search and the plan check on bytes (docs/AUDIT.md). This package stands outside the proofs: it writes the
bytes, calls the library and follows plans. docs/PYTHON.md begins with an example.
"""

from .answers import Answer, Checked
from .errors import MissingLibrary, ModelError, Trouble
from .expressions import Condition, IntExpr
from .folds import exists, forall, max, min, sum  # noqa: A004 - didppy's words and the text form's
from .model import Model
from .objects import ElementExpr, ObjectType, SetExpr
from .program import Declarations
from .states import State, Step
from .tables import IntTable
from .transition import Transition
from .variables import ElementVar, IntVar, SetVar

__version__ = "0.1.0"

__all__ = [
    "Answer",
    "Checked",
    "Condition",
    "Declarations",
    "ElementExpr",
    "ElementVar",
    "IntExpr",
    "IntTable",
    "IntVar",
    "MissingLibrary",
    "Model",
    "ModelError",
    "ObjectType",
    "SetExpr",
    "SetVar",
    "State",
    "Step",
    "Transition",
    "Trouble",
    "exists",
    "forall",
    "max",
    "min",
    "sum",
]
