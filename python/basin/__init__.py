"""Tables of `basin` as data frames, and ensembles of many traces.

Each call runs the program and reads what it writes; the package repeats none of its computations.
"""

from . import beside  # noqa: F401, I001: the others find their modules by it
from .answers import Answer, Book, Cell, Effects, Traces
from .calls import balance, check, effects, mrm, run, simulate, why
from .errors import Error, Fault, FaultedTraces, NoProgram, Refused, Stale, TimedOut
from .files import Model, Policy
from .inputs import Inputs
from .process import find_program
from .requirements import Judged, Judgement, Requirements, WrongRequirements, over_ensemble, requirements
from .units import in_base_units, in_units

__all__ = [
    "Answer",
    "Book",
    "Cell",
    "Effects",
    "Error",
    "Fault",
    "FaultedTraces",
    "Inputs",
    "Judged",
    "Judgement",
    "Model",
    "NoProgram",
    "Policy",
    "Refused",
    "Requirements",
    "Stale",
    "TimedOut",
    "Traces",
    "WrongRequirements",
    "balance",
    "check",
    "effects",
    "find_program",
    "in_base_units",
    "in_units",
    "mrm",
    "over_ensemble",
    "requirements",
    "run",
    "simulate",
    "why",
]
