"""Whether a requirement is held, by its margins over a run; reliability, resilience and vulnerability; measures.

A margin is a whole number, at least 0 where the requirement holds; `NOT_ASKED`; or `None` where it isn't known. A run that
ended in a fault leaves all timesteps unknown from there on.
"""

from collections.abc import Callable, Iterable, Sequence
from dataclasses import dataclass
from datetime import datetime
from fractions import Fraction
from itertools import groupby

from .measures import NOT_ASKED, reliability, resilience, stretches, vulnerability
from .reading import PERIODS, Most, Requirement, Share

HELD, NOT_HELD, UNKNOWN, NEVER = "held", "not held", "unknown", "never asked"
WATER_YEAR = 10  # the month with which it begins
Margins = Sequence[int | None]
NUMBERS: dict[str, Callable[[datetime], int]] = {
    "month": lambda begin: begin.year * 12 + begin.month,
    "year": lambda begin: begin.year,
    "water year": lambda begin: begin.year + (begin.month >= WATER_YEAR),
}


@dataclass
class Verdict:
    """What became of a requirement over a run.

    `margin` is the least one, and `worst` the greatest shortfall, in timestep `worst_step`. `first` is the first timestep
    that fails. `reliability`, `resilience` and `vulnerability` are those of `measures.py`.
    """

    verdict: str
    asked: int = 0
    held: int = 0
    unknown: int = 0
    stretches: int = 0
    longest: int = 0
    worst: int = 0
    worst_step: int | None = None
    margin: int | None = None
    first: int | None = None
    reliability: Fraction | None = None
    resilience: Fraction | None = None
    vulnerability: Fraction | None = None
    broken: str = ""  # the clauses that aren't held

    @property
    def failed(self) -> int:
        """In how many timesteps it fails."""
        return self.asked - self.held - self.unknown


class Calendar:
    """In which period each timestep begins, counted without gaps."""

    def __init__(self, begins: Sequence[datetime]):
        self.steps = len(begins)
        self.of = {"timestep": list(range(len(begins)))}
        for period in PERIODS[1:]:
            self.of[period] = [NUMBERS[period](begin) for begin in begins]


def judged(one: Requirement, margins: Margins, calendar: Calendar, fault: bool = False) -> Verdict:
    """What became of a requirement. Behind the margins all is unknown."""
    known = [*margins, *[None] * (calendar.steps - len(margins))]
    states = [None if margin is None else 2 if margin == NOT_ASKED else int(margin >= 0) for margin in known]
    found = measured(known, states)
    lenient = broken_of(one, [1 if state is None else state for state in states], calendar)
    strict = broken_of(one, [0 if state is None else state for state in states], calendar)
    if lenient:
        found.verdict, found.broken = NOT_HELD, ", ".join(map(str, lenient))
    elif strict or fault:
        found.verdict = UNKNOWN
    elif not found.asked:
        found.verdict = NEVER
    return found


def measured(margins: Margins, states: Sequence[int | None]) -> Verdict:
    """Returns the numbers of a verdict."""
    found = Verdict(HELD, sum(state != 2 for state in states), states.count(1), states.count(None))
    for begin, length, least, at in stretches(margins):
        found.stretches += 1
        found.longest = max(found.longest, length)
        found.first = found.first or begin + 1
        if -least > found.worst:
            found.worst, found.worst_step = int(-least), at + 1
    found.margin = min((margin for margin in margins if margin is not None and margin != NOT_ASKED), default=None)
    found.reliability, found.resilience = reliability(margins), resilience(margins)
    found.vulnerability = vulnerability(margins)
    return found


def broken_of(one: Requirement, states: Sequence[int], calendar: Calendar) -> list[Share | Most]:
    """The clauses that aren't held, where all is known."""
    clauses = one.clauses or [Most(0)]
    return [clause for clause in clauses if not holds(clause, by_period(states, calendar.of[clause.period]))]


def by_period(states: Sequence[int], numbers: Sequence[int]) -> list[int]:
    """Of each period whether it fails (0), holds (1), or isn't asked (2): it fails where one of its timesteps does."""
    found = [2] * (numbers[-1] - numbers[0] + 1 if numbers else 0)
    for state, number in zip(states, numbers):
        found[number - numbers[0]] = min(found[number - numbers[0]], state)
    return found


def holds(clause: Share | Most, states: Sequence[int]) -> bool:
    """Whether a clause holds over periods."""
    if isinstance(clause, Share):
        held = states.count(1)
        return held * 100 >= clause.percent * (held + states.count(0))
    if clause.in_a_row:
        return max((len(list(some)) for state, some in groupby(states) if state == 0), default=0) <= clause.count
    window = clause.window or len(states)
    failing = sum(state == 0 for state in states[:window])
    most = failing
    for gone, come in zip(states, states[window:]):
        failing += (come == 0) - (gone == 0)
        most = max(most, failing)
    return most <= clause.count


def value_of(how: str, values: Margins, calendar: Calendar) -> Fraction | None:
    """What a measure comes to, over the timesteps in which it is asked; `None` where one of them isn't known."""
    known = [value for value in values if value is not None]
    if len(values) < calendar.steps or len(known) < len(values):
        return None
    held = [value for value in known if value != NOT_ASKED]
    if how == "SUM":
        return Fraction(sum(held))
    if not held:
        return None
    if how == "MEAN":
        return Fraction(sum(held), len(held))
    return Fraction({"LEAST": min, "GREATEST": max}[how](held) if how != "LAST" else held[-1])


def over_traces(one: Requirement, verdicts: Iterable[Verdict]) -> str:
    """The verdict over many traces: by how many of them hold it, of all in which it is asked."""
    found = [verdict.verdict for verdict in verdicts]
    asked = len(found) - found.count(NEVER)
    if not asked:
        return NEVER
    if found.count(HELD) * 100 >= one.traces * asked:
        return HELD
    most = found.count(HELD) + found.count(UNKNOWN)
    return UNKNOWN if most * 100 >= one.traces * asked else NOT_HELD
