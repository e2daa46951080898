"""Reliability, resilience and vulnerability: how often a condition holds, how soon it recovers, and how badly it fails.

A margin is a number: at least 0 where the condition holds, and below 0 by the shortfall where it fails. It is `NOT_ASKED`
where the condition does not apply, and `None` where it is not known.
"""

from collections.abc import Iterator, Sequence
from fractions import Fraction
from itertools import groupby

from basin_files.formats import GREATEST_QUANTITY

NOT_ASKED = GREATEST_QUANTITY
Margin = int | Fraction | None


def fails(margin: Margin) -> bool:
    """Returns whether the condition fails, for sure."""
    return margin is not None and margin < 0


def counted(margin: Margin) -> bool:
    """Returns whether the condition applies and is known."""
    return margin is not None and margin != NOT_ASKED


def reliability(margins: Sequence[Margin]) -> Fraction | None:
    """Returns the share of timesteps that hold, of those that are counted; `None` if there are none."""
    known = [margin for margin in margins if counted(margin)]
    return Fraction(sum(not fails(margin) for margin in known), len(known)) if known else None


def resilience(margins: Sequence[Margin]) -> Fraction | None:
    """Returns the share of failing timesteps that are followed by one that holds; `None` if there are none.

    A failing timestep does not count if it is the last one, or if the next one is not counted.
    """
    after = [not fails(later) for margin, later in zip(margins, margins[1:]) if fails(margin) and counted(later)]
    return Fraction(sum(after), len(after)) if after else None


def vulnerability(margins: Sequence[Margin]) -> Fraction | None:
    """Returns the mean, over the stretches of failures, of the greatest shortfall in each; `None` if nothing fails."""
    worst = [-least for _, _, least, _ in stretches(margins)]
    return Fraction(sum(worst)) / len(worst) if worst else None


def stretches(margins: Sequence[Margin]) -> Iterator[tuple[int, int, int | Fraction, int]]:
    """Yields each stretch of consecutive failures: its first place, its length, its least margin and the place of that."""
    for is_failing, some in groupby(enumerate(margins), lambda one: fails(one[1])):
        if is_failing:
            part = [(margin, place) for place, margin in some if margin is not None]
            least, at = min(part)
            yield part[0][1], len(part), least, at
