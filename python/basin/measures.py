"""Reliability, resilience and vulnerability of series and frames of margins, by the same code as `tools/require`.

    from basin.measures import reliability, resilience, vulnerability
    reliability(table["Lower.Outflow"] - 200)

A margin is at least 0 where a condition holds, and below 0 by the shortfall where it fails. A missing value is unknown. Truth
values are margins of 0 and -1. Each function returns a float for a series, and for a frame a series with a value for each
column. `where` gives truth values, which say where the condition applies; without it, it always applies.
"""

from __future__ import annotations

from fractions import Fraction
from typing import Any, Callable, Sequence, Union

import pandas as pd

from basin_require import measures
from basin_require.measures import NOT_ASKED, Margin

Measured = Union[float, pd.Series]


def reliability(margins: Any, where: Any = None) -> Any:
    """Returns the share of timesteps that hold, of those that apply and are known; NaN if there are none."""
    return over(measures.reliability, margins, where)


def resilience(margins: Any, where: Any = None) -> Any:
    """Returns the share of failing timesteps that are followed by one that holds; NaN if there are none.

    A failing timestep does not count if it is the last one, or if the next one does not apply or is unknown.
    """
    return over(measures.resilience, margins, where)


def vulnerability(margins: Any, where: Any = None) -> Any:
    """Returns the mean, over the stretches of failures, of the greatest shortfall in each; NaN if nothing fails. Its unit is
    that of the margins."""
    return over(measures.vulnerability, margins, where)


def over(measure: Callable[[Sequence[Margin]], Fraction | None], margins: Any, where: Any) -> Measured:
    """Returns the measure of a series, or of each column of a frame."""
    if isinstance(margins, pd.DataFrame):
        applies = [where.iloc[:, place] if isinstance(where, pd.DataFrame) else where for place in range(margins.shape[1])]
        found = [over(measure, margins.iloc[:, place], one) for place, one in enumerate(applies)]
        return pd.Series(found, index=margins.columns, dtype=float)
    applied = [True] * len(margins) if where is None else list(where)
    if len(applied) != len(margins):
        raise ValueError(f"where has {len(applied)} values for {len(margins)} margins")
    value = measure([margin_of(one) if is_asked else NOT_ASKED for one, is_asked in zip(margins, applied)])
    return float("nan") if value is None else float(value)


def margin_of(value: Any) -> Margin:
    """Returns a margin as an exact number; `None` if it is missing."""
    if pd.isna(value):
        return None
    if isinstance(value, bool) or type(value).__name__ == "bool_":
        return 0 if value else -1
    return int(value) if int(value) == value else Fraction(float(value))
