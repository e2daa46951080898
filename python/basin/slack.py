"""The slack of requirements, over many runs at once: the margin by which one is held, below 0 where it is not.

The slack of a clause is the margin that decides it: for `FAILS AT MOST 3` the fourth smallest one, for `IN A ROW` the smallest
of the largest margins in each four consecutive timesteps. A search for the worst case follows it, also where nothing fails yet.
`counting.py` gives the same verdicts by counting.
"""

from __future__ import annotations

from typing import Any

import numpy as np
import numpy.typing as npt
import pandas as pd

from basin_require.beside import Beside
from basin_require.counting import HELD, NEVER, NOT_HELD, Calendar
from basin_require.counting import UNKNOWN as UNSURE
from basin_require.measures import NOT_ASKED
from basin_require.reading import Most, Requirement, Share

from .tables import UNKNOWN, Whole

Slack = npt.NDArray[np.float64]
VERDICTS = (NOT_HELD, HELD, UNSURE, NEVER)  # by their numbers in a file
AT_ONCE = 1 << 22  # values of windows that are held


def slack_of(one: Requirement, margins: Whole, calendar: Calendar, unknown: float) -> Slack:
    """Returns the slack of each run, of margins by run and timestep. What is not known counts as `unknown`: inf or -inf."""
    values = margins.astype(np.float64)
    values[margins == UNKNOWN] = unknown
    asked = margins != NOT_ASKED
    values[~asked] = np.inf
    found = np.full(len(margins), np.inf)
    for clause in one.clauses or [Most(0)]:
        numbers = np.asarray(calendar.of[clause.period])
        begins = np.flatnonzero(np.r_[True, np.diff(numbers) != 0])
        least = np.minimum.reduceat(values, begins, axis=1)
        if isinstance(clause, Share):
            found = np.minimum(found, of_share(clause, least, np.logical_or.reduceat(asked, begins, axis=1)))
        else:
            found = np.minimum(found, of_most(clause, least))
    return found


def of_share(clause: Share, values: Slack, asked: npt.NDArray[np.bool_]) -> Slack:
    """Returns the smallest margin that must be at least 0 for the share to be reached."""
    count = asked.sum(axis=1)
    percent = clause.percent
    wanted = -(-count * percent.numerator // (100 * percent.denominator))  # rounded up
    place = count - wanted
    ordered = np.sort(values, axis=1)
    found = np.take_along_axis(ordered, np.minimum(place, values.shape[1] - 1)[:, None], axis=1)[:, 0]
    return np.where(place < count, found, np.inf)


def of_most(clause: Most, values: Slack) -> Slack:
    """Returns the margin by which this number of timesteps fail, or no more."""
    runs, periods = values.shape
    if clause.count >= periods:
        return np.full(runs, np.inf)
    if clause.in_a_row:
        width = periods - clause.count
        most = values[:, :width].copy()
        for k in range(1, clause.count + 1):
            np.maximum(most, values[:, k : k + width], out=most)
        return np.asarray(most.min(axis=1))
    window = min(clause.window or periods, periods)
    if clause.count >= window:
        return np.full(runs, np.inf)
    windows = np.lib.stride_tricks.sliding_window_view(values, window, axis=1)
    found = np.empty(runs)
    some = max(1, AT_ONCE // (windows.shape[1] * window))
    for begin in range(0, runs, some):
        part = np.partition(windows[begin : begin + some], clause.count, axis=2)
        found[begin : begin + some] = part[..., clause.count].min(axis=1)
    return found


def names_of(beside: Beside) -> list[str]:
    """Returns the names of a run's columns: the value of a measure, and slack, failures and verdict of a requirement."""
    items = [asked.item for asked in beside.asked]
    names = ([one.name] if one.how else [one.name, f"{one.name}.failed", f"{one.name}.verdict"] for one in items)
    return [name for some in names for name in some]


def columns_of(beside: Beside, calendar: Calendar, margins: Whole, faults: npt.NDArray[np.bool_]) -> Slack:
    """Returns the values of runs, from margins by run, item and timestep; `faults` are the runs that ended in one."""
    columns: list[npt.NDArray[Any]] = []
    for place, asked in enumerate(beside.asked):
        held, one = margins[:, place], asked.item
        if one.how:
            columns.append(measured(one, held))
            continue
        lenient = slack_of(one, held, calendar, np.inf)
        strict = slack_of(one, held, calendar, -np.inf)
        is_asked = (held != NOT_ASKED).any(axis=1)
        verdict = np.where(lenient < 0, 0, np.where((strict < 0) | faults, 2, np.where(is_asked, 1, 3)))
        failed = ((held < 0) & (held != UNKNOWN)).sum(axis=1)
        columns += [np.where(faults, np.minimum(lenient, strict), lenient), failed, verdict]
    return np.column_stack([column.astype(np.float64) for column in columns])


def measured(one: Requirement, values: Whole) -> Slack:
    """Returns the value of a measure, NaN where a timestep is not known."""
    known = (values != UNKNOWN).all(axis=1)
    asked = values != NOT_ASKED
    if one.how in ("SUM", "MEAN"):
        found = np.where(asked, values, 0).sum(axis=1).astype(np.float64)
        found = found / np.maximum(asked.sum(axis=1), 1) if one.how == "MEAN" else found
    elif one.how == "LAST":
        last = values.shape[1] - 1 - asked[:, ::-1].argmax(axis=1)
        found = np.take_along_axis(values, last[:, None], axis=1)[:, 0].astype(np.float64)
    elif one.how == "LEAST":
        found = values.min(axis=1).astype(np.float64)  # what isn't asked is above all
    else:
        found = np.where(asked, values, UNKNOWN).max(axis=1).astype(np.float64)
    return np.where(known & (asked.any(axis=1) | (one.how == "SUM")), found, np.nan)


def frame_of(beside: Beside, values: Slack, faults: list[str]) -> pd.DataFrame:
    """Returns the frame of the values of runs."""
    frame = pd.DataFrame(values, columns=names_of(beside))
    for name in frame.columns:
        if name.endswith(".verdict"):
            frame[name] = pd.Categorical.from_codes(values[:, frame.columns.get_loc(name)].astype(np.int8), list(VERDICTS))
        elif name.endswith(".failed"):
            frame[name] = frame[name].astype(np.int64)
    frame["fault"] = faults
    return frame
