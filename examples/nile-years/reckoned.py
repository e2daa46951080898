"""The storage that a draft needs, by the sequent peak, and 100 years with a dam of that size and with one of 1 m3 less.

The sequent peak goes through the years with what is lacking from a full dam; the greatest lack is what is needed."""

import sys
from pathlib import Path

HERE = Path(__file__).resolve().parent
sys.path.insert(0, str(HERE.parents[1] / "tests" / "examples"))

from reckoning import Columns, column, write_batches  # noqa: E402

PERCENTS = (80, 90, 100)  # of the mean flow


def sequent_peak(inflow: list[int], draft: int) -> int:
    """The least storage by which the draft is met in all years, of a dam that is full at first."""
    lack = greatest = 0
    for comes in inflow:
        lack = max(0, lack + draft - comes)
        greatest = max(greatest, lack)
    return greatest


def reckoned(inflow: list[int], draft: int, capacity: int) -> Columns:
    """A run; its first timestep fills the dam."""
    storage, shorts = capacity, [0]
    columns: Columns = {"Dam.Inflow": [capacity, *inflow], "Dam.Outflow": [0], "Dam.Storage": [capacity]}
    for comes in inflow:
        given = min(draft, storage + comes)
        held = min(storage + comes - given, capacity)
        columns["Dam.Outflow"].append(storage + comes - held)
        columns["Dam.Storage"].append(held)
        shorts.append(draft - given)
        storage = held
    columns["Plan.Capacity"] = [capacity] * len(shorts)
    columns["Plan.Draft"] = [0] + [draft] * len(inflow)
    columns["Plan.Short"] = shorts
    columns["Plan.ShortSoFar"] = [sum(shorts[:end]) for end in range(1, len(shorts) + 1)]
    return columns


flows = [int(flow * 10**6) for flow in column(HERE, "Dam.Inflow [Mm3/step]")]
drafts = [sum(flows) // len(flows) * percent // 100 for percent in PERCENTS]
plans = [(draft, sequent_peak(flows, draft) - less) for draft in drafts for less in (0, 1)]
write_batches("edited.csv", [reckoned(flows, *plan) for plan in plans])
