"""The guide curve day by day, and what goes out so that the dam comes down to it."""

import sys
from datetime import date
from pathlib import Path

HERE = Path(__file__).resolve().parent
sys.path.insert(0, str(HERE.parents[1] / "tests" / "examples"))

from reckoning import DAY, Columns, column, days_from, volumes, write_batches  # noqa: E402

CURVE = [
    (date(2020, 1, 1), 20_000_000),
    (date(2020, 3, 15), 12_000_000),
    (date(2020, 5, 31), 44_000_000),
    (date(2020, 9, 30), 24_000_000),
    (date(2021, 1, 1), 20_000_000),
]
LEAST = 60_000


def target(day: date) -> int:
    """What the curve has on a day, rounded down."""
    pairs = zip(CURVE, CURVE[1:])
    (begin, low), (end, high) = next(pair for pair in pairs if pair[0][0] <= day < pair[1][0])
    return low + (high - low) * (day - begin).days // (end - begin).days


def reckoned(inflow: list[int]) -> Columns:
    """The run."""
    storage = 20_000_000
    columns: Columns = {"Dam.Inflow": inflow, "Dam.Outflow": [], "Dam.Storage": [], "Plan.Target": []}
    for day, comes in zip(days_from(date(2020, 1, 1), len(inflow)), inflow):
        outflow = max(storage + comes - target(day), LEAST)
        storage += comes - outflow
        columns["Dam.Outflow"].append(outflow)
        columns["Dam.Storage"].append(storage)
        columns["Plan.Target"].append(target(day))
    return columns


write_batches("table.csv", [reckoned(volumes(column(HERE, "Dam.Inflow [m3/s]"), DAY))])
