"""The least even release that keeps the dam at 40,000,000 m3 at the end of each of the seven days that are forecast."""

import sys
from pathlib import Path

HERE = Path(__file__).resolve().parent
sys.path.insert(0, str(HERE.parents[1] / "tests" / "examples"))

from reckoning import DAY, Columns, column, volumes, write_batches  # noqa: E402

FULL, LEAST, AHEAD = 40_000_000, 80_000, 7


def reckoned(inflow: list[int]) -> Columns:
    """The run."""
    storage = 30_000_000
    columns: Columns = {"Dam.Inflow": inflow, "Dam.Outflow": [], "Dam.Storage": []}
    for day, comes in enumerate(inflow):
        above = [storage + sum(inflow[day : day + days]) - FULL for days in range(1, AHEAD + 1)]
        outflow = max(LEAST, *(volume // days for days, volume in enumerate(above, 1)))
        storage += comes - outflow
        columns["Dam.Outflow"].append(outflow)
        columns["Dam.Storage"].append(storage)
    assert max(columns["Dam.Storage"]) < FULL + AHEAD, "rounding down leaves less than a m3 a day"
    return columns


write_batches("table.csv", [reckoned(volumes(column(HERE, "Dam.Inflow [m3/s]"), DAY))])
