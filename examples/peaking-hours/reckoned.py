"""Hour by hour: the least release that gives the energy of the peak, and the river's least flow at other times."""

import sys
from collections import defaultdict
from datetime import datetime, timedelta
from pathlib import Path

HERE = Path(__file__).resolve().parent
sys.path.insert(0, str(HERE.parents[1] / "tests" / "examples"))

from reckoning import Columns, Rating, column, volumes, write_batches  # noqa: E402

TABLE = Rating([(300_000, 0), (340_000, 10_000_000)])
TAILWATER, POWER, GREATEST, LEAST, WANTED = 280_000, 2_400, 120_000, 7_200, 9_000


def energy(release: int, head: int) -> int:
    """What a release gives in kWh, rounded down."""
    return release * head * POWER // 10**9


def least_release(wanted: int, head: int) -> int:
    """The least release that gives so much."""
    low, high = 0, GREATEST
    while low < high:
        middle = (low + high) // 2
        low, high = (low, middle) if energy(middle, head) >= wanted else (middle + 1, high)
    return low


def reckoned(inflow: list[int]) -> Columns:
    """The run."""
    storage, begin, columns = 5_000_000, datetime(2021, 1, 4), defaultdict(list)
    for place, comes in enumerate(inflow):
        now = begin + timedelta(hours=place)
        is_peak = now.isoweekday() <= 5 and (7 <= now.hour < 11 or 17 <= now.hour < 21)
        head = TABLE.elevation(storage) - TAILWATER
        wanted = min(WANTED, energy(GREATEST, head)) if is_peak else 0
        outflow = max(least_release(wanted, head), LEAST)
        storage += comes - outflow
        row = {
            "Dam.Outflow": outflow,
            "Dam.Storage": storage,
            "Dam.EnergyRequest": wanted,
            "Dam.Energy": energy(min(outflow, GREATEST), head),
            "Clock.Hour": now.hour,
            "Clock.Weekday": now.isoweekday(),
        }
        for name, value in row.items():
            columns[name].append(value)
    return columns


write_batches("table.csv", [reckoned(volumes(column(HERE, "Dam.Inflow [m3/s]"), 3_600))])
