"""100 years of months: the lake, what evaporates, the plant, and what is short, for each of eight demands."""

import sys
from collections import defaultdict
from itertools import accumulate
from pathlib import Path

HERE = Path(__file__).resolve().parent
sys.path.insert(0, str(HERE.parents[1] / "tests" / "examples"))

from reckoning import Columns, Rating, column, write_batches  # noqa: E402

PERCENTS = (100, 110, 120, 125, 130, 135, 140, 150)
MILLION = 10**6
DEMAND = (4400, 4300, 5000, 5300, 6000, 7000, 7200, 6500, 5000, 4500, 4300, 4200)  # million m3, by month
RATE = (120, 140, 190, 240, 290, 310, 300, 290, 260, 220, 160, 120)  # mm, by month
LAKE = Rating(
    [
        (120_000, 5_200 * MILLION),
        (147_000, 31_600 * MILLION),
        (160_000, 65_900 * MILLION),
        (175_000, 121_300 * MILLION),
        (183_000, 169_000 * MILLION),
        (200_000, 300_000 * MILLION),
    ]
)
AREAS = Rating(  # m3 a mm
    [(120_000, 500_000), (147_000, 1_700_000), (160_000, 3_000_000), (175_000, 4_900_000), (183_000, 6_700_000),
     (200_000, 9_000_000)]
)  # fmt: skip
DEAD, LOW, LEAST, TURBINES = 31_600 * MILLION, 50_000 * MILLION, 1_500 * MILLION, 9_000 * MILLION


def reckoned(inflow: list[int], percent: int) -> Columns:
    """The run of one demand."""
    storage, columns = 90_000 * MILLION, defaultdict(list)
    for place, comes in enumerate(inflow):
        month = place % 12
        demand = DEMAND[month] * MILLION // 100 * percent
        level = LAKE.elevation(storage)
        lost = AREAS.volume(level) * RATE[month]
        wanted = max(demand * 3 // 4 if storage < LOW else demand, LEAST)
        full = 115_000 * MILLION if 7 <= month + 1 <= 9 else 121_300 * MILLION
        held = min(max(storage + comes - lost - wanted, DEAD), full)
        outflow = storage + comes - lost - held
        storage = held
        turbines = min(outflow, TURBINES)
        row = {
            "Air.Outflow1": lost,
            "Lake.Outflow": outflow,
            "Lake.Storage": storage,
            "Lake.PoolElevation": LAKE.elevation(storage),
            "Lake.Energy": turbines * max(level - 108_000, 0) * 2_400 // 10**9,
            "Lake.Spill": outflow - turbines,
            "Plan.Demand": demand,
            "Plan.Short": max(demand - outflow, 0),
        }
        for name, value in row.items():
            columns[name].append(value)
    columns["Plan.MonthsShort"] = list(accumulate(int(short > 0) for short in columns["Plan.Short"]))
    return columns


flows = [int(flow * MILLION) for flow in column(HERE, "Air.Inflow [Mm3/month]")]
write_batches("edited.csv", [reckoned(flows, percent) for percent in PERCENTS])
