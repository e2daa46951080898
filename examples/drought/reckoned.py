"""The dry summer object by object: the town first (`table.csv`), and the shortage shared (`shared.csv`)."""

import sys
from collections import defaultdict
from collections.abc import Callable
from datetime import date
from itertools import count
from pathlib import Path

HERE = Path(__file__).resolve().parent
sys.path.insert(0, str(HERE.parents[1] / "tests" / "examples"))

from reckoning import DAY, Columns, Rating, column, days_from, volumes, write_batches  # noqa: E402

UPPER = Rating([(300_000, 0), (310_000, 4_000_000), (330_000, 25_000_000)])
LEAST, KEPT, FULL = 60_000, 3_000_000, 10_000_000
SLOTS = ("Upper.Inflow", "Meeting.Inflow2", "Town.DiversionRequest", "Farms.DiversionRequest")
Shares = Callable[[int, int, int], tuple[int, int]]


def town_first(there: int, town: int, farms: int) -> tuple[int, int]:
    """What the town and the farms get; of what goes into the canal 880 of 1000 parts come to the farms."""
    gets = min(town, there)
    return gets, min(farms, (there - gets) * 880 // 1000)


def shared(there: int, town: int, farms: int) -> tuple[int, int]:
    """The same part of what each asks for at the canal's head."""
    at_head = farms * 1000 // 880
    asked = town + at_head
    part = min(there, asked)
    return town * part // asked, min(farms, at_head * part // asked * 880 // 1000)


def into_canal(out: int) -> int:
    """The least inflow of the canal by which so much comes out of it."""
    return next(inflow for inflow in count(out) if inflow - inflow * 120 // 1000 == out)


def evaporated(stored: int, month: int) -> int:
    """What evaporates from the upper dam: 7 mm a day in summer, and else 4."""
    level = UPPER.elevation(stored)
    return UPPER.volume(level) - UPPER.volume(max(level - (7 if 6 <= month <= 8 else 4), 300_000))


def reckoned(flows: list[list[int]], shares: Shares) -> Columns:
    """The run."""
    upper, lower, river, columns = 14_000_000, 9_000_000, 450_000, defaultdict(list)
    for day, comes, side, town, farms in zip(days_from(date(2022, 5, 1), len(flows[0])), *flows):
        lets_out = max(min((upper * 10 - lower * 14) // 300 + 150_000, max(upper // 30, 50_000)), 50_000)
        lost = evaporated(upper, day.month)
        upper += comes - lost - lets_out
        passes = (river + lets_out) * 400 // 1000
        river += lets_out - passes
        there = max((lower - KEPT) // 20 + passes + side - LEAST, 0)
        to_town, to_farms = shares(there, town, farms)
        held = lower + passes + side - to_town - into_canal(to_farms) - LEAST
        lower = min(held, FULL)
        back = to_town - to_town * 250 // 1000 + to_farms - to_farms * 700 // 1000
        row = {
            "Upper.Outflow": lets_out, "Upper.Storage": upper, "Upper.Evaporation": lost,
            "River.Outflow": passes, "River.Content": river, "Lower.Inflow": passes + side,
            "Plan.There": there, "Town.Diversion": to_town, "Farms.Diversion": to_farms,
            "Canal.Inflow": into_canal(to_farms), "Lower.Outflow": LEAST + held - lower, "Lower.Storage": lower,
            "Mouth.GageOutflow": LEAST + held - lower + back,
            "Plan.Short": town - to_town + farms - to_farms,
        }  # fmt: skip
        for name, value in row.items():
            columns[name].append(value)
    return columns


known = [volumes(column(HERE, f"{slot} [m3/s]"), DAY) for slot in SLOTS]
write_batches("table.csv", [reckoned(known, town_first)])
write_batches("shared.csv", [reckoned(known, shared)])
