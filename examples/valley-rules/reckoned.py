"""The valley day by day, of the year as it was (`table.csv`) and after each batch of edits."""

import csv
import sys
from collections import defaultdict
from datetime import date
from pathlib import Path

HERE = Path(__file__).resolve().parent
sys.path.insert(0, str(HERE.parents[1] / "tests" / "examples"))

from reckoning import DAYS_OF_MONTHS, Columns, column, days_from, write_batches  # noqa: E402

KEPT, FULL = 20_000, 60_000
TARGET = (20_000, 20_000, 18_000, 16_000, 20_000, 26_000, 28_000, 26_000, 24_000, 22_000, 20_000, 20_000)
SLOTS = ("Upper.Inflow", "Meeting.Inflow2", "Town.DiversionRequest", "Farms.DiversionRequest")
Inputs = dict[str, list[int | None]]


def by_days(slot: str) -> list[int | None]:
    """A column of months as one of days."""
    months = zip(column(HERE, f"{slot} [m3/step]"), DAYS_OF_MONTHS, strict=True)
    return [int(flow) for flow, days in months for _ in range(days)]


def edited(inputs: Inputs) -> list[Inputs]:
    """The inputs, and as they are after each batch of edits."""
    batches = [inputs]
    with (HERE / "edits.csv").open(newline="") as file:
        for row in csv.DictReader(file):
            if int(row["batch"]) == len(batches):
                batches.append({slot: list(values) for slot, values in batches[-1].items()})
            first, last = map(int, row["step"].split("-"))
            value = int(row["value"]) if row["value"] else None
            batches[-1][row["slot"]][first - 1 : last] = [value] * (last - first + 1)
    return batches


def reckoned(inputs: Inputs) -> Columns:
    """The run."""
    upper, lower, on_its_way, columns = 20_000, 40_000, 310, defaultdict(list)
    known = [inputs[slot] for slot in (*SLOTS, "Upper.Outflow")]
    for day, comes, side, town, farms, gate in zip(days_from(date(2021, 1, 1), 365), *known):
        curve = min(max((upper - TARGET[day.month - 1]) // 10 + comes, 100), 900)
        lets_out = curve if gate is None else gate
        upper += comes - lets_out
        arrives, on_its_way = on_its_way + side, lets_out
        least = 300 if 4 <= day.month <= 6 else 200
        there = max(lower - KEPT + arrives - least, 0)
        to_town = min(town, there)
        to_farms = min(farms, there - to_town)
        held = lower + arrives - to_town - to_farms - max((lower - KEPT) // 100, least)
        outflow = max((lower - KEPT) // 100, least) + max(held - FULL, 0)
        lower = min(held, FULL)
        back = to_town - to_town * 200 // 1000 + to_farms - to_farms * 600 // 1000
        row = {
            "Upper.Outflow": lets_out, "Upper.Storage": upper, "Lower.Inflow": arrives, "Lower.Outflow": outflow,
            "Lower.Storage": lower, "Town.Diversion": to_town, "Farms.Diversion": to_farms,
            "Mouth.GageOutflow": outflow + back,
        }  # fmt: skip
        for name, value in row.items():
            columns[name].append(value)
    return columns


batches = edited({**{slot: by_days(slot) for slot in SLOTS}, "Upper.Outflow": [None] * 365})
write_batches("edited.csv", [reckoned(inputs) for inputs in batches])
