"""What the scripts `reckoned.py` of the examples share: a column of a wide table, elevations and volumes, and how
what was reckoned is written. Nothing of it comes from `basin` or from the tools beside it."""

import csv
import sys
from dataclasses import dataclass
from datetime import date, timedelta
from fractions import Fraction
from pathlib import Path

DAY = 86_400  # seconds
DAYS_OF_MONTHS = (31, 28, 31, 30, 31, 30, 31, 31, 30, 31, 30, 31)
Columns = dict[str, list[int]]


def column(folder: Path, heading: str) -> list[Fraction]:
    """The numbers below a heading of the wide table of an example; empty cells are passed over."""
    with (folder / "wide.csv").open(newline="") as file:
        return [Fraction(row[heading]) for row in csv.DictReader(file) if row[heading]]


def volumes(flows: list[Fraction], seconds: int) -> list[int]:
    """Flows of so many m3 a second as m3 a timestep, whole ones: a half is rounded up."""
    return [int(flow * seconds + Fraction(1, 2)) for flow in flows]


def days_from(first: date, count: int) -> list[date]:
    """So many days in a row."""
    return [first + timedelta(days=place) for place in range(count)]


@dataclass(frozen=True)
class Rating:
    """The elevations of a dam in mm, each with the volume up to it in m3, and straight lines between them."""

    rows: list[tuple[int, int]]

    def volume(self, elevation: int) -> int:
        """The volume up to a whole mm, rounded down."""
        pairs = zip(self.rows, self.rows[1:])
        (low, below), (high, above) = next(pair for pair in pairs if pair[0][0] <= elevation <= pair[1][0])
        return below + (above - below) * (elevation - low) // (high - low)

    def elevation(self, volume: int) -> int:
        """The greatest whole mm up to which there is no more than a volume."""
        low, high = self.rows[0][0], self.rows[-1][0]
        while low < high:
            middle = (low + high + 1) // 2
            low, high = (middle, high) if self.volume(middle) <= volume else (low, middle - 1)
        return low


def write_batches(table: str, batches: list[Columns]) -> None:
    """Writes columns of a table: those of each batch, the first of which is the run without edits."""
    writer = csv.writer(sys.stdout, lineterminator="\n")
    for number, columns in enumerate(batches):
        print(f"# {table} {number}")
        writer.writerow(["step", *columns])
        writer.writerows([step, *row] for step, row in enumerate(zip(*columns.values(), strict=True), 1))
