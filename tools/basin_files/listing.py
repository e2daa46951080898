"""Rows of fields, below one another for people or as CSV for a spreadsheet."""

import csv
import re
import sys
from collections.abc import Iterable, Iterator, Sequence

NUMBER = re.compile(r"-?[0-9]+(\.[0-9]+)?")
STARTS_OF_FORMULAS = ("=", "+", "-", "@", "\t", "\r")


def aligned(rows: Sequence[Sequence[str]], left: int) -> Iterator[str]:
    """The rows with their fields below one another: so many columns to the left, the others to the right."""
    widths = [max(len(row[place]) for row in rows) for place in range(len(rows[0]))]
    for row in rows:
        fields = enumerate(zip(row, widths))
        line = "  ".join(field.ljust(width) if place < left else field.rjust(width) for place, (field, width) in fields)
        yield line.rstrip()


def unstarted(field: object) -> str:
    """A field that a spreadsheet takes for a number or a text, and for no formula: a rule may have any name."""
    text = str(field)
    is_bare = not text.startswith(STARTS_OF_FORMULAS) or text == "-" or NUMBER.fullmatch(text)
    return text if is_bare else f"'{text}"


def write_csv(rows: Iterable[Iterable[object]]) -> None:
    """Writes the rows to the output, with commas between their fields."""
    csv.writer(sys.stdout, lineterminator="\n").writerows(map(unstarted, row) for row in rows)
