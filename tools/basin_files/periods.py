"""The timesteps of a table that lie between two dates."""

from collections.abc import Callable
from datetime import datetime

from .program import Unable
from .sections import Row, Section
from .wide import moment_in


def cut(sections: list[Section], first: str | None, last: str | None) -> None:
    """Leaves out the rows that end before the first date, or begin after the last one."""
    tests: list[tuple[str | None, Callable[[Row, datetime], bool]]] = [
        (first, lambda row, at: row.stamp > at),
        (last, lambda row, at: row.stamp <= at),
    ]
    for word, keeps in tests:
        if word:
            at = moment_in(word)
            if not at:
                raise Unable(f"{word} is not a date: write 2021-06-01 or 2021-06")
            for section in sections:
                section.rows = [row for row in section.rows if keeps(row, at)]
    if (first or last) and not any(section.rows for section in sections):
        raise Unable("the period has no timestep")
