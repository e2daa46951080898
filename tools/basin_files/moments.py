"""Timesteps and their moments. A moment is a `datetime` on the hour, without a time zone."""

import re
from datetime import datetime, timedelta

from .formats import STEP_HOURS

START = re.compile(r"[0-9]{4}-[0-9]{2}-[0-9]{2}T[0-9]{2}:00")


def moment_of(text: str) -> datetime | None:
    """The moment that a start or a stamp spells, or `None` where there is none."""
    try:
        return datetime.strptime(text, "%Y-%m-%dT%H:%M") if START.fullmatch(text) else None
    except ValueError:
        return None


def stamp_of(moment: datetime) -> str:
    """A moment as `basin` writes it."""
    return f"{moment.year:04}-{moment.month:02}-{moment.day:02}T{moment.hour:02}:00"


def later(moment: datetime, step: str, count: int) -> datetime:
    """The moment so many timesteps later (or earlier); `OverflowError` outside the years 1 to 9999."""
    if step in STEP_HOURS:
        return moment + timedelta(hours=STEP_HOURS[step] * count)
    months = moment.year * 12 + moment.month - 1 + count
    if not 12 <= months < 120_000:
        raise OverflowError("outside the years 1 to 9999")
    return moment.replace(year=months // 12, month=months % 12 + 1)


def end_in_time(moment: datetime, step: str, count: int) -> bool:
    """Whether so many timesteps from a moment on end within the year 9999."""
    try:
        return later(moment, step, count).year <= 9999
    except OverflowError:
        return False


class Timesteps:
    """The timesteps of a run, numbered from 1."""

    def __init__(self, start: datetime, step: str, count: int) -> None:
        self.start, self.step, self.count = start, step, count

    def begin(self, number: int) -> datetime:
        """The moment at which the timestep begins."""
        return later(self.start, self.step, number - 1)

    def end(self, number: int) -> datetime:
        """The moment at which it ends: its stamp in a table."""
        return later(self.start, self.step, number)

    def seconds(self, number: int) -> int:
        """How long it is, in seconds: months differ."""
        return int((self.end(number) - self.begin(number)).total_seconds())

    def beginning_at(self, moment: datetime) -> int | None:
        """The number of the timestep that begins then, or `None`."""
        if self.step in STEP_HOURS:
            whole, rest = divmod(moment - self.start, timedelta(hours=STEP_HOURS[self.step]))
            number = whole + 1 if not rest else 0
        else:
            months = (moment.year - self.start.year) * 12 + moment.month - self.start.month
            number = months + 1 if (moment.day, moment.hour, moment.minute) == (1, 0, 0) else 0
        return number if 1 <= number <= self.count else None

    def last_begun(self, moment: datetime) -> int:
        """The number of the timestep in which the moment lies, at least 1 and at most the last."""
        if self.step in STEP_HOURS:
            number = (moment - self.start) // timedelta(hours=STEP_HOURS[self.step]) + 1
        else:
            number = (moment.year - self.start.year) * 12 + moment.month - self.start.month + 1
        return min(max(number, 1), self.count)
