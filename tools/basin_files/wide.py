"""Wide tables of a spreadsheet: a row a date or timestep, a column a slot, units in the headings."""

import csv
import io
import re
from collections.abc import Callable
from dataclasses import dataclass
from datetime import datetime, timedelta
from decimal import Decimal
from fractions import Fraction
from typing import Protocol

from . import formats
from .inputs import steps_of
from .moments import Timesteps, stamp_of
from .reasons import NAME, plain, shown

# Both match a text in at most one way, so that matching takes linear time.
HEADING = re.compile(r"(?P<name>[^\[(]*)(?:[\[(](?P<unit>[^\])]*)[\])])?")
WHOLE = re.compile(r"-?[0-9]{1,18}")
DECIMAL = re.compile(r"[-+]?(?:[0-9]+(?:[.,][0-9]*)?|[.,][0-9]+)(?:[eE][-+]?[0-9]{1,2})?")
MOST_DIGITS = 4300  # of a cell: Python needs time that grows with the square of their number
MONTHS = ("jan", "feb", "mar", "apr", "may", "jun", "jul", "aug", "sep", "oct", "nov", "dec")
NAMED_DATE = re.compile(  # 1-Oct-2020, Oct 1, 2020, Oct 2020
    r"(?:(\d{1,2})[- ]?)?([A-Za-z]{3})[a-z]*\.?[- ]?(?:(\d{1,2}), ?)?(\d{4})(?:,? (\d{2}):?(\d{2}))?"
)
DATES = (
    "%Y-%m-%d",
    "%Y/%m/%d",
    "%Y/%m/%d %H:%M",
    "%Y-%m-%dT%H:%M",
    "%Y-%m-%d %H:%M",
    "%Y-%m-%dT%H:%M:%S",
    "%Y-%m-%d %H:%M:%S",
    "%Y-%m",
    "%d.%m.%Y",
    "%d.%m.%Y %H:%M",
    "%d.%m.%Y %H:%M:%S",
)
LAST_DAY = datetime(9999, 12, 31)  # the last one that Python has
STEP_WORDS = ("step", "timestep")
DATE_WORDS = ("date", "datetime", "date_time", "timestamp", "time")  # a column of dates that isn't the first
END_WORDS = ("stamp", "end", "ends")
BESIDE_STEPS = ("begin", "begins", *END_WORDS)  # what a column of timesteps makes needless
RDB_WIDTH = re.compile(r"[0-9]+[snd]")  # the second line of a table of the USGS: how wide each column is
OTHER_FORMS = {  # by the first bytes of a file
    b"PK\x03\x04": "an Excel or OpenDocument workbook",
    b"\xd0\xcf\x11\xe0": "an old Excel workbook",
    b"CDF": "a NetCDF file",
    b"\x89HDF": "a NetCDF or HDF5 file",
    b"PAR1": "a Parquet file",
    b"SQLite format 3": "an SQLite database",
    b"<?xml": "XML, such as WaterML",
    b"ZDSS": "an HEC-DSS file",
}
Factor = Callable[[int], Fraction | int]  # of a timestep: how many base units one of a unit is
BATCH, LONG_FORM = "batch", ("slot", "unit", "value")  # as `tools/table` writes them


class Lasting(Protocol):
    """Timesteps of which it is known how long they are."""

    step: str

    def seconds(self, number: int, /) -> int:
        """How long one is."""
        ...


@dataclass
class Sheet:
    """A table of texts: its headings, and its rows with their numbers as a spreadsheet counts them."""

    headings: list[str]
    rows: list[tuple[int, list[str]]]  # pairs of a number and a list of texts
    comma: bool  # whether decimals have a comma


def decoded(content: bytes) -> str:
    """The text of a file of a spreadsheet: UTF-8, UTF-16 with its mark, or else Windows' Western letters."""
    if content[:2] in (b"\xff\xfe", b"\xfe\xff"):
        return content.decode("utf-16", "replace")
    try:
        return content.decode("utf-8-sig")
    except UnicodeDecodeError:
        return content.decode("cp1252", "replace")


def other_form(content: bytes) -> str:
    """Returns what a file is that is not a table as text, or ""."""
    return next((name for mark, name in OTHER_FORMS.items() if content.startswith(mark)), "")


def read_sheet(text: str) -> Sheet:
    """The table of a text with commas, semicolons or tabs between its fields. `ValueError` if it is empty.

    Lines that begin with # are comments, and the line of column widths in a table of the USGS is skipped.
    """
    comments = re.match(r"(?:#[^\n]*\n)*", text)
    front = comments[0] if comments else ""
    text = "#\n" * front.count("\n") + text[len(front) :]  # so that rows are counted as a spreadsheet counts them
    first = next((line for line in text.splitlines() if line.strip("# ")), "")
    named = re.fullmatch(r"sep=(.)", first.strip())
    bare = re.sub(r'"[^"]*"', "", first)
    delimiter = named[1] if named else max(";\t,", key=bare.count)
    reader = csv.reader(io.StringIO(text, newline=""), delimiter=delimiter)
    try:
        rows = [(number, row) for number, row in enumerate(reader, 1) if any(field.strip() for field in row)]
    except csv.Error as error:
        raise ValueError(f"this is not a table: {error}") from None
    rows = [(number, row) for number, row in rows if row != ["#"]]
    if named:
        rows = rows[1:]
    if len(rows) > 1 and all(RDB_WIDTH.fullmatch(field.strip()) for field in rows[1][1]):
        del rows[1]
    if not rows:
        raise ValueError("the table is empty")
    cells = [field.strip() for _, fields in rows[1:] for field in fields[1:]]
    comma = delimiter != "," and any("," in cell and DECIMAL.fullmatch(cell) for cell in cells)
    return Sheet([field.strip() for field in rows[0][1]], rows[1:], comma)


def of_batch(sheet: Sheet, batch: int | None) -> Sheet:
    """The rows of a batch, or of the last one, where a column names batches; that column is left out."""
    if BATCH not in sheet.headings:
        return sheet
    place = sheet.headings.index(BATCH)
    batches = [row[place].strip() for _, row in sheet.rows]
    wanted = batches[-1] if batch is None and batches else str(batch)
    rows = [(number, row[:place] + row[place + 1 :]) for (number, row), one in zip(sheet.rows, batches) if one == wanted]
    if not rows:
        raise ValueError(f"the table has no batch {wanted}")
    return Sheet(sheet.headings[:place] + sheet.headings[place + 1 :], rows, sheet.comma)


def of_long(sheet: Sheet) -> Sheet:
    """A table of one value a row, with its slot and its unit, as one with a column for each slot."""
    if not set(LONG_FORM) <= set(sheet.headings):
        return sheet
    slot, unit, value = (sheet.headings.index(word) for word in LONG_FORM)
    time = next((place for place, word in enumerate(sheet.headings) if word in STEP_WORDS), 0)
    columns: dict[str, int] = {}
    rows: dict[str, tuple[int, dict[int, str]]] = {}
    for number, row in sheet.rows:
        heading = f"{row[slot]} [{row[unit]}]" if row[unit] else row[slot]
        place = columns.setdefault(heading, len(columns) + 1)
        cells = rows.setdefault(row[time], (number, {0: row[time]}))[1]
        if place in cells:
            raise ValueError(f"row {number} gives {plain(heading)} at {plain(row[time])} again")
        cells[place] = row[value]
    whole = [(number, [cells.get(place, "") for place in range(len(columns) + 1)]) for number, cells in rows.values()]
    return Sheet([sheet.headings[time], *columns], whole, sheet.comma)


def slot_and_unit(heading: str) -> tuple[str | None, str | None]:
    """The slot and the unit that a heading names, as texts; `None` for what it doesn't name."""
    found = HEADING.fullmatch(heading.strip())
    if not found:
        return None, None
    parts = [part.replace(" ", "") for part in found["name"].strip().split(".")]  # Dam.Pool Elevation, as others write it
    is_slot = len(parts) == 2 and all(NAME.fullmatch(part) for part in parts)
    return (".".join(parts) if is_slot else None), found["unit"] and found["unit"].strip()


def factor_of(unit: str, slot_unit: str | None, timesteps: Lasting | None) -> Factor:
    """How many of the slot's base unit one of a heading's unit is, as a function of the timestep.

    Flows and rates are what comes in one timestep, so that m3/s counts by the timestep's length.
    `slot_unit` and `timesteps` are `None` where there is no model. `ValueError` says why a unit can't be
    that of the slot.
    """
    word = unit.replace("³", "3").replace("^", "").replace(" ", "")
    word = formats.RATES.get(word.lower(), word)
    first, slash, rest = word.partition("/")
    word = formats.SPELLINGS.get(first.lower(), first) + slash + rest
    whole, _, time = (word, "", "") if word in formats.AMOUNTS else word.partition("/")
    if whole not in formats.AMOUNTS:
        raise ValueError(unknown_unit(unit))
    base, factor = formats.AMOUNTS[whole]
    wanted = slot_unit.removesuffix("/step") if slot_unit is not None else base
    if base != wanted or (time and slot_unit is not None and not slot_unit.endswith("/step")):
        raise ValueError(f"[{unit}] is not what the slot measures, which is {slot_unit or 'a plain number'}")
    if time in ("", "step"):
        return lambda step: factor
    if not timesteps:
        raise ValueError(f"[{unit}] needs --model, since the length of a timestep is not known")
    if time == "month" and timesteps.step == "1month":
        return lambda step: factor
    if time not in formats.SECONDS:
        raise ValueError(unknown_unit(unit))
    seconds = timesteps.seconds
    return lambda step: factor * seconds(step) / formats.SECONDS[time]


def unknown_unit(unit: str) -> str:
    """What is told of a unit that isn't known: which ones are."""
    amounts = ", ".join(word for word in formats.AMOUNTS if word)
    times = ", ".join(f"/{time}" for time in (*formats.SECONDS, "step"))
    return (
        f"this tool does not know the unit [{unit}]. It knows {amounts}, a flow or a rate with {times} after it"
        f" (/month in a model of months), and {' and '.join(formats.RATES)}"
    )


def number_of(text: str, comma: bool) -> Fraction | int:
    """The number that a cell spells, exactly. `ValueError` says why it is none."""
    bare = text.strip().replace("\u2212", "-")
    if WHOLE.fullmatch(bare):
        return int(bare)
    if len(bare) > MOST_DIGITS:
        raise ValueError(f"{shown(text)} has more than {MOST_DIGITS:,} letters")
    if not DECIMAL.fullmatch(bare):
        raise ValueError(f"{shown(text)} is not a number (thousands separators are not accepted)")
    if "," in bare and not comma:
        raise ValueError(f"{shown(text)} has a comma: is it a decimal comma, or a thousands separator?")
    if "." in bare and comma:
        raise ValueError(
            f"{shown(text)} has a point, and other cells have decimal commas: is it a thousands separator?"
        )
    return Fraction(Decimal(bare.replace(",", ".")))


def rounded(exact: Fraction | int) -> int:
    """A number rounded to a whole one, a half up."""
    if isinstance(exact, int):
        return exact
    return (exact + Fraction(1, 2)) // 1


def moment_in(text: str) -> datetime | None:
    """The moment that a cell spells, or `None`."""
    midnight = re.fullmatch(r"(.*[ T])24:?00(?::00)?", text)
    if not midnight:
        return moment_without_24(text)
    day = moment_without_24(midnight[1].rstrip(" T"))
    return day + timedelta(days=1) if day and day < LAST_DAY else None


def moment_without_24(text: str) -> datetime | None:
    """Returns the same for a cell without the time 24:00."""
    for form in DATES:
        try:
            return datetime.strptime(text, form)
        except ValueError:
            pass
    return named_moment(text)


def named_moment(text: str) -> datetime | None:
    """The moment of a date with an English month's name: 01-Oct-2020, Oct 1, 2020, 01Oct2020 06:00."""
    found = NAMED_DATE.fullmatch(text)
    if not found or found[2].lower() not in MONTHS or (found[1] and found[3]):
        return None
    day = int(found[1] or found[3] or 1)
    try:
        return datetime(int(found[4]), MONTHS.index(found[2].lower()) + 1, day, int(found[5] or 0), int(found[6] or 0))
    except ValueError:
        return None


def steps_in(text: str, heading: str, timesteps: Timesteps | None) -> tuple[int, int]:
    """The first and last timestep that a cell of the column of timesteps or dates names. `ValueError` says
    why none.

    A date is the beginning of a timestep, or its end where the heading is `stamp` or `end`.
    """
    bare = text.strip()
    word = heading.lower()
    steps = steps_of(bare) if word in STEP_WORDS or bare.isdigit() else None
    if steps:
        last = timesteps.count if timesteps else formats.MOST_STEPS
        if not 1 <= steps[0] <= steps[1] <= last:
            raise ValueError(f"{shown(text)} is not a timestep of the run, which has 1 to {last}")
        return steps
    moment = moment_in(bare)
    if not moment:
        hint = ": 01/02/2020 can mean two dates, so write 2020-02-01 or 01.02.2020" if "/" in bare else ""
        raise ValueError(f"{shown(text)} is neither a timestep nor a date{hint}")
    if not timesteps:
        raise ValueError(f"{plain(bare)} is a date: give --model, which converts dates to timesteps")
    return (step_at(moment, word in END_WORDS, timesteps),) * 2


def is_outside(text: str, timesteps: Timesteps | None) -> bool:
    """Whether a cell has a date before the run or behind it."""
    moment = moment_in(text.strip())
    return bool(moment and timesteps and not timesteps.begin(1) <= moment < timesteps.end(timesteps.count))


def step_at(moment: datetime, is_end: bool, timesteps: Timesteps) -> int:
    """The timestep that begins, or ends, at a moment. `ValueError` tells the nearest where none does."""
    number = timesteps.beginning_at(moment)
    if is_end:
        number = (
            (number or timesteps.count + 1) - 1
            if number or moment == timesteps.end(timesteps.count)
            else None
        )
    if number:
        return number
    near = timesteps.last_begun(moment)
    at = timesteps.end(near) if is_end else timesteps.begin(near)
    verb = "ends" if is_end else "begins"
    raise ValueError(
        f"{moment.isoformat(' ', 'minutes')}: no timestep {verb} then; timestep {near} {verb} {stamp_of(at)}"
    )
