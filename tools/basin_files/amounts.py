"""What slots hold over timesteps and periods, in units of choice: sums, means, percentiles, and what falls short."""

from collections.abc import Iterable
from dataclasses import dataclass, field
from fractions import Fraction
from math import ceil

from .model import Model
from .program import Unable
from .sections import Row
from .wide import Factor, Lasting, factor_of

SUMMED = ("m3/step", "mm/step", "kWh")  # what a timestep brings; all else is what holds at its end
WANTED = {"Diversion": "DiversionRequest", "Energy": "EnergyRequest"}  # what a slot falls short of


def measuring(units: list[str], base: str, timesteps: Lasting | None) -> tuple[str, Factor] | None:
    """The first of the units that measures what a base unit does, and how many base units one is at a timestep."""
    for unit in units:
        try:
            return unit, factor_of(unit, base, timesteps)
        except ValueError as error:
            if "is not what the slot measures" not in str(error):
                raise Unable(f"{error}") from None
    return None


@dataclass
class Column:
    """A slot as it is written: of these units in that one which measures it, or in its base unit."""

    slot: str
    model: Model
    units: list[str]
    of_periods: bool = False  # whether volumes of timesteps are summed
    unit: str = ""
    factors: dict[int, Fraction] = field(default_factory=dict)  # by timestep, where they are known already

    def __post_init__(self) -> None:
        self.base = self.unit = self.model.slots[self.slot].unit
        factor: Factor = lambda step: 1
        self.unit, self.factor = measuring(self.units, self.base, self.model.timesteps) or (self.base, factor)
        self.is_rate = self.unit.partition("/")[2] not in ("", "step")
        self.shown = self.unit.removesuffix("/step") if self.of_periods else self.unit

    @property
    def heading(self) -> str:
        """The heading of the column, as `tools/inputs` reads it."""
        return f"{self.slot} [{self.shown}]" if self.shown else self.slot

    def at(self, step: int) -> Fraction:
        """How many base units one of the column's unit is at a timestep."""
        if step not in self.factors:
            self.factors[step] = Fraction(self.factor(step))
        return self.factors[step]

    def exact(self, row: Row) -> Fraction | None:
        """What a row holds, in the column's unit."""
        value = row.values[self.slot]
        return None if value is None else Fraction(value) / self.at(row.step)

    def written(self, row: Row, places: int | None) -> str:
        """The same as a text; without a number of places with as many as the whole base units come back from."""
        exact = self.exact(row)
        if places is None:
            places = len(str(ceil(self.at(row.step)))) if self.at(row.step) > 1 else 0
        return "" if exact is None else decimal(exact, places)

    def of_period(self, rows: list[Row]) -> Fraction | None:
        """What it holds over a period: volumes summed, rates as their mean, all else as it ends the period."""
        values = [self.exact(row) for row in rows]
        if self.base not in SUMMED:
            return values[-1]
        known = [value for value in values if value is not None]
        if len(known) < len(values):
            return None
        return self.mean(rows) if self.is_rate else sum(known, Fraction())

    def mean(self, rows: list[Row]) -> Fraction:
        """The mean of values that are known: of rates by how long timesteps are, since months differ."""
        weights = [self.model.run.seconds(row.step) if self.is_rate else 1 for row in rows]
        values = (self.exact(row) for row in rows)
        parts = (value * weight for value, weight in zip(values, weights) if value is not None)
        return sum(parts, Fraction()) / sum(weights)


def decimal(exact: Fraction, places: int) -> str:
    """A number with so many places behind the point at most, a half to the even one."""
    whole = round(exact * 10**places)
    digits = f"{abs(whole):0{places + 1}d}"
    front, behind = digits[: len(digits) - places], digits[len(digits) - places :].rstrip("0")
    return f"{'-' * (whole < 0)}{front}" + (f".{behind}" if behind else "")


def percentile(values: Iterable[Fraction], percent: int) -> Fraction:
    """The least of the values that so many percent of them don't pass."""
    rising = sorted(values)
    return rising[max(ceil(Fraction(len(rising) * percent, 100)), 1) - 1]


@dataclass
class Shortage:
    """In how many timesteps a slot has less than is wanted, and how much less in all, in base units."""

    steps: int = 0
    short: int = 0


def wanted_by(model: Model, name: str) -> str | None:
    """The slot that tells what is wanted of a slot: of a user's diversion its request, of a plant's energy too."""
    slot = model.slots[name]
    thing = model.owner(slot)
    wanted = f"{slot.owner}.{WANTED.get(slot.name, '')}"
    return wanted if thing.kind in ("water_user", "power_reservoir") and wanted in model.slots else None


def shortage(rows: list[Row], name: str, wanted: str | int) -> Shortage:
    """By how much a slot falls short of another one, or of a number, where both are known."""
    found = Shortage()
    for row in rows:
        due = wanted if isinstance(wanted, int) else row.values[wanted]
        value = row.values[name]
        if due is not None and value is not None and value < due:
            found.steps += 1
            found.short += due - value
    return found
