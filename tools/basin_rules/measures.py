"""What values are: their types, and what numbers measure."""

from __future__ import annotations

from dataclasses import dataclass

GREATEST_POWER = 6  # of a unit, and least its negative
Measure = tuple[int, int, int, int]
PLAIN = (0, 0, 0, 0)  # the powers of m3, mm, timestep and kWh
VOLUME, LENGTH, TIMESTEP, FLOW = (1, 0, 0, 0), (0, 1, 0, 0), (0, 0, 1, 0), (1, 0, -1, 0)
BASES = ("m3", "mm", "step", "kWh")

# Each unit of docs/LANGUAGE.md: what is measured in it, and how many base units it is.
UNITS = {
    "m3": (VOLUME, 1),
    "dam3": (VOLUME, 1_000),
    "Mm3": (VOLUME, 1_000_000),
    "mm": (LENGTH, 1),
    "m": (LENGTH, 1_000),
    "step": (TIMESTEP, 1),
    "m3/step": (FLOW, 1),
    "dam3/step": (FLOW, 1_000),
    "mm/step": ((0, 1, -1, 0), 1),
    "m3/mm": ((1, -1, 0, 0), 1),
    "kWh": ((0, 0, 0, 1), 1),
    "": (PLAIN, 1),
}


def times(one: Measure, other: Measure) -> Measure:
    """What a product measures."""
    return one[0] + other[0], one[1] + other[1], one[2] + other[2], one[3] + other[3]


def per(one: Measure, other: Measure) -> Measure:
    """What a quotient measures."""
    return one[0] - other[0], one[1] - other[1], one[2] - other[2], one[3] - other[3]


def is_measure(powers: Measure) -> bool:
    """Whether each power is one that a number can have."""
    return all(-GREATEST_POWER <= power <= GREATEST_POWER for power in powers)


def unit_words(powers: Measure) -> str:
    """What is measured, in base units: `m3/step`, `m3^2`, `1/step`; "" for a plain number."""
    above = [word if power == 1 else f"{word}^{power}" for word, power in zip(BASES, powers) if power > 0]
    below = [word if power == -1 else f"{word}^{-power}" for word, power in zip(BASES, powers) if power < 0]
    return "/".join([" ".join(above) or ("1" if below else ""), *below])


@dataclass(frozen=True)
class Type:
    """A type: a `number`, `truth`, `date`, `slot`, `numbers` or `slots`; what it measures, and how many at most."""

    sort: str
    measure: Measure = PLAIN
    most: int = 0

    @property
    def is_list(self) -> bool:
        """Whether it is a list."""
        return self.sort in ("numbers", "slots")

    @property
    def size(self) -> int:
        """How many words a value takes: a list one for each item that it has room for, and one more."""
        return self.most + 1 if self.is_list else 1

    @property
    def item(self) -> Type:
        """The type of a list's items."""
        return Type("slot" if self.sort == "slots" else "number", self.measure)

    def list_of(self, most: int) -> Type:
        """A list of at most so many numbers or slots like this one."""
        return Type("slots" if self.sort == "slot" else "numbers", self.measure, most)

    def words(self) -> str:
        """The type for people to read."""
        unit = unit_words(self.measure)
        if self.sort == "number":
            return f"a number in {unit}" if unit else "a plain number"
        if self.sort in ("truth", "date"):
            return "a truth value" if self.sort == "truth" else "a date"
        of_unit = f" that measure{'s' if self.sort == 'slot' else ''} {unit}" if unit else " of plain numbers"
        if self.sort == "slot":
            return f"a slot{of_unit}"
        many = f"a list of at most {self.most:,}"
        if self.sort == "slots":
            return f"{many} slots{of_unit}"
        return f"{many} numbers in {unit}" if unit else f"{many} plain numbers"


NUMBER, TRUTH, DATE = Type("number"), Type("truth"), Type("date")
