"""What a search varies: whole numbers of slots, of percents of inputs, or of frames, and the rows that they make."""

from __future__ import annotations

from dataclasses import dataclass
from functools import partial
from typing import Callable, Iterable, Iterator, Literal, Mapping, Sequence, Union

import numpy as np
import pandas as pd

from basin_files.inputs import read_inputs

from .calls import InputsGiven
from .files import Model
from .inputs import inputs_of
from .rows import Row, folded, slot_name, wide_rows
from .tables import Whole

By = Literal["run", "calendar month", "year"]


@dataclass(frozen=True)
class Range:
    """A slot that holds one whole number over the whole run, from `low` to `high`, in its base unit."""

    slot: str
    low: int
    high: int


@dataclass(frozen=True)
class Percent:
    """What the inputs give to a slot, in percent: one for the run, one for each month of the calendar, or for each year."""

    slot: str
    low: int
    high: int
    by: By = "run"


@dataclass(frozen=True)
class Choice:
    """One of several frames with timesteps by rows and slots by columns, such as the years of a record: by its place, from 0 on."""

    name: str
    frames: Sequence[pd.DataFrame]


@dataclass
class Knob:
    """One whole number that is varied, the rows that it makes, and a text of these that differs where they do."""

    name: str
    low: int
    high: int
    rows: Callable[[int], Iterable[Row]]
    text: str = ""


Given = Union[Range, Percent, Choice]
Space = Union[Mapping[str, "tuple[int, int]"], Sequence[Given]]


def knobs_of(model: Model, inputs: InputsGiven, space: Space) -> list[Knob]:
    """Returns what is varied, knob by knob."""
    listed = [Range(slot, *bounds) for slot, bounds in space.items()] if isinstance(space, Mapping) else space
    found: list[Knob] = []
    for one in listed:
        if isinstance(one, Range):
            found.append(of_range(model, one))
        elif isinstance(one, Percent):
            found += of_percent(model, inputs, one)
        else:
            found.append(of_choice(model, one))
    if not found:
        raise ValueError("nothing is varied")
    if len({knob.name for knob in found}) < len(found):
        raise ValueError("two knobs have one name")
    for knob in found:
        if not knob.low <= knob.high:
            raise ValueError(f"{knob.name}: from {knob.low} to {knob.high} is no range")
    return found


def of_range(model: Model, one: Range) -> Knob:
    """Returns the knob of a slot's value."""
    model.unit(slot_name(one.slot))
    return Knob(one.slot, one.low, one.high, lambda value: [Row(one.slot, 1, model.steps, value)])


def of_choice(model: Model, one: Choice) -> Knob:
    """Returns the knob of several frames."""
    rows = [list(wide_rows(model, frame)) for frame in one.frames]
    text = "".join(f"{place},{row.text}\n" for place, some in enumerate(rows) for row in some)
    return Knob(one.name, 0, len(rows) - 1, rows.__getitem__, text)


def of_percent(model: Model, inputs: InputsGiven, one: Percent) -> Iterator[Knob]:
    """Yields the knobs of what the inputs give to a slot. Percents are rounded down."""
    model.unit(slot_name(one.slot))
    cells = read_inputs(inputs_of(model, inputs).content, model.read).all_given(one.slot)
    steps = np.array(list(cells), dtype=np.int64)
    if not len(steps):
        raise ValueError(f"the inputs give nothing to {one.slot}, of which percents could be taken")
    values = np.array([cell.value for cell in cells.values()], dtype=np.int64)
    begins = model.index()[steps - 1]
    numbers = {"run": np.zeros(len(steps), np.int64), "calendar month": begins.month, "year": begins.year}
    keys = np.asarray(numbers[one.by])
    for key in dict.fromkeys(keys.tolist()):
        name = f"{one.slot} %" if one.by == "run" else f"{one.slot} % {key}"
        mine, given = steps[keys == key], values[keys == key]
        yield Knob(name, one.low, one.high, partial(percents, one.slot, mine, given), one.by)


def percents(slot: str, steps: Whole, given: Whole, value: int) -> Iterator[Row]:
    """Returns the rows of this percentage of the given values."""
    return folded(slot, steps, given * value // 100)
