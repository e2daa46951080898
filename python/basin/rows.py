"""Frames as rows of inputs, of edits and of traces. Nothing is rounded: what is not whole is refused."""

from __future__ import annotations

import re
from numbers import Real
from typing import Any, Hashable, Iterable, Iterator, Mapping, NamedTuple

import numpy as np
import numpy.typing as npt
import pandas as pd

from basin_files.reasons import plain
from basin_files.sections import SLOT

from .files import Model
from .tables import EXACT, UNKNOWN, Whole

MOST: int = np.iinfo(np.int64).max
STEPS = re.compile(r"[0-9]+(?:-[0-9]+)?")
Batches = dict[str, "list[Row]"]  # by the name of a batch or trace


class Row(NamedTuple):
    """A row: a slot, the first and the last timestep, and a value; `None` takes away what is given."""

    slot: str
    first: int
    last: int
    value: int | None

    @property
    def text(self) -> str:
        """Returns the row as a file of inputs has it."""
        steps = str(self.first) if self.first == self.last else f"{self.first}-{self.last}"
        return f"{self.slot},{steps},{'' if self.value is None else self.value}"


def slot_name(name: Hashable) -> str:
    """Returns a name that a slot can have. Any other heading of a frame is refused, and never written into a row."""
    if not isinstance(name, str) or not SLOT.fullmatch(name):
        raise ValueError(f"{plain(str(name))} is not a slot: write Object.Slot")
    return name


def step_number(model: Model, time: Any) -> int:
    """Returns the number of a timestep, by its number or by the moment at which it begins."""
    if isinstance(time, Real) and not isinstance(time, (bool, np.bool_)) and time == time // 1:
        return int(time)
    try:
        moment = pd.NaT if isinstance(time, Real) else pd.Timestamp(time)
    except ValueError:
        moment = pd.NaT
    if moment is pd.NaT:
        raise ValueError(f"{plain(str(time))} is neither a timestep nor a moment")
    number = None if moment.tz else model.timesteps.beginning_at(moment.to_pydatetime(warn=False))
    if number is None:
        raise ValueError(f"no timestep begins at {moment}")
    return int(number)


def steps_of(model: Model, time: Any) -> tuple[int, int]:
    """Returns the first and the last timestep that a number, a text such as 3-5, or a moment names."""
    if isinstance(time, str) and STEPS.fullmatch(time):
        first, _, last = time.partition("-")
        return int(first), int(last or first)
    number = step_number(model, time)
    return number, number


def whole(value: Any, where: str) -> int:
    """Returns a value as a whole number. Raises `ValueError` where it is not one, or may have been rounded before."""
    if isinstance(value, (float, np.floating)) and not -EXACT <= value <= EXACT:
        raise ValueError(f"{where}: {value} is beyond 2^53 and not exact as a float: give whole numbers")
    number = int(value)
    if number != value or isinstance(value, (bool, np.bool_)):
        raise ValueError(f"{where}: {value} is not a whole number of base units (round it first)")
    return number


def whole_of_64(value: Any, where: str) -> int:
    """Returns a value as a whole number of at most 64 bits."""
    number = whole(value, where)
    if not -MOST <= number <= MOST:
        raise ValueError(f"{where}: {number} is beyond 64 bits")
    return number


def whole_series(column: pd.Series, where: str, steps: npt.NDArray[np.int64]) -> Whole:
    """Returns a column's values as whole numbers, `UNKNOWN` where there is none."""
    known = column.notna().to_numpy()
    found = np.full(len(column), UNKNOWN)
    if pd.api.types.is_integer_dtype(column.dtype):
        held = column[known]
        for place in np.flatnonzero(held > MOST)[:1]:
            whole_of_64(held.iloc[place], f"{where} at timestep {steps[known][place]}")
        found[known] = held.to_numpy(np.int64)
    elif pd.api.types.is_float_dtype(column.dtype):
        floats = column.to_numpy(np.float64, na_value=np.nan)
        wrong = known & ((floats != np.floor(floats)) | (np.abs(floats) > EXACT))
        for place in np.flatnonzero(wrong)[:1]:
            whole(floats[place], f"{where} at timestep {steps[place]}")
        found[known] = floats[known].astype(np.int64)
    else:
        for place in np.flatnonzero(known):
            found[place] = whole_of_64(column.iloc[place], f"{where} at timestep {steps[place]}")
    return found


def folded(slot: str, steps: npt.NDArray[np.int64], values: Whole) -> Iterator[Row]:
    """Rows of what is known of a series; neighbours with one value are one row."""
    known = values != UNKNOWN
    steps, values = steps[known], values[known]
    if not len(steps):
        return
    begins = np.flatnonzero((np.diff(steps) != 1) | (np.diff(values) != 0)) + 1
    firsts, lasts = np.r_[0, begins], np.r_[begins, len(steps)] - 1
    for first, last, value in zip(steps[firsts].tolist(), steps[lasts].tolist(), values[firsts].tolist()):
        yield Row(slot, first, last, value)


def steps_of_index(model: Model, index: pd.Index) -> npt.NDArray[np.int64]:
    """Returns the timesteps of a frame's rows, which are numbered or named by the moments at which they begin."""
    if isinstance(index, pd.PeriodIndex):
        index = index.to_timestamp()
    if pd.api.types.is_integer_dtype(index.dtype):
        return np.asarray(index, dtype=np.int64)
    if not isinstance(index, pd.DatetimeIndex):
        return np.array([step_number(model, time) for time in index], dtype=np.int64)
    places = model.index().get_indexer(index)
    if (places < 0).any():
        raise ValueError(f"no timestep begins at {index[places < 0][0]}")
    return np.asarray(places + 1, dtype=np.int64)


def wide_rows(model: Model, frame: pd.DataFrame) -> Iterator[Row]:
    """Yields the rows of a frame with timesteps by rows and slots by columns; what is not known has none."""
    steps = steps_of_index(model, frame.index)
    for place, name in enumerate(frame.columns):
        slot = slot_name(name)
        yield from folded(slot, steps, whole_series(frame.iloc[:, place], slot, steps))


def long_rows(model: Model, frame: pd.DataFrame, word: str) -> Batches:
    """Returns the rows by batch or trace of a frame in the form of the file: its name, slot, step or time, and value."""
    if frame.shape[1] != 4:
        raise ValueError(f"the frame must have four columns: {word}, slot, step or time, and value")
    found: Batches = {}
    for name, slot, time, value in frame.itertuples(index=False):
        first, last = steps_of(model, time)
        number = None if pd.isna(value) else whole(value, f"{word} {plain(str(name))}, {plain(str(slot))}")
        found.setdefault(str(name), []).append(Row(slot_name(slot), first, last, number))
    return found


def batches_of(model: Model, given: Any, word: str) -> Batches:
    """Rows by name of what is given: a frame in the file's form, or frames with slots by columns, named or in a row."""
    if isinstance(given, pd.DataFrame):
        return long_rows(model, given, word)
    named = given.items() if isinstance(given, Mapping) else enumerate(given, 1)
    found: Batches = {}
    for name, frame in named:
        if str(name) in found:
            raise ValueError(f"{word} {plain(str(name))} is given twice")
        found[str(name)] = list(wide_rows(model, frame))
    return found


def batches_text(batches: Iterable[list[Row]], word: str) -> str:
    """Returns the file of edits or traces that these rows make, numbered from 1 on."""
    lines = []
    for number, rows in enumerate(batches, 1):
        if not rows:
            raise ValueError(f"{word} {number} has no value, which a file cannot express")
        lines += [f"{number},{row.text}\n" for row in rows]
    return f"{word},slot,step,value\n" + "".join(lines)
