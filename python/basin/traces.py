"""Traces of an ensemble, from frames, an xarray Dataset or a NetCDF file, and as a plan keeps them.

Series go to one NetCDF file, of which each part reads its own; rows of frames to a file of text a part.
"""

from __future__ import annotations

import contextlib
import os
from dataclasses import dataclass
from pathlib import Path
from typing import TYPE_CHECKING, Any, Iterator, Protocol

import netCDF4
import numpy as np
import numpy.typing as npt
import pandas as pd

from basin_files.inputs import records_of, steps_named
from basin_files.reasons import plain

from .files import Model
from .netcdf import UNITS, opened
from .rows import Row, batches_of, batches_text, folded, slot_name, steps_of_index, whole_series
from .tables import UNKNOWN, Whole

if TYPE_CHECKING:
    import xarray

SERIES = "traces.nc"
PACKED = ("scale_factor", "add_offset")
FILLS = ("_FillValue", "missing_value")


class Traces(Protocol):
    """Traces by name, which a plan writes part by part."""

    names: list[str]

    def store(self, folder: Path, parts: list[slice]) -> Iterator[bytes]:
        """Writes them into a folder, and yields what is to be digested of them."""


@dataclass
class Rows:
    """Traces as rows, each with few of them."""

    names: list[str]
    rows: list[list[Row]]

    def store(self, folder: Path, parts: list[slice]) -> Iterator[bytes]:
        """Yields a text a part, in the form of the program's file of traces."""
        (folder / "traces").mkdir()
        for number, some in enumerate(parts):
            text = batches_text(self.rows[some], "trace").encode()
            rows_path(folder, number).write_bytes(text)
            yield text


@dataclass
class Series:
    """Traces as series: a Dataset with the dimensions trace and time, and a variable for each slot."""

    names: list[str]
    data: xarray.Dataset
    model: Model

    def store(self, folder: Path, parts: list[slice]) -> Iterator[bytes]:
        """One file with whole numbers by trace and timestep, written part by part."""
        steps = steps_of_index(self.model, self.data.indexes["time"])
        slots = [self.checked(name) for name in self.data.data_vars if self.is_series(name)]
        if not slots:
            raise ValueError("no variable of the traces has the dimensions trace and time")
        with netCDF4.Dataset(folder / SERIES, "w") as out:
            out.createDimension("trace", len(self.names))
            out.createDimension("step", len(steps))
            out.createVariable("step", "i8", ("step",))[:] = steps
            held = {
                slot: out.createVariable(slot, "i8", ("trace", "step"), fill_value=UNKNOWN) for slot in slots
            }
            for some in parts:
                for slot, cells in held.items():
                    values = self.values(slot, some, steps)
                    cells.set_auto_mask(False)
                    cells[some] = values
                    yield slot.encode() + steps.tobytes() + values.tobytes()

    def is_series(self, name: Any) -> bool:
        """Returns whether a variable has the dimensions trace and time."""
        return set(self.data[name].dims) == {"trace", "time"}

    def checked(self, name: Any) -> str:
        """Returns the slot of that name, in its base unit and not packed."""
        slot = slot_name(name)
        attributes = self.data[slot].attrs
        unit = self.model.unit(slot)
        said = attributes.get("basin_unit", attributes.get("units"))
        if said is not None and said not in (unit, UNITS.get(unit, unit)):
            raise ValueError(
                f"{slot} is in {plain(str(said))}, but must be in its base unit, {unit or 'none'}"
            )
        if any(word in attributes for word in PACKED):
            raise ValueError(f"{slot} is packed by scale_factor or add_offset: unpack it first")
        return slot

    def values(self, slot: str, some: slice, steps: npt.NDArray[np.int64]) -> Whole:
        """Returns the whole numbers of some traces."""
        held = self.data[slot].transpose("trace", "time")[some].load()
        lacking = np.zeros(held.shape, bool)
        for word in FILLS:
            if word in held.attrs:
                lacking |= held.values == held.attrs[word]
        found = np.empty(held.shape, np.int64)
        for place, (row, none) in enumerate(zip(held.values, lacking)):
            where = f"trace {plain(self.names[some.start + place])}, {slot}"
            found[place] = whole_series(pd.Series(np.where(none, 0, row)), where, steps)
        found[lacking] = UNKNOWN
        return found


@contextlib.contextmanager
def traces_of(model: Model, given: Any) -> Iterator[Traces]:
    """The traces that are given: the path of a NetCDF file, a Dataset, a frame in the form of the file, or frames
    with slots by columns, by name or in a row."""
    if isinstance(given, (str, os.PathLike)):
        import xarray

        with xarray.open_dataset(given, mask_and_scale=False) as data:  # so that whole numbers stay whole
            yield series_of(model, data)
    elif hasattr(given, "data_vars"):
        yield series_of(model, given)
    else:
        named = batches_of(model, given, "trace")
        yield Rows(list(named), list(named.values()))


def series_of(model: Model, data: xarray.Dataset) -> Series:
    """Returns the series of a Dataset, by the names of its traces, or by number where they have none."""
    if not {"trace", "time"} <= set(data.dims):
        raise ValueError("traces have the dimensions trace and time")
    count = data.sizes["trace"]
    names = [str(name) for name in (data["trace"].values if "trace" in data.coords else range(1, count + 1))]
    if len(set(names)) < len(names):
        raise ValueError("two traces have the same name")
    return Series(names, data, model)


def rows_path(folder: Path, number: int) -> Path:
    """Returns where the rows of a part are."""
    return folder / f"traces/{number:05}.csv"


def stored_rows(folder: Path, number: int, first: int, count: int) -> list[list[Row]]:
    """Returns the rows of each trace of a part, after the `first` traces before it."""
    if (folder / SERIES).exists():
        return series_rows(folder / SERIES, slice(first, first + count))
    found: list[list[Row]] = [[] for _ in range(count)]
    records = records_of(rows_path(folder, number).read_bytes())
    next(records)
    for _, (trace, slot, steps, value) in records:
        low, high = steps_named(steps)
        found[int(trace) - 1].append(Row(slot, low, high, int(value) if value else None))
    return found


def series_rows(path: Path, some: slice) -> list[list[Row]]:
    """Returns the rows of some traces of the file of series."""
    found: list[list[Row]] = [[] for _ in range(some.stop - some.start)]
    with opened(path) as data:
        steps = data["step"][:]
        for slot, cells in data.variables.items():
            if slot != "step":
                for rows, values in zip(found, cells[some]):
                    rows += folded(slot, steps, values)
    return found
