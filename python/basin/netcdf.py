"""NetCDF files by the CF conventions: the axis of time, units, and the value for an unknown one.

A file is opened only in a `with` statement: netCDF4 is not safe where the garbage collector closes one.
"""

from __future__ import annotations

import contextlib
import os
import secrets
import shutil
from dataclasses import dataclass
from functools import lru_cache
from pathlib import Path
from typing import Any, Iterable, Iterator

import netCDF4
import numpy as np
import pandas as pd

from basin_files.reasons import LONG, plain

from .errors import Error
from .files import Model
from .tables import UNKNOWN, Whole

CONVENTIONS = "CF-1.10"
LITTLE = 65_536  # a disk with fewer free bytes counts as full
# Base units in the words of UDUNITS, which has no timestep: what comes in one is a sum over it.
UNITS = {"m3/step": "m3", "mm/step": "mm", "m3/mm": "m3 mm-1", "kWh": "kW h", "step": "1", "": "1"}
SUMS = ("m3/step", "mm/step", "kWh")
STATES = ("m3", "mm")
AT_THE_END = "time: point (comment: at the end of the timestep)"


def host() -> str:
    """Returns where a number names one process: the machine, and which of its spaces of numbers, since containers that
    share a folder may have one name."""
    try:
        return f"{os.uname().nodename}-{os.stat('/proc/self/ns/pid').st_ino}"
    except OSError:
        return os.uname().nodename


@contextlib.contextmanager
def appearing(path: Path) -> Iterator[Any]:
    """A new file that is there whole, or not at all."""
    new = path.with_name(f".{path.name}.{secrets.token_hex(4)}.{host()}.{os.getpid()}")
    try:
        new.touch()  # on a full disk the system says so; the NetCDF library says `Permission denied` or `HDF error`
        with netCDF4.Dataset(new, "w") as out:
            out.Conventions, out.source = CONVENTIONS, "basin"
            yield out
        os.replace(new, path)
    except (OSError, RuntimeError) as error:
        if shutil.disk_usage(path.parent).free >= LITTLE:
            raise
        raise Error(f"cannot write {plain(str(path), LONG)}: the disk is full") from error
    finally:
        new.unlink(missing_ok=True)


@contextlib.contextmanager
def opened(path: Path) -> Iterator[Any]:
    """Opens a file whose whole numbers are read as they are, with `UNKNOWN` where nothing is known."""
    with netCDF4.Dataset(path) as data:
        data.set_auto_mask(False)
        yield data


def add_time(out: Any, model: Model) -> None:
    """The axis of time: the begin of each timestep, with its begin and end as bounds."""
    told = axis_of(model)
    out.createDimension("time", len(told.bounds))
    out.createDimension("bound", 2)
    axis = out.createVariable("time", "i8", ("time",))
    axis.units, axis.calendar = told.units, "proleptic_gregorian"
    axis.standard_name, axis.axis, axis.long_name = "time", "T", "begin of the timestep"
    axis.bounds = "time_bounds"
    axis[:] = told.bounds[:, 0]
    out.createVariable("time_bounds", "i8", ("time", "bound"))[:] = told.bounds


@dataclass(frozen=True)
class Axis:
    """The begin and the end of each timestep, and in which units."""

    units: str
    bounds: Whole


@lru_cache(maxsize=1)
def axis_of(model: Model) -> Axis:
    """Returns the axis of a model's run, which is made once for all parts."""
    index = model.index()
    bounds = np.stack([hours(moments, index[0]) for moments in (index, model.ends())], axis=1)
    return Axis(f"hours since {index[0]:%Y-%m-%d %H:%M}", bounds)


def hours(moments: pd.DatetimeIndex, start: pd.Timestamp) -> Whole:
    """Returns how many hours after the start moments are."""
    return np.asarray((moments - start) // pd.Timedelta("1h"), dtype=np.int64)


def add_texts(out: Any, name: str, texts: Iterable[str], long_name: str = "") -> None:
    """A text for each trace."""
    held = out.createVariable(name, str, ("trace",))
    held[:] = np.array(list(texts), dtype=object)
    if long_name:
        held.long_name = long_name


def add_whole(out: Any, name: str, dimensions: tuple[str, ...], model: Model, slot: str) -> Any:
    """Returns a variable of whole numbers in a slot's base unit, with CF's words for it."""
    cells = out.createVariable(name, "i8", dimensions, fill_value=UNKNOWN)
    cells.set_auto_mask(False)
    describe(cells, model, slot)
    return cells


def describe(cells: Any, model: Model, slot: str) -> None:
    """Returns units and cell methods of a slot's values. For a slot of a data object the method is not known."""
    unit = model.unit(slot)
    cells.long_name, cells.basin_unit, cells.units = slot, unit, UNITS.get(unit, unit)
    if model.read.the_object(slot.split(".")[0]).kind != "data":
        if unit in SUMS:
            cells.cell_methods = "time: sum"
        elif unit in STATES:
            cells.cell_methods = AT_THE_END
