"""Converts tables from base units to other units and back, with the factors of `tools/table` and `tools/inputs`."""

from __future__ import annotations

from typing import Mapping, Union

import numpy as np
import numpy.typing as npt
import pandas as pd

from basin_files.wide import factor_of

from .files import Model
from .process import PathLike
from .rows import slot_name, steps_of_index

Floats = npt.NDArray[np.float64]


def in_units(model: Model | PathLike, table: pd.DataFrame, *units: str) -> pd.DataFrame:
    """Returns the table with each column in the first of these units that fits it: "m3/s", "Mm3", "m", "cfs", "acre-ft".

    A rate, such as m3/s, is computed with the length of each timestep, so that months are right. A column that none of
    them fits stays in its base unit. `attrs["units"]` has the unit of each column.
    """
    told, found = Model.of(model), table.astype(np.float64)
    steps, names = steps_of_index(told, table.index), dict(table.attrs.get("units", {}))
    for slot in table.columns:
        for unit in units:
            try:
                factors = _factors(told, slot, unit, steps)
            except ValueError as error:
                if "is not what the slot measures" not in str(error):
                    raise
                continue
            found[slot], names[slot] = found[slot] / factors, unit
            break
    found.attrs = {**table.attrs, "units": names}
    return found


def in_base_units(
    model: Model | PathLike, frame: pd.DataFrame, units: Union[str, Mapping[str, str]]
) -> pd.DataFrame:
    """Returns a frame for inputs, edits or traces, from values in these units: by slot, or one for all. Rounds half up."""
    told, steps = Model.of(model), steps_of_index(Model.of(model), frame.index)
    found = {}
    for slot in frame.columns:
        unit = units if isinstance(units, str) else units.get(slot)
        values = frame[slot].astype(np.float64)
        found[slot] = values if unit is None else np.floor(values * _factors(told, slot, unit, steps) + 0.5)
    return pd.DataFrame(found, index=frame.index)


def _factors(model: Model, slot: str, unit: str, steps: npt.NDArray[np.int64]) -> Floats:
    """Returns the factor from a unit to the base unit of a slot, at each of these timesteps."""
    factor = factor_of(unit, model.unit(slot_name(slot)), model.timesteps)
    return np.array([float(factor(step)) for step in steps.tolist()])
