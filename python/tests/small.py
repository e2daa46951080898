"""A small basin whose answers are reckoned by hand, and what tests share."""

from __future__ import annotations

from pathlib import Path

import numpy as np
import numpy.typing as npt
import pandas as pd
import pytest
import xarray

import basin
from basin import ensemble
from basin.process import has_command

TOP = Path(__file__).resolve().parents[2]
EXAMPLES = TOP / "examples"
VALLEY = [EXAMPLES / f"valley-rules/{name}" for name in ("model.toml", "policy.rpl", "inputs.csv")]

# A dam above a gage. What flows in flows out, but for the first 5 m3 of a day.
STEPS = 40
MODEL = f"""format = 1
[run]
start = "2020-01-01T00:00"
step = "24h"
steps = {STEPS}
[[object]]
name = "Dam"
kind = "reservoir"
initial_storage = 1000
[[object]]
name = "Below"
kind = "gage"
[[link]]
slots = ["Dam.Outflow", "Below.GageInflow"]
"""
RULES = 'RULE "let out": Dam.Outflow[t] := Max(Dam.Inflow[t] - 5 "m3/step", 0 "m3/step"); ENDRULE\n'
INPUTS = f"slot,step,value\nDam.Inflow,1-{STEPS},9\n"
SLOTS = ["Dam.Storage", "Dam.Outflow"]

Cells = npt.NDArray[np.int64]


def model(text: str = MODEL) -> basin.Model:
    """The basin, or one of that text."""
    return basin.Model(text=text)


def policy(text: str = RULES) -> basin.Policy:
    """The rule, or rules of that text."""
    return basin.Policy(text=text)


def inputs(text: str = INPUTS) -> basin.Inputs:
    """An inflow of 9 each day, or inputs of that text."""
    return basin.Inputs(text=text)


def inflows(count: int, steps: int = STEPS, seed: int = 1) -> Cells:
    """Inflows of 0 to 49 by trace and day."""
    return np.random.default_rng(seed).integers(0, 50, (count, steps))


def outflow(inflow: Cells) -> Cells:
    """What the rule lets out."""
    return np.maximum(inflow - 5, 0)


def storage(inflow: Cells) -> Cells:
    """What stays in the dam: up to 5 m3 of each day."""
    return 1000 + np.minimum(inflow, 5).cumsum(axis=-1)


def series(inflow: Cells) -> xarray.Dataset:
    """Traces with these inflows, named by years."""
    names = [f"y{1900 + number}" for number in range(len(inflow))]
    time = model(MODEL.replace(f"steps = {STEPS}", f"steps = {inflow.shape[1]}")).index()
    return xarray.Dataset({"Dam.Inflow": (("trace", "time"), inflow)}, {"trace": names, "time": time})


def rows(*given: tuple[object, ...]) -> pd.DataFrame:
    """Traces as rows: trace, slot, step, value."""
    return pd.DataFrame(given, columns=["trace", "slot", "step", "value"])


def planned(folder: Path, inflow: Cells, **more: object) -> ensemble.Plan:
    """The plan of an ensemble with these inflows."""
    return ensemble.plan(folder, model(), policy(), inputs(), series(inflow), slots=SLOTS, **more)


def cells_of(told: ensemble.Plan, slot: str) -> npt.NDArray[np.float64]:
    """All values of a slot by trace and timestep."""
    with ensemble.values(told) as data:
        return data[slot].values


def wants(command: str, files: int) -> None:
    """Skips the test where the program hasn't the command."""
    if not has_command(command, files):
        pytest.skip(f"the program has no {command}")
