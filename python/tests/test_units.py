"""Values in other units and back, against factors that are written out here."""

from __future__ import annotations

import numpy as np
import pandas as pd
import pytest

import basin

from small import MODEL, model

ACRE_FOOT = 43_560 * 0.3048**3  # m3
SECONDS = {"1h": 3_600, "6h": 21_600, "12h": 43_200, "24h": 86_400}
DAYS = [31, 28, 31, 30]  # January to April of 2021


def monthly() -> basin.Model:
    """The basin over four months of unequal length."""
    text = MODEL.replace("2020-01-01T00:00", "2021-01-01T00:00").replace('"24h"', '"1month"')
    return model(text.replace("steps = 40", "steps = 4"))


def frame(told: basin.Model, slot: str, values: list[float], steps: int) -> pd.DataFrame:
    """A column of these values, from the first timestep on."""
    return pd.DataFrame({slot: values}, index=told.index(steps))


@pytest.mark.parametrize("step", list(SECONDS))
def test_flows_go_by_the_length_of_a_timestep(step: str) -> None:
    told = model(MODEL.replace('"24h"', f'"{step}"'))
    flows = frame(told, "Dam.Inflow", [3.0 * SECONDS[step], 0.0], 2)
    assert basin.in_units(told, flows, "m3/s")["Dam.Inflow"].tolist() == [3.0, 0.0]
    back = basin.in_base_units(told, frame(told, "Dam.Inflow", [3.0, 0.0], 2), "m3/s")
    assert back["Dam.Inflow"].tolist() == [3.0 * SECONDS[step], 0.0]


def test_flows_of_months_go_by_the_days_of_each() -> None:
    told = monthly()
    wanted = [2.0 * 86_400 * days for days in DAYS]
    flows = basin.in_base_units(told, frame(told, "Dam.Inflow", [2.0] * 4, 4), "m3/s")
    assert flows["Dam.Inflow"].tolist() == wanted
    assert basin.in_units(told, flows, "m3/s")["Dam.Inflow"].tolist() == [2.0] * 4
    feet = basin.in_base_units(told, frame(told, "Dam.Inflow", [1000.0] * 4, 4), "cfs")
    assert feet["Dam.Inflow"].tolist() == [float(round(1000 * 0.3048**3 * 86_400 * days)) for days in DAYS]


def test_volumes_go_by_no_time() -> None:
    told = monthly()
    volumes = basin.in_base_units(told, frame(told, "Dam.Storage", [1000.0] * 4, 4), "acre-ft")
    assert volumes["Dam.Storage"].tolist() == [float(round(1000 * ACRE_FOOT))] * 4 == [1_233_482.0] * 4
    usual = basin.in_units(told, volumes, "m3/s", "Mm3")  # a rate doesn't fit a storage, so the second is used
    assert usual["Dam.Storage"].tolist() == pytest.approx([1.233482] * 4, rel=1e-12)
    assert usual.attrs["units"]["Dam.Storage"] == "Mm3"


def test_halves_are_rounded_up_and_gaps_stay() -> None:
    told = model()
    values = frame(told, "Dam.Storage", [0.5, 1.5, 2.4999, float("nan")], 4) / 1e6
    found = basin.in_base_units(told, values, "Mm3")["Dam.Storage"]
    assert found.tolist()[:3] == [1.0, 2.0, 2.0] and np.isnan(found.iloc[3])


def test_columns_without_a_unit_stay() -> None:
    told = model()
    both = frame(told, "Dam.Storage", [7.0], 1).assign(**{"Dam.Inflow": [1.0]})
    found = basin.in_base_units(told, both, {"Dam.Inflow": "m3/s"})
    assert found.iloc[0].tolist() == [7.0, 86_400.0]
    assert basin.in_units(told, both, "m")["Dam.Storage"].tolist() == [7.0]


def test_an_unknown_unit_is_refused_by_name() -> None:
    told = model()
    with pytest.raises(ValueError, match="furlong"):
        basin.in_units(told, frame(told, "Dam.Storage", [1.0], 1), "furlong")
    with pytest.raises(ValueError, match="furlong"):
        basin.in_base_units(told, frame(told, "Dam.Storage", [1.0], 1), "furlong")
