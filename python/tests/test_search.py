"""Searches, on a small basin reckoned by hand."""

from __future__ import annotations

from pathlib import Path

import numpy as np
import pandas as pd
import pytest

import basin
from basin.fronts import indices, nondominated
from basin.search import Choice, Percent, Range, Study

from small import INPUTS, MODEL, STEPS, inputs, model, policy, wants

PLAN = '[[object]]\nname = "Plan"\nkind = "data"\nslots = [{ name = "Keep", unit = "m3/step" }, { name = "Least", unit = "m3/step" }]\n'
PLANNED = MODEL.replace("[[link]]", PLAN + "[[link]]")
RULES = 'RULE "let out": Dam.Outflow[t] := Max(Dam.Inflow[t] - Plan.Keep[t], Plan.Least[t]); ENDRULE\n'
GIVEN = f"{INPUTS}Plan.Keep,1-{STEPS},5\nPlan.Least,1-{STEPS},0\n"
REQUIRED = basin.Requirements(
    text="""
REQUIRE "fish" FAILS AT MOST 2: Dam.Outflow[t] >= 3 "m3/step";
MEASURE "out" SUM: Dam.Outflow[t];
MEASURE "stored" LAST: Dam.Storage[t];
"""
)


def study(path: Path, space: object, **more: object) -> Study:
    """A study of the small basin."""
    wants("mrm", 4)
    given = model(PLANNED), policy(RULES), inputs(GIVEN), REQUIRED
    return Study(path / "study.db", *given, space, progress=False, **more)  # type: ignore[arg-type]


def test_points_come_to_what_they_should(tmp_path: Path) -> None:
    found = study(tmp_path, {"Plan.Keep": (0, 20), "Plan.Least": (0, 8)}, workers=2)
    points = found.grid(9)
    frame = found.at(points)
    out = np.maximum(9 - points[:, 0], points[:, 1])
    assert len(frame) == 81 and frame["out"].tolist() == (STEPS * out).tolist()
    assert frame["stored"].tolist() == (1000 + STEPS * (9 - out)).tolist()
    assert frame["fish"].tolist() == (out - 3).tolist()  # the third least of 40 that are alike
    assert frame["fish.failed"].tolist() == (STEPS * (out < 3)).tolist()
    assert (frame["fish.verdict"] == "held").tolist() == (out >= 3).tolist()


def test_goes_on_where_it_was(tmp_path: Path) -> None:
    space = {"Plan.Keep": (0, 9), "Plan.Least": (0, 8)}
    first = study(tmp_path, space)
    points = first.latin(100, seed=1)
    frame = first.at(points[:70])
    first.close()
    again = study(tmp_path, space)
    both = again.at(points)
    assert both.iloc[:70].equals(frame)
    assert again.ran == len(np.unique(points, axis=0)) - len(np.unique(points[:70], axis=0))
    assert (points == again.latin(100, seed=1)).all() and (points != again.latin(100, seed=2)).any()
    with pytest.raises(basin.Stale):
        study(tmp_path, {"Plan.Keep": (0, 9)})


def test_percents_by_month(tmp_path: Path) -> None:
    found = study(tmp_path, [Percent("Dam.Inflow", 50, 200, "calendar month"), Range("Plan.Keep", 0, 9)])
    assert found.names == ["Dam.Inflow % 1", "Dam.Inflow % 2", "Plan.Keep"]
    frame = found.at([[200, 50, 1]])
    assert frame["out"].item() == 31 * (18 - 1) + 9 * (4 - 1)  # a half of 9 is rounded down
    judged = basin.requirements(model(PLANNED), policy(RULES), found.inputs([200, 50, 1]), REQUIRED)
    assert judged.measures.loc["batch 0", "out"] == frame["out"].item()


def test_years_of_a_record(tmp_path: Path) -> None:
    index = model().index()
    years = [pd.DataFrame({"Dam.Inflow": 9 - year}, index=index) for year in range(5)]
    found = study(tmp_path, [Choice("year", years), Range("Plan.Keep", 0, 5)])
    frame = found.at([[year, 5] for year in range(5)])
    assert frame["out"].tolist() == [STEPS * max(4 - year, 0) for year in range(5)]
    assert found.least("fish", 40, seed=1).loc[0, "year"] == 4


def test_a_fault_is_told(tmp_path: Path) -> None:
    found = study(tmp_path, {"Plan.Keep": (0, 9), "Plan.Least": (0, 1000)})
    frame = found.at([[0, 0], [0, 1000]])
    assert frame["fault"].tolist()[0] == "" and "out of range object Dam" in frame["fault"].tolist()[1]
    assert frame["fish.verdict"].tolist() == ["held", "unknown"] and np.isnan(frame["out"].iloc[1])
    with pytest.raises(ValueError, match="ended in a fault"):
        found.sensitivity("out", 8, seed=1)


def test_the_worst_is_found(tmp_path: Path) -> None:
    found = study(tmp_path, {"Plan.Keep": (0, 90), "Plan.Least": (0, 30)})
    worst = found.least("fish", 600, seed=1)
    assert worst.loc[0, "fish"] == -3 and worst.loc[0, "Plan.Least"] == 0 and 9 <= worst.loc[0, "Plan.Keep"]
    assert found.ran <= 600
    before = found.ran
    assert found.least("fish", 600, seed=1).equals(worst) and found.ran == before


def test_a_front(tmp_path: Path) -> None:
    found = study(tmp_path, {"Plan.Keep": (0, 30), "Plan.Least": (0, 30)})
    front = found.front(["-out", "-stored"], 400, seed=1, size=20)
    assert len(set(front["out"])) > 20 and (front["out"] + front["stored"] == 1000 + 9 * STEPS).all()
    held = found.front(["-stored"], 400, seed=1, size=20, held=["fish"])
    assert set(held["out"]) == {3 * STEPS}
    assert found.front(["-out", "-stored"], 400, seed=1, size=20).equals(front)
    assert set(found.front(["-out", "-stored"], 961, seed=1)["out"]) == {STEPS * out for out in range(31)}  # of all points


def test_indices_of_a_known_function() -> None:
    from scipy.stats import qmc

    def ishigami(shares: np.ndarray) -> np.ndarray:
        x = np.pi * (2 * shares - 1)
        return np.sin(x[:, 0]) + 7 * np.sin(x[:, 1]) ** 2 + 0.1 * x[:, 2] ** 4 * np.sin(x[:, 0])

    shares = qmc.Sobol(6, seed=1).random(4096)
    first, second = shares[:, :3], shares[:, 3:]
    mixed = [np.where(np.arange(3) == place, second, first) for place in range(3)]
    found = indices(np.array([ishigami(some) for some in (first, second, *mixed)]))
    assert np.allclose(found, [[0.314, 0.442, 0.0], [0.558, 0.442, 0.244]], atol=0.03)


def test_nondominated() -> None:
    values = np.array([[1, 5], [2, 2], [3, 3], [5, 1], [2, 2], [6, 1]], float)
    assert nondominated(values).tolist() == [True, True, False, True, True, False]
