"""Reliability, resilience and vulnerability, against numbers worked by hand."""

from __future__ import annotations

import math

import pandas as pd
import pytest

import basin
from basin.measures import reliability, resilience, vulnerability

from small import EXAMPLES, VALLEY

# Ten days: two stretches of failures, of 3 days (worst 4) and of 1 day (1), and one failure at the end (worst 6).
MARGINS = pd.Series([5, -1, -4, -2, 0, 3, -1, 2, 2, -6])


def test_worked_by_hand() -> None:
    assert reliability(MARGINS) == 5 / 10
    assert resilience(MARGINS) == 2 / 4  # after days 4 and 7, of the failing days 2, 3, 4 and 7
    assert vulnerability(MARGINS) == (4 + 1 + 6) / 3


def test_where_nothing_fails() -> None:
    for margins in (MARGINS.abs(), MARGINS.abs() / 8):
        assert reliability(margins) == 1
        assert math.isnan(resilience(margins)) and math.isnan(vulnerability(margins))
    nothing = MARGINS.iloc[:0]
    assert all(math.isnan(measure(nothing)) for measure in (reliability, resilience, vulnerability))


def test_where_all_fails() -> None:
    assert reliability(-MARGINS.abs() - 1) == 0 and resilience(-MARGINS.abs() - 1) == 0
    assert vulnerability(-MARGINS.abs() - 1) == 7  # one stretch


def test_unknown_and_not_applying() -> None:
    unknown = MARGINS.astype("Int64")
    unknown[4] = pd.NA  # day 5, which held
    assert reliability(unknown) == 4 / 9
    assert resilience(unknown) == 1 / 3  # of the failing days 2, 3 and 7
    assert vulnerability(unknown) == 11 / 3
    where = pd.Series([True] * 6 + [False] * 4)
    assert reliability(MARGINS, where) == 3 / 6 and resilience(MARGINS, where) == 1 / 3
    assert vulnerability(MARGINS, where) == 4
    with pytest.raises(ValueError, match="where has 6 values for 10 margins"):
        reliability(MARGINS, where[:6])


def test_frames_and_truth_values() -> None:
    frame = pd.DataFrame({"a": MARGINS, "b": MARGINS.abs() / 2, "c": MARGINS / 4})
    assert reliability(frame).to_dict() == {"a": 0.5, "b": 1, "c": 0.5}
    assert vulnerability(frame)["c"] == 11 / 12 and math.isnan(vulnerability(frame)["b"])
    assert resilience(frame, frame >= -1).to_dict()["a"] == 1  # days 3, 4 and 10 do not apply: only day 7 counts
    assert reliability(MARGINS >= 0) == 0.5 and vulnerability(MARGINS >= 0) == 1


def test_the_same_as_of_requirements() -> None:
    judged = basin.requirements(*VALLEY, EXAMPLES / "valley-rules/valley.require").table.loc[("batch 0", "farms")]
    table = basin.run(*VALLEY).table
    margins = table["Farms.Diversion"] - table["Farms.DiversionRequest"]
    assert judged["margin"] == margins.min()
    for measure in (reliability, resilience, vulnerability):
        assert judged[measure.__name__] == measure(margins)
