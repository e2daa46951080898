"""Requirements: on a small basin reckoned by hand, and slack beside counting."""

from __future__ import annotations

from datetime import datetime, timedelta
from fractions import Fraction
from pathlib import Path

import numpy as np
import pandas as pd
import pytest

import basin
from basin.slack import slack_of
from basin.tables import UNKNOWN
from basin_require.counting import HELD, NEVER, NOT_HELD, Calendar, judged
from basin_require.measures import NOT_ASKED
from basin_require.reading import PERIODS, Most, Requirement, Share
from basin_rules.places import Span

from small import EXAMPLES, STEPS, VALLEY, inflows, inputs, model, outflow, policy, series, wants

# What flows in is let out, but for 5 m3 a day: with 9 m3 a day, 4.
REQUIRED = basin.Requirements(
    text="""
REQUIRE "all of it": Dam.Outflow[t] <= 4 "m3/step";
REQUIRE "fish" HOLDS 95 % OF TIMESTEPS: Dam.Outflow[t] >= 4 "m3/step";
REQUIRE "in a row" FAILS AT MOST 2 IN A ROW: Dam.Outflow[t] >= 4 "m3/step";
REQUIRE "may" WHEN MONTH(t) = 5: Dam.Outflow[t] > 0 "m3/step";
MEASURE "let out" SUM: Dam.Outflow[t];
"""
)


def dry(days: str) -> pd.DataFrame:
    """A batch in which nothing flows in on these days."""
    return pd.DataFrame([(1, "Dam.Inflow", days, 0)], columns=["batch", "slot", "step", "value"])


def test_held_and_not_held() -> None:
    found = basin.requirements(model(), policy(), inputs(), REQUIRED)
    assert [one.verdict.verdict for one in found] == [HELD, HELD, HELD, NEVER]
    assert found.held and found.measures.loc["batch 0", "let out"] == 4 * STEPS
    found.check()
    edited = basin.requirements(model(), policy(), inputs(), REQUIRED, edits=dry("11-13"))
    table = edited.table
    assert not edited.held and table.loc["batch 0", "verdict"].tolist() == [HELD, HELD, HELD, NEVER]
    assert table.loc["batch 1", "verdict"].tolist() == [HELD, NOT_HELD, NOT_HELD, NEVER]  # 37 of 40 are 92.5 %
    row = table.loc[("batch 1", "fish")]
    assert (row["failed"], row["first"], row["longest"], row["worst"]) == (3, 11, 3, 4)
    assert row["reliability"] == 37 / 40 and row["resilience"] == 1 / 3 and row["vulnerability"] == 4
    assert edited.measures["let out"].tolist() == [4 * STEPS, 4 * (STEPS - 3)]
    with pytest.raises(AssertionError, match="\"fish\" is not held .*first in timestep 11 .2020-01-11 .*most by 4 m3/step"):
        edited.check()


def test_traces_by_name() -> None:
    wants("mrm", 4)
    wet = pd.DataFrame({"Dam.Inflow": 9}, index=model().index())
    dry_end = wet.copy()
    dry_end.loc["2020-01-20":] = 0
    traces = {"wet": wet, "dry": dry_end}
    found = basin.requirements(model(), policy(), inputs(), REQUIRED, traces=traces)
    assert found.table["verdict"].unstack().loc["dry"].to_dict() == {
        "all of it": HELD, "fish": NOT_HELD, "in a row": NOT_HELD, "may": NEVER
    }
    text = REQUIRED.content.decode().replace("HOLDS 95 % OF TIMESTEPS", "HOLDS 50 % OF TRACES")
    found = basin.requirements(model(), policy(), inputs(), basin.Requirements(text=text), traces=traces)
    assert found.over_runs["fish"] == HELD and found.over_runs["in a row"] == NOT_HELD
    found = basin.requirements(model(), policy(), inputs(), basin.Requirements(text=text), edits=dry("11-13"))
    assert found.over_runs["fish"] == NOT_HELD  # a batch is no trace


def test_an_ensemble(tmp_path: Path) -> None:
    inflow = inflows(150)
    inflow[7, 20] = -5_000_000  # out of its bounds: refused
    traces = series(inflow)
    with pytest.warns(UserWarning, match="1 traces are refused"):
        found = basin.over_ensemble(tmp_path / "e", model(), policy(), inputs(), REQUIRED, traces, workers=0)
    out = outflow(inflow)
    settled = np.arange(150) != 7
    assert list(found.index) == [f"y{1900 + number}" for number in range(150)]
    assert found["let out"][settled].tolist() == out.sum(axis=1)[settled].tolist()
    assert found["all of it.failed"][settled].tolist() == (out > 4).sum(axis=1)[settled].tolist()
    held = (out >= 4).sum(axis=1) >= 38
    assert (found["fish.verdict"] == HELD)[settled].tolist() == held[settled].tolist()
    assert found["fish.verdict"].iloc[7] == "unknown" and "out of bounds" in found["fault"].iloc[7]


def test_a_fault_is_never_held() -> None:
    emptied = pd.DataFrame([(1, "Dam.Outflow", "30", 5_000)], columns=["batch", "slot", "step", "value"])
    found = basin.requirements(model(), policy(), inputs(), REQUIRED, edits=emptied)
    assert found.table.loc["batch 1", "verdict"].tolist() == ["unknown"] * 4
    assert "out of range object Dam" in found.table.loc[("batch 1", "fish"), "fault"]
    assert found.table.loc[("batch 1", "fish"), "unknown"] == STEPS - 29
    text = 'RULE "ratio": Dam.LocalInflow[t] := 1 "m3/step"; ENDRULE'
    with pytest.raises(basin.Refused, match="unknown slot"):
        basin.requirements(model(), policy(text), inputs(), REQUIRED)


def test_what_is_refused() -> None:
    for text, says in (
        ('REQUIRE "a": Dam.Outflow[t] > 3;', "line 1, column 14 .\"a\".: .* both sides of > must measure the same quantity"),
        ('REQUIRE "a": Dam.Outflow[t];', "what is required must be a truth value"),
        ('REQUIRE "a" HOLDS 101 %: Dam.Outflow[t] > 3 "m3/step";', "at most 100 %"),
        ('REQUIRE "a": 1 / (Dam.Outflow[t] - 4 "m3/step") = 0 "m3/step";', "wrong|measure"),
        ('REQUIRE "a": 1 "m3/step" / (Dam.Outflow[t] - 4 "m3/step") = 0;', "itself ended run 0: division by zero"),
        ("", "there is no requirement"),
    ):
        with pytest.raises(basin.WrongRequirements, match=says):
            basin.requirements(model(), policy(), inputs(), basin.Requirements(text=text))


def test_every_example_keeps_its_cells() -> None:
    """Of a requirement on each slot the margin is 0 where the table has a value, and unknown elsewhere."""
    for name in ("valley-rules", "ramp", "power-plant"):
        folder = EXAMPLES / name
        files = [folder / file for file in ("model.toml", "policy.rpl", "inputs.csv")]
        table = basin.run(*files, numbers="Int64").table
        slots = list(table.columns[:40])
        text = "".join(f'REQUIRE "{slot}": {slot}[t] = {slot}[t];\n' for slot in slots)
        text += "".join(f'MEASURE "sum {slot}" SUM: {slot}[t];\n' for slot in slots)
        found = basin.requirements(*files, basin.Requirements(text=text))
        for one in found:
            assert one.verdict.held == table[one.name].notna().sum() and not one.verdict.failed
        sums = found.measures.loc["batch 0"]
        for slot in slots:
            if table[slot].notna().all():
                assert sums[f"sum {slot}"] == table[slot].sum()


def test_slack_and_counting_say_the_same() -> None:
    rng = np.random.default_rng(1)
    for _ in range(200):
        steps, days = int(rng.integers(1, 60)), int(rng.choice([1, 7, 20]))
        calendar = Calendar([datetime(2020, 9, 1) + timedelta(days=days * step) for step in range(steps)])
        clauses: list[Share | Most] = []
        if rng.integers(2):
            clauses.append(Share(Fraction(int(rng.integers(0, 1001)), 10), PERIODS[rng.integers(4)]))
        if rng.integers(2):
            count, window, in_a_row = int(rng.integers(0, 5)), int(rng.integers(0, 8)), bool(rng.integers(2))
            clauses.append(Most(count, PERIODS[rng.integers(4)], window, in_a_row))
        one = Requirement("a", '"a"', Span(0, 0), Span(0, 0), None, clauses)
        margins = rng.integers(-3, int(rng.integers(1, 30)), (4, steps))
        margins[rng.random(margins.shape) < 0.1 * rng.integers(2)] = UNKNOWN
        margins[rng.random(margins.shape) < 0.2 * rng.integers(2)] = NOT_ASKED
        most, least = (slack_of(one, margins, calendar, unknown) for unknown in (np.inf, -np.inf))
        for row, high, low in zip(margins.tolist(), most, least):
            verdict = judged(one, [None if value == UNKNOWN else value for value in row], calendar).verdict
            due = NOT_HELD if high < 0 else "unknown" if low < 0 else HELD
            assert verdict == (NEVER if all(value == NOT_ASKED for value in row) else due)


def test_the_valley() -> None:
    text = 'MEASURE "short" SUM: Farms.DiversionRequest[t] - Farms.Diversion[t];'
    found = basin.requirements(*VALLEY, basin.Requirements(text=text), edits=EXAMPLES / "valley-rules/edits.csv")
    assert found.measures["short"].tolist()[1:3] == [20_234, 2_410]  # as docs/GUIDE.md has it
