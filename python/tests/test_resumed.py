"""A thousand traces of ten years, judged in parts: killed and resumed, the table is the same, and reckoned by hand."""

from __future__ import annotations

import os
import pickle
import signal
import subprocess
import sys
import time
from pathlib import Path

import numpy as np
import pandas as pd

import basin
from basin.plans import Plan
from basin_require.counting import HELD, NOT_HELD

from small import MODEL, TOP, Cells, inputs, model, outflow, policy

YEARS, DAYS, TRACES = 10, 365, 1000
LONG = model(MODEL.replace("steps = 40", f"steps = {YEARS * DAYS}"))
NO_INPUTS = "slot,step,value\n"
REQUIRED = """
REQUIRE "fish" HOLDS 80 %: Dam.Outflow[t] >= 10 "m3/step";
REQUIRE "years" FAILS AT MOST 1 YEAR IN 3: Dam.Outflow[t] >= 5 "m3/step";
MEASURE "let out" SUM: Dam.Outflow[t];
"""
SCRIPT = """
import pickle, sys, basin
basin.over_ensemble(**pickle.load(open(sys.argv[1], "rb")), workers=0)
"""


def by_year(inflow: Cells) -> pd.DataFrame:
    """Returns traces with one inflow for each 365 days."""
    rows = [
        (f"y{trace}", "Dam.Inflow", f"{DAYS * year + 1}-{DAYS * (year + 1)}", int(inflow[trace, year]))
        for trace in range(len(inflow))
        for year in range(YEARS)
    ]
    return pd.DataFrame(rows, columns=["trace", "slot", "step", "value"])


def due(inflow: Cells) -> pd.DataFrame:
    """Returns the table, computed from the inflows alone."""
    out = np.repeat(outflow(inflow), DAYS, axis=1)
    calendar = np.array(LONG.index().year)
    failing = np.stack([(out[:, calendar == year] < 5).any(axis=1) for year in np.unique(calendar)], axis=1)
    in_three = np.lib.stride_tricks.sliding_window_view(failing, 3, axis=1).sum(axis=2).max(axis=1)
    verdicts = {
        "fish.verdict": (out >= 10).sum(axis=1) * 100 >= 80 * YEARS * DAYS,
        "years.verdict": in_three <= 1,
    }
    told = {name: np.where(held, HELD, NOT_HELD) for name, held in verdicts.items()}
    return pd.DataFrame(
        {"let out": out.sum(axis=1), "fish.failed": (out < 10).sum(axis=1), "years.failed": (out < 5).sum(axis=1), **told}
    )


def killed(words: dict[str, object], folder: Path) -> int:
    """Judges in another process, which is killed when some parts are written: how many."""
    given, parts = folder / "words", folder / "broken/parts"
    given.write_bytes(pickle.dumps({**words, "folder": folder / "broken"}))
    path = os.pathsep.join(str(TOP / name) for name in ("python", "tools"))
    with subprocess.Popen([sys.executable, "-c", SCRIPT, given], env={**os.environ, "PYTHONPATH": path}) as running:
        while len(list(parts.glob("0*.nc"))) < 3 and running.poll() is None:
            time.sleep(0.02)
        running.kill()
    assert running.returncode == -signal.SIGKILL
    return len(list(parts.glob("0*.nc")))


def test_killed_and_resumed(tmp_path: Path) -> None:
    inflow = np.random.default_rng(3).integers(0, 50, (TRACES, YEARS))
    (tmp_path / "required").write_text(REQUIRED)
    words = {
        "model": LONG,
        "policy": policy(),
        "inputs": inputs(NO_INPUTS),
        "required": tmp_path / "required",
        "traces": by_year(inflow),
    }
    there = killed(words, tmp_path)
    plan = Plan.read(tmp_path / "broken")
    assert plan.parts == 16 and 3 <= there < plan.parts and len(plan.missing()) == plan.parts - there
    before = {path: path.stat().st_mtime_ns for path in (tmp_path / "broken/parts").glob("0*.nc")}
    resumed = basin.over_ensemble(tmp_path / "broken", **words, workers=0)
    assert not plan.missing() and all(path.stat().st_mtime_ns == time_ for path, time_ in before.items())
    whole = basin.over_ensemble(tmp_path / "whole", **words, workers=0)
    pd.testing.assert_frame_equal(resumed, whole)
    assert list(whole.index) == [f"y{trace}" for trace in range(TRACES)] and (whole["fault"] == "").all()
    wanted = due(inflow)
    for name in wanted:
        assert whole[name].tolist() == wanted[name].tolist(), name
        assert len(set(wanted[name])) > 1
