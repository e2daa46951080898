"""Plots: what is drawn."""

from __future__ import annotations

from pathlib import Path

import matplotlib.pyplot as plt
import numpy as np

import basin
from basin import ensemble, plot

from small import inflows, inputs, model, planned, policy, storage


def test_bands_exceedance_and_a_trace(tmp_path: Path) -> None:
    inflow = inflows(20)
    told = planned(tmp_path / "a", inflow)
    ensemble.execute(told, workers=0)
    ensemble.merge(told, [50, 10, 90, 25, 75])
    figure, (left, middle, right) = plt.subplots(1, 3)
    plot.bands(told, "Dam.Storage", left)
    plot.exceedance(ensemble.values(told)["Dam.Storage"], middle)
    plot.trace(basin.run(model(), policy(), inputs()).table, "Dam.Outflow", right)
    figure.savefig(tmp_path / "ensemble.svg")
    assert [text.get_text() for text in left.get_legend().get_texts()] == ["10 to 90 %", "25 to 75 %", "50 %"]
    assert left.get_ylabel() == middle.get_ylabel() == "Dam.Storage [m3]"
    assert right.get_ylabel() == "Dam.Outflow [m3/step]"
    line = middle.lines[0]
    assert list(line.get_ydata()) == sorted(storage(inflow).ravel(), reverse=True)
    assert np.allclose(line.get_xdata()[[0, -1]], [100 / 800, 100])
    plt.close(figure)
