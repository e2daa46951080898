"""Pictures of an ensemble: bands of percentiles, and how much of the time a value is reached."""

from __future__ import annotations

from typing import TYPE_CHECKING, Any

import numpy as np
import pandas as pd

from .ensemble import statistics
from .plans import Plan

if TYPE_CHECKING:
    from matplotlib.axes import Axes

PALEST, DARKEST = 0.15, 0.45  # how strong the bands' colour is


def bands(told: Plan, slot: str, ax: Axes | None = None, colour: str = "C0") -> Axes:
    """Plots a band between each pair of the merged percentiles, the outermost first, and the middle one as a line.

    Each value is drawn over its timestep, from its begin to its end.
    """
    cells = statistics(told)[f"{slot}.percentile"].sortby("percentile")
    ends = told.model.ends()
    time = cells["time"].values
    edges = np.append(time, ends[-1].to_datetime64())
    drawn, shares = _axes(ax), [f"{float(share):g}" for share in cells["percentile"]]
    heights = np.concatenate([cells.values, cells.values[:, -1:]], axis=1)  # the last one up to its end
    pairs = len(shares) // 2
    for k in range(pairs):
        strength = PALEST + (DARKEST - PALEST) * (k + 1) / pairs
        label = f"{shares[k]} to {shares[-1 - k]} %"
        drawn.fill_between(
            edges,
            heights[k],
            heights[-1 - k],
            step="post",
            alpha=strength,
            color=colour,
            linewidth=0,
            label=label,
        )
    if len(shares) % 2:
        drawn.step(edges, heights[pairs], where="post", color=colour, label=f"{shares[pairs]} %")
    drawn.set_ylabel(_label(slot, cells.attrs["basin_unit"]))
    drawn.set_xlim(edges[0], edges[-1])
    drawn.legend()
    return drawn


def exceedance(values: Any, ax: Axes | None = None, **line: Any) -> Axes:
    """Plots the percentage of known values that reach each height, a duration curve: of a DataArray, a frame or an array."""
    held = np.asarray(values, dtype=np.float64).ravel()
    held = np.sort(held[~np.isnan(held)])[::-1]
    drawn = _axes(ax)
    drawn.plot(100 * np.arange(1, len(held) + 1) / max(len(held), 1), held, **line)
    drawn.set_xlim(0, 100)
    drawn.set_xlabel("percent of the values that are at least so high")
    attributes = getattr(values, "attrs", {})
    if "basin_unit" in attributes:
        drawn.set_ylabel(_label(attributes["long_name"], attributes["basin_unit"]))
    return drawn


def trace(table: pd.DataFrame, slot: str, ax: Axes | None = None, **line: Any) -> Axes:
    """Plots a slot of one run over its timesteps."""
    drawn = _axes(ax)
    drawn.step(table.index, table[slot], where="post", **line)
    drawn.set_ylabel(_label(slot, table.attrs["units"][slot]))
    return drawn


def front(points: pd.DataFrame, across: str, up: str, colour: str | None = None, ax: Axes | None = None, **marks: Any) -> Axes:
    """Plots points of a study by two of their columns, coloured by a third one if it is given."""
    drawn = _axes(ax)
    if colour is None:
        drawn.plot(points[across], points[up], "o", **marks)
    else:
        shown = drawn.scatter(points[across], points[up], c=points[colour], **marks)
        drawn.figure.colorbar(shown, ax=drawn, label=colour)
    drawn.set_xlabel(across)
    drawn.set_ylabel(up)
    return drawn


def indices(found: pd.DataFrame, ax: Axes | None = None) -> Axes:
    """Plots Sobol indices by knob, first and total order next to each other, with their intervals."""
    drawn = _axes(ax)
    places = np.arange(len(found))
    for place, (name, side) in enumerate((("first", -0.2), ("total", 0.2))):
        value = found[name].to_numpy()
        spread = [value - found[f"{name} 5 %"], found[f"{name} 95 %"] - value]
        drawn.barh(places + side, value, 0.4, xerr=np.maximum(spread, 0), color=f"C{place}", label=name)
    drawn.set_yticks(places, found.index)
    drawn.invert_yaxis()
    drawn.set_xlabel("share of the variance")
    drawn.legend()
    return drawn


def _axes(ax: Axes | None) -> Axes:
    """Returns the axes that are given, or the current ones."""
    import matplotlib.pyplot as plt

    return plt.gca() if ax is None else ax


def _label(slot: str, unit: str) -> str:
    """Returns what an axis says. A slot's name has no sign by which matplotlib would set formulas."""
    return f"{slot} [{unit}]" if unit else slot
