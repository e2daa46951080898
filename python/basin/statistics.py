"""Statistics over all settled traces of an ensemble, slot by slot, and what a percentile is."""

from __future__ import annotations

from dataclasses import dataclass
from fractions import Fraction
from pathlib import Path
from typing import Any, Iterator, Sequence, Union

import numpy as np
import numpy.typing as npt

from .errors import Stale
from .files import Model
from .netcdf import add_time, add_whole, appearing, opened
from .plans import Plan, each_part
from .tables import UNKNOWN, Whole, is_exact

Percent = Union[int, float, str, Fraction]
STATISTICS = "ensemble.nc"
ROOM = 48 * 2**20  # of values that are held at once, in bytes
BYTES = 16  # of a value, and of its place in order


@dataclass(frozen=True)
class Block:
    """Slots and timesteps whose values are held at once."""

    slots: list[str]
    steps: slice


def share_of(percent: Percent) -> Fraction:
    """Returns a percentage as a part of 1, exactly as it is written."""
    share = Fraction(str(percent)) / 100
    if not 0 <= share <= 1:
        raise ValueError(f"a percentile is from 0 to 100, and not {percent}")
    return share


def rank_of(known: Any, percent: Percent) -> Any:
    """Returns the rank, from 1 on, of the percentile among known values in order: the smallest with enough values up to it.

    Computed with whole numbers: 28 of 100 times 25 values is exactly 7.
    """
    share = share_of(percent)
    return np.maximum(-(-known * share.numerator // share.denominator), 1)


def percentile(ordered: Whole, known: npt.NDArray[np.int64], percent: Percent) -> Whole:
    """Returns, of sorted columns with unknown values first, the smallest value that this percentage of the known values do not exceed."""
    if not len(ordered):
        return np.full(len(known), UNKNOWN)
    place = np.clip(len(ordered) - known + rank_of(known, percent) - 1, 0, len(ordered) - 1)
    found = np.take_along_axis(ordered, place[None, :], axis=0)[0]
    return np.where(known > 0, found, UNKNOWN)


def merge(plan: Plan, percentiles: Sequence[Percent] = (10, 50, 90), *, room: int = ROOM) -> Path:
    """Writes for each slot and timestep how many settled traces know it, and of these the least, the mean, the
    greatest and the percentiles. Of a trace that ended in a fault, or is refused, nothing counts: the file has how many
    there are (attributes `faulted`, `refused`) and their names (variables of the same names)."""
    for percent in percentiles:
        share_of(percent)
    model, settled = plan.model, settled_traces(plan)
    count = int(sum(part.sum() for part in settled))
    with appearing(plan.folder / STATISTICS) as out:
        out.digest, out.traces, out.settled, out.exact_as_float64 = plan.digest, plan.traces, count, 1
        add_time(out, model)
        add_left_out(out, plan)
        out.createDimension("percentile", len(percentiles))
        shares = out.createVariable("percentile", "f8", ("percentile",))
        shares.units, shares[:] = "percent", [float(Fraction(str(percent))) for percent in percentiles]
        for slot in plan.slots:
            add_statistics(out, model, slot)
        for block in blocks(plan.slots, model.steps, count, room):
            held = values_in(plan, block, settled, count)
            if not is_exact(held):
                out.exact_as_float64 = 0
            for slot, values in zip(block.slots, held):
                reckon(out, slot, block.steps, values, percentiles)
    return plan.folder / STATISTICS


def settled_traces(plan: Plan) -> list[npt.NDArray[np.bool_]]:
    """Part by part which traces are settled."""
    found = []
    for _, path in each_part(plan):
        with opened(path) as part:
            if part.digest != plan.digest:
                raise Stale(f"{path.name} is of another ensemble")
            texts = zip(part["fault"][:], part["refused"][:])
            found.append(np.array([not fault and not refused for fault, refused in texts], bool))
    return found


def texts_of(plan: Plan, variable: str) -> Iterator[tuple[str, str]]:
    """Yields the name and the text of each trace that has one in this variable of its part."""
    for _, path in each_part(plan):
        with opened(path) as part:
            yield from ((str(name), str(text)) for name, text in zip(part["trace"][:], part[variable][:]) if text)


def add_left_out(out: Any, plan: Plan) -> None:
    """Writes how many traces ended in a fault and how many are refused, and their names where there are some."""
    for word, variable, why in (("faulted", "fault", "ended in a fault"), ("refused", "refused", "are refused")):
        names = [name for name, _ in texts_of(plan, variable)]
        out.setncattr(word, len(names))
        if names:
            out.createDimension(word, len(names))
            held = out.createVariable(word, str, (word,))
            held[:], held.long_name = np.array(names, dtype=object), f"traces that {why}, which no statistic counts"


def blocks(slots: list[str], steps: int, traces: int, room: int) -> Iterator[Block]:
    """As many slots at once as there is room for; where there is none for one, as many of its timesteps."""
    columns = room // (BYTES * max(traces, 1))
    many = columns // steps
    for low in range(0, len(slots), max(many, 1)):
        some = slots[low : low + max(many, 1)]
        across = steps if many else max(columns, 1)
        for begin in range(0, steps, across):
            yield Block(some, slice(begin, min(begin + across, steps)))


def values_in(plan: Plan, block: Block, settled: list[npt.NDArray[np.bool_]], count: int) -> Whole:
    """Returns the values of a block by slot, settled trace and timestep. Each part is opened, read and closed again."""
    held = np.empty((len(block.slots), count, block.steps.stop - block.steps.start), np.int64)
    before = 0
    for (_, path), some in zip(each_part(plan), settled):
        behind = before + int(some.sum())
        with opened(path) as part:
            for place, slot in enumerate(block.slots):
                held[place, before:behind] = part[slot][:, block.steps][some]
        before = behind
    return held


def add_statistics(out: Any, model: Model, slot: str) -> None:
    """The variables of a slot. A slot's name has one point, so that none of them is another slot's."""
    known = out.createVariable(f"{slot}.known", "i4", ("time",))
    known.units, known.long_name = "1", f"how many settled traces know {slot}"
    for what, method in (("min", "minimum"), ("max", "maximum")):
        cells = add_whole(out, f"{slot}.{what}", ("time",), model, slot)
        add_method(cells, f"trace: {method}")
    mean = out.createVariable(f"{slot}.mean", "f8", ("time",), fill_value=np.nan)
    mean.units, mean.basin_unit, mean.long_name = cells.units, cells.basin_unit, slot
    add_method(mean, "trace: mean")
    add_whole(out, f"{slot}.percentile", ("percentile", "time"), model, slot)


def add_method(cells: Any, method: str) -> None:
    """One more of CF's methods."""
    before = getattr(cells, "cell_methods", "")
    cells.cell_methods = f"{before} {method}".strip()


def reckon(out: Any, slot: str, steps: slice, values: Whole, percentiles: Sequence[Percent]) -> None:
    """Writes the statistics of a slot's values by trace and timestep, which are sorted."""
    values.sort(axis=0)
    is_known = values != UNKNOWN
    known = is_known.sum(axis=0)
    out[f"{slot}.known"][steps] = known
    out[f"{slot}.min"][steps] = percentile(values, known, 0)
    out[f"{slot}.max"][steps] = percentile(values, known, 100)
    with np.errstate(invalid="ignore", divide="ignore"):
        out[f"{slot}.mean"][steps] = np.where(is_known, values, 0).sum(axis=0, dtype=np.float64) / known
    for place, percent in enumerate(percentiles):
        out[f"{slot}.percentile"][place, steps] = percentile(values, known, percent)
