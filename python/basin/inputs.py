"""Inputs: of a path, of a text, or of a frame; and inputs over which traces are laid."""

from __future__ import annotations

from typing import Any, Iterable

import pandas as pd

from basin_files.inputs import records_of, steps_named

from .files import File, Model
from .process import PathLike
from .rows import Row, wide_rows

HEADER = "slot,step,value\n"


class Inputs(File):
    """Inputs, as a file or a text has them."""

    @classmethod
    def from_frame(cls, model: Model | PathLike, frame: pd.DataFrame) -> Inputs:
        """Inputs of a frame with timesteps by rows and slots by columns; what is not known gives nothing."""
        return cls(text=HEADER + "".join(f"{row.text}\n" for row in wide_rows(Model.of(model), frame)))


def inputs_of(model: Model, given: Any) -> Inputs:
    """Returns the inputs of a frame, of a path, or those that are given."""
    return Inputs.from_frame(model, given) if isinstance(given, pd.DataFrame) else Inputs.of(given)


class LaidOver:
    """Inputs that the program has taken, over which the rows of a trace are laid, cell by cell: they take the place
    of what the inputs give to the same slot, or to one that is linked to it."""

    def __init__(self, model: Model, inputs: Inputs) -> None:
        self.model = model
        self.groups = {name: str(model.read.group(name)[0].full_name) for name in model.slots}
        self.rows: dict[str, list[Row]] = {}  # by the first of linked slots
        records = records_of(inputs.content)
        next(records)
        for _, (slot, steps, value) in records:
            first, last = steps_named(steps)
            self.rows.setdefault(self.groups[slot], []).append(Row(slot, first, last, int(value)))
        self.made: dict[str, dict[int, str]] = {}
        self.texts = {group: "".join(f"{row.text}\n" for row in rows) for group, rows in self.rows.items()}

    def cells(self, group: str) -> dict[int, str]:
        """Returns the cells of linked slots, each as a line of inputs. They are made once, where a trace first names them."""
        if group not in self.made:
            self.made[group] = {}
            for row in self.rows.get(group, ()):
                lay(self.made[group], row)
        return self.made[group]

    def twice(self, rows: Iterable[Row]) -> Row | None:
        """Returns the first row that names a cell which one before it names, too: a file of traces has none such."""
        named: dict[str, set[int]] = {}
        for row in rows:
            if row.slot in self.groups:
                before = named.setdefault(self.groups[row.slot], set())
                steps = range(row.first, row.last + 1)
                if not before.isdisjoint(steps):
                    return row
                before.update(steps)
        return None

    def under(self, rows: Iterable[Row]) -> str:
        """Returns the inputs with these rows in place of theirs. A row that the program would refuse is at the end."""
        laid: dict[str, dict[int, str]] = {}
        wrong = []
        for row in rows:
            if row.slot not in self.groups or not 1 <= row.first <= row.last <= self.model.steps:
                wrong.append(f"{row.text}\n")
                continue
            group = self.groups[row.slot]
            if group not in laid:
                laid[group] = dict(self.cells(group))
            lay(laid[group], row)
        texts = {**self.texts, **{group: "".join(cells.values()) for group, cells in laid.items()}}
        return HEADER + "".join(texts.values()) + "".join(wrong)


def lay(cells: dict[int, str], row: Row) -> None:
    """Lays a row over cells, each of which is a line of inputs."""
    steps = range(row.first, row.last + 1)
    if row.value is None:
        for step in steps:
            cells.pop(step, None)
    else:
        cells.update((step, f"{row.slot},{step},{row.value}\n") for step in steps)
