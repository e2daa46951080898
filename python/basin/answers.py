"""What calls answer: runs as frames by the begin of a timestep, with units; cells, effects, books, traces."""

from __future__ import annotations

import html
from dataclasses import dataclass, field
from typing import Literal, Sequence

import numpy as np
import pandas as pd

from basin_files.asking import FATES, Asked, told_by

from .errors import Error, Fault
from .files import Model, Policy
from .tables import UNKNOWN, Section, Whole, as_floats, numbers

Numbers = Literal["float", "Int64"]
LABEL = "begin of the timestep; what is stored or high is as at its end"


@dataclass(eq=False, repr=False)
class Answer:
    """A run: its table by the begin of each timestep, and the fault that ended it, or `None`.

    Where they were asked for: the flags of the cells, the lines of the trace, the puts that rules and objects
    asked for, and the timesteps that were run again. `number` counts batches from 0 and traces from 1; `name` is
    that of the trace.
    """

    number: int
    table: pd.DataFrame
    fault: Fault | None = None
    name: str = ""
    flags: pd.DataFrame | None = None
    trace: list[str] = field(default_factory=list)
    reran: list[int] | None = None
    asked: pd.DataFrame | None = None

    @property
    def units(self) -> dict[str, str]:
        """Returns the base unit of each slot."""
        return dict(self.table.attrs["units"])

    def __repr__(self) -> str:
        name = f" {self.name}" if self.name else ""
        over = f"{len(self.table)} timesteps of {self.table.shape[1]} slots"
        return f"<Answer {self.number}{name}: {self.fault or 'settled'}, {over}>"

    def _repr_html_(self) -> str:
        table: str = self.table._repr_html_()
        return f"<p>{html.escape(repr(self))}</p>{table}"


@dataclass
class Cell:
    """The assignments to a cell, by rules and objects, in order; its value is `None` where it is not known."""

    history: pd.DataFrame
    value: int | None
    flag: str
    given: bool  # whether inputs give it, so that no put is told
    fault: bool  # whether the run ended in a fault


@dataclass
class Book:
    """The water of each object over a run: initial + in - out = final, where nothing is unknown."""

    table: pd.DataFrame
    fault: Fault | None


@dataclass
class Effects:
    """What became of what each rule wanted: by rule and slot in how many timesteps, and what is worth a look."""

    table: pd.DataFrame
    sentences: list[str]


@dataclass
class Traces:
    """Many traces: their runs in order, and by slot and time how many know it, the least, the median, the greatest."""

    answers: list[Answer]
    summary: pd.DataFrame

    @property
    def faulted(self) -> list[str]:
        """Returns the names of the traces that ended in a fault, which the statistics leave out."""
        return [answer.name for answer in self.answers if answer.fault]


def frame_of(model: Model, columns: list[str], values: Whole, form: Numbers) -> pd.DataFrame:
    """Returns a table of values by timestep and slot."""
    index = model.index(len(values))
    if form == "float":
        frame = pd.DataFrame(as_floats(values), index=index, columns=columns)
    elif form == "Int64":
        frame = pd.DataFrame({slot: whole_array(values[:, k]) for k, slot in enumerate(columns)}, index=index)
    else:
        raise ValueError(f'numbers is "float" or "Int64", and not {form!r}')
    frame.columns.name = "slot"
    frame.attrs["units"] = {slot: model.unit(slot) for slot in columns}
    frame.attrs["label"] = LABEL
    return frame


def whole_array(values: Whole) -> pd.arrays.IntegerArray:
    """Values as pandas' whole numbers, of which each may be missing."""
    return pd.arrays.IntegerArray(values.copy(), values == UNKNOWN)


def answer_of(model: Model, policy: Policy | None, section: Section, form: Numbers, name: str = "") -> Answer:
    """Returns the run of a section."""
    columns = section.columns
    table = frame_of(model, columns, numbers(section.rows, range(len(columns))), form)
    answer = Answer(section.number, table, name=name, trace=section.trace, reran=section.reran)
    if section.flags is not None:
        rows = [line.split(",")[1:] for line in section.flags]
        answer.flags = pd.DataFrame(rows, index=table.index, columns=table.columns, dtype="category")
    if section.fault:
        answer.fault = fault_of(model, policy.rule_names(model) if policy else [], section.fault, answer)
    return answer


def asked_of(model: Model, policy: Policy | None, trace: list[str]) -> pd.DataFrame:
    """Returns each assignment in an event log, in order: who asked for it and when, the cell, its outcome, and the value before.

    Outcomes are written, kept, denied, again and late; a late assignment has no time.
    """
    rows: list[tuple[object, ...]] = []
    puts: list[Asked] = []
    names = policy.rule_names(model) if policy else []
    step, by, rule = 0, "", 0
    for line in trace:
        if line.startswith("  "):
            if told_by(line, puts):
                rows.append((step, by, rule or pd.NA, rule_name(names, rule)))
            continue
        word, *rest = line.split()
        if word == "open":
            step = int(rest[0])
        elif word in ("solve", "fire"):
            by, rule = ("rule", int(rest[0])) if word == "fire" else (rest[0], 0)
    frame = pd.DataFrame(rows, columns=["step", "by", "rule", "name"]).astype({"step": np.int64, "rule": "Int64"})
    index = model.index()
    frame["slot"] = [put.slot for put in puts]
    frame["at"] = [put.step for put in puts]
    frame["time"] = [index[put.step - 1] if put.step <= len(index) else pd.NaT for put in puts]
    frame["fate"] = pd.Categorical([put.fate for put in puts], categories=FATES)
    frame["value"] = pd.array([put.value for put in puts], dtype="Int64")
    frame["flag"] = [put.flag for put in puts]
    frame["held"] = pd.array([put.held[0] if put.held else pd.NA for put in puts], dtype="Int64")
    frame["held_flag"] = [put.held[1] if put.held else "" for put in puts]
    return frame


def fault_of(model: Model, names: Sequence[str], words: str, answer: Answer | None = None) -> Fault:
    """Returns the fault that these words say, with the moment of its timestep and the name of its rule."""
    fault = Fault(words)
    time = model.index()[fault.step - 1] if fault.step else None
    return Fault(words, time, rule_name(names, fault.rule or 0), answer)


def rule_name(names: Sequence[str], number: int) -> str:
    """Returns the name of a rule by its number, or "" where it has none, as in code, or where there is no rule: 0."""
    return names[number - 1] if 1 <= number <= len(names) else ""


def cell_of(model: Model, policy: Policy, text: str, fault: bool) -> Cell:
    """Returns the cell in the lines of `why`."""
    names = policy.rule_names(model)
    history: list[tuple[object, ...]] = []
    given = False
    value, flag = None, ""
    for words in map(str.split, text.splitlines()):
        if words[0] == "given":
            given = True
        elif words[0] == "holds":
            value, flag = (None, "") if words[1] == "unknown" else (int(words[1]), words[2])
        elif words[0] == "step":
            rule = int(words[3]) if words[2] == "rule" else pd.NA
            name = words[3] if rule is pd.NA else rule_name(names, rule)
            history.append((int(words[1]), words[2], rule, name, int(words[4]), words[5]))
        else:
            raise Error(f"`why` wrote a line that this package does not know: {words}")
    frame = pd.DataFrame(history, columns=["step", "by", "rule", "name", "value", "flag"])
    frame = frame.astype({"step": np.int64, "rule": "Int64", "value": np.int64})
    frame.insert(1, "time", model.index()[frame["step"].to_numpy() - 1])
    return Cell(frame, value, flag, given, fault)


def book_of(model: Model, policy: Policy, lines: list[str]) -> Book:
    """Returns the water balance in the lines of `balance`, in m3. Sums are Python's whole numbers: they may pass 64 bits."""
    ending = lines[0].split(" ", 3)[3]
    rows = [line.split() for line in lines[1:]]
    columns = ("initial", "in", "out", "final")
    nothing: list[int | None] = [None] * 4
    amounts = [nothing if words[1] == "unknown" else [int(word) for word in words[2::2]] for words in rows]
    index = pd.Index([words[0] for words in rows], name="object")
    table = pd.DataFrame(amounts, index=index, columns=columns, dtype=object)
    table["unknown"] = [words[1] == "unknown" for words in rows]
    table.attrs["units"] = dict.fromkeys(columns, "m3")
    words = ending.removeprefix("fault ")
    return Book(table, fault_of(model, policy.rule_names(model), words) if ending != "settled" else None)
