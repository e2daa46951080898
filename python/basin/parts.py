"""A part of an ensemble: up to 64 traces, run by `mrm` at once or by `run` one by one, and kept as NetCDF."""

from __future__ import annotations

import os
import tempfile
import time as clock
from dataclasses import dataclass
from functools import lru_cache
from pathlib import Path
from typing import Generator, Iterable

import numpy as np

from . import process
from .calls import MOST_ROWS
from .errors import Error, Refused
from .files import Model
from .inputs import Inputs, LaidOver
from .netcdf import add_texts, add_time, add_whole, appearing, opened
from .plans import NAMES, Plan
from .rows import Row, batches_text
from .tables import UNKNOWN, Section, chapters, is_exact, numbers, section_of, sections
from .traces import stored_rows


@dataclass(frozen=True)
class Done:
    """A part that is there: how its traces ended, when it was run, and the seconds of a processor that it took."""

    part: int
    settled: int
    faults: int
    refused: int
    begun: float
    ended: float
    processor: float


Outcome = tuple[int, "Done | BaseException"]


class Values:
    """The values of the traces of a part."""

    def __init__(self, plan: Plan, model: Model, traces: int) -> None:
        self.slots, self.header = plan.slots, ",".join(("step", "stamp", *model.slots)).encode()
        columns = {slot: place for place, slot in enumerate(model.slots)}
        self.picks = [columns[slot] for slot in plan.slots]
        self.cells = np.full((len(plan.slots), traces, model.steps), UNKNOWN)
        self.closed = np.zeros(traces, np.int32)
        self.faults = [""] * traces
        self.refused = [""] * traces
        self.lacking = set(range(traces))  # of which nothing is told yet
        self.exact_as_float64 = True

    def take(self, trace: int, section: Section) -> None:
        """Takes the section of a trace, by its place."""
        if section.header != self.header:
            raise Error("the columns of the program are not the slots that this package reads in the model")
        found = numbers(section.rows, self.picks)
        self.exact_as_float64 &= is_exact(found)
        self.cells[:, trace, : len(found)] = found.T
        self.closed[trace], self.faults[trace] = len(found), section.fault
        self.lacking.discard(trace)

    def refuse(self, trace: int, why: str) -> None:
        """Keeps why a trace is not run."""
        self.refused[trace] = why
        self.lacking.discard(trace)


def outcomes(folder: Path, numbers: Iterable[int], timeout: float | None = None) -> Generator[Outcome, None, None]:
    """Runs parts one after another, of which none stops another."""
    for number in numbers:
        try:
            yield number, run_part(str(folder), number, timeout)
        except Exception as error:
            yield number, error


def failure(failed: list[tuple[int, BaseException]], tried: int) -> Error:
    """Returns what is said where parts failed."""
    number, error = failed[0]
    return Error(f"{len(failed)} of {tried} parts failed; part {number}: {error}")


def run_part(folder: str, number: int, timeout: float | None = None) -> Done:
    """Runs a part and writes its values. If they are there already it returns them: a worker may die after writing them."""
    begun, used = clock.time(), sum(os.times()[:4])
    plan = Plan.read(folder)
    names = plan.names[number]
    faults, refused = kept(plan, number) if plan.part(number).exists() else run_anew(plan, number, timeout)
    processor = sum(os.times()[:4]) - used
    return Done(number, len(names) - faults - refused, faults, refused, begun, clock.time(), processor)


def run_anew(plan: Plan, number: int, timeout: float | None = None) -> tuple[int, int]:
    """Runs a part and writes its values: how many traces ended in a fault, and how many are refused."""
    model, names = model_of(plan.folder, plan.digest), plan.names[number]
    values = values_of(plan, model, stored_rows(plan.folder, number, plan.first(number), len(names)), timeout)
    if values.lacking:
        raise Error(f"the program wrote nothing for {len(values.lacking)} of {len(names)} traces")
    write(plan, model, number, values)
    return sum(map(bool, values.faults)), sum(map(bool, values.refused))


def kept(plan: Plan, number: int) -> tuple[int, int]:
    """Returns the outcome of a part that is there."""
    with opened(plan.part(number)) as part:
        return sum(map(bool, part["fault"][:])), sum(map(bool, part["refused"][:]))


def values_of(plan: Plan, model: Model, rows: list[list[Row]], timeout: float | None = None) -> Values:
    """Returns the values of traces: at once where the program can and the rows are few enough, or else one by one.

    `mrm` refuses all traces for a row of one of them, so that then, too, they are run one by one.
    """
    if plan.way == "mrm" and sum(map(len, rows)) <= MOST_ROWS and all(rows):
        try:
            return at_once(plan, model, rows, timeout)
        except Refused as refused:
            if refused.file != "traces":
                raise
    return one_by_one(plan, model, rows, timeout)


def at_once(plan: Plan, model: Model, rows: list[list[Row]], timeout: float | None) -> Values:
    """By `mrm`."""
    values = Values(plan, model, len(rows))
    with tempfile.NamedTemporaryFile("w", prefix="basin-", suffix=".csv") as file:
        file.write(batches_text(rows, "trace"))
        file.flush()
        words = ["mrm", *map(str, plan.files), file.name]
        with process.at_work(words, plan.trusted_program(), timeout) as running:
            for chapter in chapters(running, last=b"%d," % model.steps):
                if section := section_of(chapter):
                    values.take(section.number - 1, section)
                if not values.lacking:
                    running.leave()  # without the summary, of which nothing is kept
                    break
    return values


@lru_cache(maxsize=1)
def model_of(folder: Path, _digest: str) -> Model:
    """Returns the model of a plan, which a worker reads once for all its parts."""
    return Model(folder / NAMES[0])


@lru_cache(maxsize=1)
def inputs_of(folder: Path, digest: str) -> LaidOver:
    """Returns the inputs of a plan, which a worker reads once for all its parts."""
    return LaidOver(model_of(folder, digest), Inputs(folder / NAMES[2]))


def one_by_one(plan: Plan, model: Model, rows: list[list[Row]], timeout: float | None) -> Values:
    """By `run`, from inputs over which each trace is laid."""
    values = Values(plan, model, len(rows))
    inputs = inputs_of(plan.folder, plan.digest)
    with tempfile.TemporaryDirectory(prefix="basin-") as name:
        path = Path(name) / "inputs.csv"
        words = ["run", *map(str, plan.files[:2]), str(path)]
        for trace, laid in enumerate(rows):
            if row := inputs.twice(laid):
                values.refuse(trace, f"twice: {row.text}")
                continue
            text = inputs.under(laid)
            path.write_text(text)
            try:
                with process.at_work(words, plan.trusted_program(), timeout) as running:
                    for section in sections(chapters(running)):
                        values.take(trace, section)
            except Refused as refused:
                if refused.file != "inputs" or refused.row is None:
                    raise
                values.refuse(trace, f"{refused.reason}: {text.splitlines()[refused.row - 1]}")
    return values


def write(plan: Plan, model: Model, number: int, values: Values) -> None:
    """Writes the values of a part."""
    plan.part(number).parent.mkdir(exist_ok=True)
    with appearing(plan.part(number)) as out:
        out.digest = plan.digest
        out.exact_as_float64 = int(values.exact_as_float64)
        out.createDimension("trace", len(plan.names[number]))
        add_time(out, model)
        add_texts(out, "trace", plan.names[number])
        add_texts(out, "fault", values.faults, "the fault that ended the run, or nothing")
        add_texts(out, "refused", values.refused, "why the trace is refused and wasn't run, or nothing")
        closed = out.createVariable("closed", "i4", ("trace",))
        closed.long_name = "how many timesteps were closed"
        closed[:] = values.closed
        for slot, cells in zip(values.slots, values.cells):
            add_whole(out, slot, ("trace", "time"), model, slot)[:] = cells
