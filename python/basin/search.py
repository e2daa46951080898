"""Searches: sweeps, samples, sensitivities, fronts and worst cases, over values of a policy or its inputs.

Each point of a search is a trace over the inputs. `mrm` runs 64 of them at once, with the policy and its requirements; of
each only the values of measures and requirements are kept. A `Study` keeps all points that were run in one file, so that a
search that was interrupted continues if it is started again with its seed.
"""

from __future__ import annotations

import contextlib
import hashlib
import math
import sys
import tempfile
import time as clock
from concurrent.futures import FIRST_COMPLETED, Future, ThreadPoolExecutor, wait
from dataclasses import dataclass
from functools import cached_property
from pathlib import Path
from typing import TYPE_CHECKING, Any, Callable, Iterator, Mapping, Sequence

import numpy as np
import numpy.typing as npt
import pandas as pd

from basin_require.counting import HELD, NEVER

from . import process
from .calls import MOST_ROWS, MOST_TRACES, Files, InputsGiven, ModelGiven, PolicyGiven
from .errors import Error
from .files import Model
from .fronts import Numbers, Points, evolve, indices, nondominated
from .inputs import Inputs, LaidOver, inputs_of
from .knobs import Choice, Percent, Range, Space, knobs_of
from .process import PathLike
from .requirements import Asking, RequirementsGiven
from .rows import Row
from .slack import columns_of, frame_of, names_of
from .store import Store
from .tables import UNKNOWN, chapters, numbers, section_of

if TYPE_CHECKING:
    from distributed import Client

__all__ = ["Choice", "Percent", "Range", "Study"]

QUIET = 2  # seconds between two lines of progress
ON_WORKERS = 200  # shares that wait for a client


@dataclass
class Task:
    """The texts and measures that a worker needs to run points."""

    asking: Asking
    inputs: bytes

    @cached_property
    def files(self) -> Files:
        """Returns the files, which a worker writes once."""
        return Files(self.asking.model_text, self.asking.code, Inputs(text=self.inputs))

    @cached_property
    def paths(self) -> list[str]:
        """Returns their paths."""
        return self.files.paths

    def __getstate__(self) -> dict[str, Any]:
        return {"asking": self.asking, "inputs": self.inputs}


def run_rows(task: Task, rows: list[list[str]]) -> tuple[Numbers, list[str]]:
    """Returns the values of the runs of some points, and their faults."""
    asking = task.asking
    steps = asking.calendar.steps
    margins = np.full((len(rows), asking.width, steps), UNKNOWN)
    faults, told = [""] * len(rows), 0
    with tempfile.NamedTemporaryFile("w", prefix="basin-", suffix=".csv") as file:
        file.write("trace,slot,step,value\n")
        for number, some in enumerate(rows, 1):
            file.writelines(f"{number},{row}" for row in some)
        file.flush()
        with process.at_work(["mrm", *task.paths, file.name], asking.program, asking.timeout) as running:
            for chapter in chapters(running, last=b"%d," % steps):
                if section := section_of(chapter):
                    found = numbers(section.rows, range(asking.width))
                    margins[section.number - 1, :, : len(found)] = found.T
                    faults[section.number - 1] = asking.fault_of(section)
                    told += 1
                if told == len(rows):
                    running.leave()  # without the summary, of which nothing is kept
                    break
    if told < len(rows):
        raise Error(f"the program told nothing of {len(rows) - told} of {len(rows)} points")
    ended = np.array([bool(fault) for fault in faults])
    return columns_of(asking.beside, asking.calendar, margins, ended), faults


class Study:
    """Runs points, and keeps the values of each in a file. Raises `Stale` if the file belongs to another study.

    `space` says what is varied: ranges by slot, or a list of `Range` and `Percent`. `workers` is the number of programs that run
    at the same time; `client` is a dask client whose workers run them instead. `timeout` is in seconds for each call.
    """

    def __init__(
        self,
        path: PathLike,
        model: ModelGiven,
        policy: PolicyGiven,
        inputs: InputsGiven,
        required: RequirementsGiven,
        space: Space,
        *,
        workers: int = 1,
        client: Client | None = None,
        progress: bool = True,
        program: PathLike | None = None,
        timeout: float | None = None,
    ) -> None:
        read = Model.of(model)
        given = inputs_of(read, inputs)
        self.knobs = knobs_of(read, given, space)
        self.asking = Asking(read, policy, required, program, timeout)
        self.task = Task(self.asking, given.content)
        self.workers, self.client, self.progress, self.ran = workers, client, progress, 0
        self.store = Store(path, self.digest(), len(self.columns))

    @property
    def names(self) -> list[str]:
        """Returns the names of what is varied."""
        return [knob.name for knob in self.knobs]

    @cached_property
    def columns(self) -> list[str]:
        """Returns the columns of each run: measures, and for each requirement its slack, its failures and its verdict."""
        return names_of(self.asking.beside)

    @property
    def low(self) -> Points:
        """Returns the minimum of each knob."""
        return np.array([knob.low for knob in self.knobs])

    @property
    def high(self) -> Points:
        """Returns the maximum of each knob."""
        return np.array([knob.high for knob in self.knobs])

    def digest(self) -> str:
        """Returns the digest to which the results belong."""
        asking, found = self.asking, hashlib.sha256(Path(self.asking.program).read_bytes())
        for text in (asking.beside.model, asking.beside.code.encode("latin-1"), self.task.inputs, asking.source.content):
            found.update(b"%d\0" % len(text) + text)
        for knob in self.knobs:
            found.update(f"{knob.name}\n{knob.text}".encode())
        return found.hexdigest()

    # ---- running

    def at(self, points: npt.ArrayLike) -> pd.DataFrame:
        """Returns a frame with a row for each point: the knobs, the columns, and the fault. Runs each point once."""
        asked = self.whole(points)
        held, faults = self.results(asked)
        return pd.concat([pd.DataFrame(asked, columns=self.names), frame_of(self.asking.beside, held, faults)], axis=1)

    def rows(self, point: Points) -> Iterator[Row]:
        """Yields the rows of a point's trace."""
        for knob, value in zip(self.knobs, point.tolist()):
            yield from knob.rows(value)

    def inputs(self, point: Sequence[int] | pd.Series) -> Inputs:
        """Returns the inputs of a point, to be looked at with `basin.run`, `basin.why` or `tools/report`."""
        numbers = [point[name] for name in self.names] if isinstance(point, pd.Series) else point
        laid = LaidOver(self.asking.model, Inputs(text=self.task.inputs))
        return Inputs(text=laid.under(self.rows(self.whole([numbers])[0])))

    def whole(self, points: npt.ArrayLike) -> Points:
        """Points as whole numbers within the bounds."""
        asked = np.atleast_2d(np.asarray(points))
        if asked.shape[1] != len(self.knobs):
            raise ValueError(f"a point has {len(self.knobs)} numbers: {', '.join(self.names)}")
        found = np.rint(asked).astype(np.int64)
        if ((found < self.low) | (found > self.high)).any():
            raise ValueError("a point is outside the bounds")
        return found

    def results(self, points: Points) -> tuple[Numbers, list[str]]:
        """Returns the values of points and their faults, in the order of the points."""
        keys = [point.tobytes() for point in points.astype("<i8")]
        known = self.store.known(keys)
        lacking = {key: point for key, point in zip(keys, points) if key not in known}
        for some, (values, faults) in self.run(list(lacking), np.array(list(lacking.values()))):
            new = dict(zip(some, zip(values, faults)))
            self.store.keep(new)
            known.update(new)
        found = [known[key] for key in keys]
        return np.array([values for values, _ in found]), [fault for _, fault in found]

    def run(self, keys: list[bytes], points: Points) -> Iterator[tuple[list[bytes], tuple[Numbers, list[str]]]]:
        """Runs points, and yields them as they are done."""
        waiting: dict[Future[Any], list[bytes]] = {}
        began = last = clock.monotonic()
        done = 0
        with self.pool() as (submit, most):
            for some, rows in self.shares(keys, points):
                waiting[submit(run_rows, self.task, rows)] = some
                if len(waiting) >= most:
                    for future in self.ended(waiting):
                        mine = waiting.pop(future)
                        yield mine, future.result()
                        done += len(mine)
                if self.progress and clock.monotonic() - last >= QUIET:
                    last = clock.monotonic()
                    print(f"basin: {done:,} of {len(keys):,} runs, {done / (last - began):,.0f} a second", file=sys.stderr)
            while waiting:
                for future in self.ended(waiting):
                    mine = waiting.pop(future)
                    yield mine, future.result()
        self.ran += len(keys)

    @contextlib.contextmanager
    def pool(self) -> Iterator[tuple[Callable[..., Any], int]]:
        """Who runs them, and how many may wait."""
        client = self.client
        if client is not None:
            task = client.scatter(self.task, broadcast=True)
            submit = client.submit
            yield (lambda does, _, rows: submit(does, task, rows, pure=False)), ON_WORKERS
            return
        with ThreadPoolExecutor(self.workers) as executor:
            yield executor.submit, 2 * self.workers

    def ended(self, waiting: Mapping[Any, Any]) -> list[Any]:
        """Returns those that are done, of which there is one at least."""
        if self.client is not None:
            from distributed import wait as wait_for

            return list(wait_for(list(waiting), return_when="FIRST_COMPLETED").done)
        return list(wait(list(waiting), return_when=FIRST_COMPLETED).done)

    def shares(self, keys: list[bytes], points: Points) -> Iterator[tuple[list[bytes], list[list[str]]]]:
        """Points by as many as one `mrm` takes: 64, or as have 10,000 rows."""
        some: list[bytes] = []
        rows: list[list[str]] = []
        count = 0
        for key, point in zip(keys, points):
            mine = [f"{row.text}\n" for row in self.rows(point)]
            if some and (len(some) == MOST_TRACES or count + len(mine) > MOST_ROWS):
                yield some, rows
                some, rows, count = [], [], 0
            some.append(key)
            rows.append(mine)
            count += len(mine)
        if some:
            yield some, rows

    # ---- samples

    def grid(self, count: int) -> Points:
        """Returns a grid of points with this number of places in each direction."""
        places = [np.unique(np.rint(np.linspace(knob.low, knob.high, count)).astype(np.int64)) for knob in self.knobs]
        return np.stack([axis.ravel() for axis in np.meshgrid(*places, indexing="ij")], axis=1)

    @property
    def size(self) -> int:
        """Returns how many points there are."""
        return math.prod(knob.high - knob.low + 1 for knob in self.knobs)

    def every(self) -> Points:
        """Returns each point, where they are few."""
        axes = [np.arange(knob.low, knob.high + 1) for knob in self.knobs]
        return np.stack([axis.ravel() for axis in np.meshgrid(*axes, indexing="ij")], axis=1)

    def latin(self, count: int, seed: int) -> Points:
        """Returns a Latin hypercube of this number of points."""
        from scipy.stats import qmc

        return self.placed(qmc.LatinHypercube(len(self.knobs), seed=seed).random(count))

    def sobol(self, count: int, seed: int) -> Points:
        """Returns this number of points, a power of two, of a scrambled Sobol sequence."""
        from scipy.stats import qmc

        return self.placed(qmc.Sobol(len(self.knobs), seed=seed).random(count))

    def placed(self, shares: Numbers) -> Points:
        """Whole numbers for shares from 0 to 1, each as likely as any other."""
        found = self.low + np.floor(shares * (self.high - self.low + 1)).astype(np.int64)
        return np.minimum(found, self.high)

    # ---- searches

    def goal(self, frame: pd.DataFrame, of: str) -> Numbers:
        """Returns the column to minimize; with a - in front, to maximize. A run that faults is the worst."""
        sign, name = (-1, of[1:]) if of.startswith("-") else (1, of)
        if name not in self.columns or name.endswith(".verdict"):
            raise ValueError(f"the study has no column {name}; it has {', '.join(self.columns)}")
        values = sign * frame[name].to_numpy(np.float64)
        return np.where((frame["fault"] != "") | np.isnan(values), np.inf, values)

    def sensitivity(self, of: str, count: int, seed: int, resamples: int = 200) -> pd.DataFrame:
        """Returns Sobol indices of a column by count x (knobs + 2) runs, by knob: `first` and `total`, with 90 % intervals.

        Of Saltelli's scheme with Jansen's estimators. Raises `ValueError` where a run faults or is not known.
        """
        from scipy.stats import qmc

        size = len(self.knobs)
        shares = qmc.Sobol(2 * size, seed=seed).random(count)
        first, second = shares[:, :size], shares[:, size:]
        mixed = [np.where(np.arange(size) == place, second, first) for place in range(size)]
        frame = self.at(self.placed(np.concatenate([first, second, *mixed])))
        values = self.goal(frame, of)
        if bad := int(np.isinf(values).sum()):
            raise ValueError(f"{bad} of {len(values)} runs ended in a fault, or {of} isn't known: narrow the bounds")
        parts = values.reshape(size + 2, count)
        rng = np.random.default_rng(seed)
        found = indices(parts)
        again = np.array([indices(parts[:, rng.integers(count, size=count)]) for _ in range(resamples)])
        least, most = np.percentile(again, [5, 95], axis=0)
        columns = {name: values for name, *values in zip(("first", "total"), found, least, most)}
        told: dict[str, Numbers] = {}
        for name, (value, low, high) in columns.items():
            told |= {name: value, f"{name} 5 %": low, f"{name} 95 %": high}
        return pd.DataFrame(told, index=pd.Index(self.names, name="knob"))

    def least(self, of: str, runs: int, seed: int) -> pd.DataFrame:
        """Returns the points that were tried for the minimum of a column, the best first: scipy's differential evolution, or each point
        where they are at most so many as runs.

        With a - in front of the column it is the greatest. The search for a requirement's worst case is that for the least of
        its slack, which is below 0 where it is not held.
        """
        from scipy.optimize import differential_evolution

        size = max(5, min(15 * len(self.knobs), runs // 10))
        tried: list[pd.DataFrame] = []

        def cost(frame: pd.DataFrame) -> Numbers:
            """Returns the goal. Of a requirement with the same slack, that which fails more often is worse, and a fault is the worst."""
            found = np.clip(self.goal(frame, of), -1e300, 1e300)
            if f"{of}.verdict" not in self.columns:
                return found
            often = frame[f"{of}.failed"].to_numpy() / (self.asking.calendar.steps + 1)
            return np.where(frame["fault"] != "", -1e300, found - often)

        def values(points: Numbers) -> Numbers:
            frame = self.at(np.clip(np.rint(points.T), self.low, self.high))
            tried.append(frame)
            return cost(frame)

        if self.size <= runs:
            values(self.every().T.astype(float))
        else:
            differential_evolution(
                values,
                list(zip(self.low, self.high)),
                init=self.latin(size, seed).astype(float),
                maxiter=max(1, runs // size - 1),
                seed=seed,
                polish=False,
                vectorized=True,
                updating="deferred",
                integrality=[True] * len(self.knobs),
                tol=0,
            )
        frame = pd.concat(tried, ignore_index=True).drop_duplicates(self.names)
        order = np.lexsort([*(frame[name] for name in reversed(self.names)), cost(frame)])
        return frame.iloc[order].reset_index(drop=True)

    def front(self, goals: Sequence[str], runs: int, seed: int, size: int = 64, held: Sequence[str] = ()) -> pd.DataFrame:
        """Returns the points of which no other that was tried is better in all goals: NSGA-II of deap.

        `held` are requirements that must be held: a point that does not hold one is worse than all that do, the more so the
        more often it fails.
        """
        size -= size % 4
        tried: list[pd.DataFrame] = []

        def values(points: Points) -> Numbers:
            frame = self.at(points)
            tried.append(frame)
            return self._goals(frame, goals, held)

        if self.size <= runs:
            values(self.every())
        else:
            evolve(values, self.low, self.high, max(1, runs // size - 1), size, len(goals), seed)
        frame = pd.concat(tried, ignore_index=True).drop_duplicates(self.names)
        frame = frame[[all(frame[f"{one}.verdict"][row] in (HELD, NEVER) for one in held) for row in frame.index]]
        found = self._goals(frame, goals, ())
        best = nondominated(found) & np.isfinite(found).all(axis=1)
        return frame[best].sort_values([*(goal.removeprefix("-") for goal in goals), *self.names]).reset_index(drop=True)

    def _goals(self, frame: pd.DataFrame, goals: Sequence[str], held: Sequence[str]) -> Numbers:
        """Returns the goals of points by columns; of a point that does not hold what is to be held, how far off it is."""
        found = np.stack([self.goal(frame, goal) for goal in goals], axis=1)
        for one in held:
            is_held = frame[f"{one}.verdict"].isin([HELD, NEVER]).to_numpy()
            found[~is_held] = 1e200 + frame[f"{one}.failed"].to_numpy(np.float64)[~is_held, None]
        return found

    def close(self) -> None:
        """Closes the file."""
        self.store.file.close()
        if "files" in vars(self.task):
            self.task.files.made.cleanup()
