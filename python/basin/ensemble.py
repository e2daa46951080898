"""Ensembles of any number of traces: `plan`, `execute` and `merge`, and `run` for the three of them.

A plan is cut into parts, which run in this process, in local ones, on the workers of a dask client, or as
tasks of Slurm. A part that is there is not run again.
"""

from __future__ import annotations

import contextlib
import os
import sys
import tempfile
import time as clock
import warnings
from fractions import Fraction
from pathlib import Path
from typing import TYPE_CHECKING, Any, Callable, Generator, Iterator, Literal, Sequence

import pandas as pd

from basin_files.ending import kill_below
from basin_files.reasons import plain

from .answers import fault_of
from .calls import InputsGiven, ModelGiven, PolicyGiven
from .errors import Error, FaultedTraces, left_out
from .files import Policy
from .netcdf import host, opened
from .parts import Done, Outcome, failure, outcomes, run_part
from .plans import Plan, each_part, plan
from .process import PathLike, ended_in_order
from .slurm import slurm
from .statistics import STATISTICS, Percent, merge, rank_of, texts_of
from .tables import UNKNOWN

if TYPE_CHECKING:
    import xarray
    from distributed import Client, LocalCluster

__all__ = ["Done", "FaultedTraces", "Plan", "execute", "faults", "merge", "nearest", "plan", "refusals", "run", "slurm"]
__all__ += ["statistics", "values"]

Progress = Callable[[int, int, Done], None]
Kept = Literal["float", "int64"]
AN_HOUR = 3_600
QUIET = 2  # seconds between two lines of progress
FAULT_COLUMNS = ("kind", "object", "slot", "rule", "rule_name", "step", "time", "value", "words")


class RefusedTraces(UserWarning):
    """Warns that some traces are refused, which no statistic includes. `refusals` lists them by name."""


class Room:
    """Has workers make their files in this folder, which is removed even if they are killed: a plugin of dask's."""

    def __init__(self, folder: str) -> None:
        self.folder = folder

    def setup(self, worker: object) -> None:
        """Is called in each worker as it begins."""
        tempfile.tempdir = self.folder


class Lines:
    """Progress as lines on the error stream, the first after two seconds."""

    def __init__(self) -> None:
        self.last = clock.monotonic()

    def __call__(self, done: int, parts: int, _: Done) -> None:
        now = clock.monotonic()
        if now - self.last >= QUIET:
            self.last = now
            print(f"basin: {done} of {parts} parts", file=sys.stderr, flush=True)


def run(
    folder: PathLike,
    model: ModelGiven,
    policy: PolicyGiven,
    inputs: InputsGiven,
    traces: Any,
    *,
    slots: Sequence[str] | Literal["all"],
    percentiles: Sequence[Percent] = (10, 50, 90),
    client: Client | None = None,
    workers: int | None = None,
    progress: Progress | None = None,
    program: PathLike | None = None,
    timeout: float | None = None,
) -> Plan:
    """Plans, executes and merges: afterwards the folder has all values and the statistics. `timeout` is that of `execute`."""
    told = plan(folder, model, policy, inputs, traces, slots=slots, program=program)
    execute(told, client=client, workers=workers, progress=progress, timeout=timeout)
    merge(told, percentiles)
    return told


def execute(
    told: Plan,
    *,
    client: Client | None = None,
    workers: int | None = None,
    retries: int = 3,
    progress: Progress | None = None,
    timeout: float | None = None,
) -> list[Done]:
    """Runs the parts that are missing: by the client, by as many local processes, or here with `workers=0`.

    A part of a worker that died runs again, as often as `retries` says, and no part stops another. `Error`
    at the end where parts failed. Traces that are refused or end in a fault are warned of. SIGTERM and SIGINT end local
    workers and their programs at once: parts that are done stay, and the next call runs the others. A part whose program
    takes longer than `timeout` seconds fails.
    """
    _clear(told)
    missing = told.missing()
    tell = progress or Lines()
    done: list[Done] = []
    failed: list[tuple[int, BaseException]] = []
    here = client is None and workers == 0 or not missing
    ended = outcomes(told.folder, missing, timeout) if here else _by_workers(told, missing, client, workers, retries, timeout)
    try:
        with ended_in_order(), contextlib.closing(ended):
            for number, found in ended:
                if isinstance(found, BaseException):
                    failed.append((number, found))
                else:
                    done.append(found)
                    tell(len(done), len(missing), found)
    finally:
        _clear(told)
    if failed:
        raise failure(failed, len(missing)) from failed[0][1]
    if count := sum(part.refused for part in done):
        warnings.warn(RefusedTraces(f"{count} traces are refused: basin.ensemble.refusals(..)"), stacklevel=2)
    if count := sum(part.faults for part in done):
        words = f"{count} traces ended in a fault, and no statistic includes them: basin.ensemble.faults(..)"
        warnings.warn(FaultedTraces(words), stacklevel=2)
    return done


def _by_workers(
    told: Plan,
    missing: list[int],
    client: Client | None,
    workers: int | None,
    retries: int,
    timeout: float | None,
) -> Generator[Outcome, None, None]:
    """Runs parts on workers, and yields each as it ends."""
    from distributed import as_completed

    with _client(client, workers) as at_work:
        folders = [str(told.folder)] * len(missing)
        futures = at_work.map(run_part, folders, missing, timeout=timeout, retries=retries, pure=False)
        numbers = dict(zip((future.key for future in futures), missing))
        for future in as_completed(futures):
            error = future.exception()
            yield numbers[future.key], error or future.result()
            future.release()


@contextlib.contextmanager
def _client(client: Client | None, workers: int | None) -> Iterator[Client]:
    """The client that is given, or one of local processes, each with one thread: netCDF4 is not safe with more.

    They speak TLS, with keys made for this call: over plain TCP any user of the machine could run code in them.
    """
    if client is not None:
        yield client
        return
    import dask
    from distributed import Client as NewClient
    from distributed import LocalCluster
    from distributed.security import Security

    # Without these workers take a quarter more of a processor: they look after themselves 160 times a second, and
    # hand back memory as soon as it is free, to ask for it again.
    settings = {
        "distributed.worker.profile.enabled": False,
        "distributed.worker.memory.monitor-interval": "1s",
        "distributed.admin.tick.interval": "1s",
        "distributed.nanny.pre-spawn-environ": {"OMP_NUM_THREADS": 1, "OPENBLAS_NUM_THREADS": 1},
    }
    with contextlib.ExitStack() as opened_here:
        opened_here.enter_context(_hidden_main())
        opened_here.enter_context(dask.config.set(settings))
        scratch = opened_here.enter_context(tempfile.TemporaryDirectory(prefix="basin-dask-", ignore_cleanup_errors=True))
        cluster = LocalCluster(
            n_workers=workers or os.cpu_count(),
            threads_per_worker=1,
            dashboard_address="127.0.0.1:0",
            protocol="tls://",
            security=Security.temporary(),
            local_directory=scratch,
        )
        opened_here.enter_context(cluster)
        at_work = opened_here.enter_context(NewClient(cluster))
        at_work.register_worker_plugin(Room(scratch))
        try:
            yield at_work
        except Exception:
            raise
        except BaseException:  # an interrupt, an exit, or a caller who breaks off
            _kill(cluster)
            raise


def _kill(cluster: LocalCluster) -> None:
    """Ends local workers and what they started, and has none begun anew."""
    from distributed.core import Status

    nannies = list(cluster.workers.values())
    for nanny in nannies:
        nanny.status = Status.failed
    kill_below({nanny.pid for nanny in nannies if nanny.pid})


@contextlib.contextmanager
def _hidden_main() -> Iterator[None]:
    """Workers do not run the caller's script: without `if __name__ == "__main__"` each would start workers again."""
    main = sys.modules["__main__"].__dict__
    kept = {name: main.pop(name) for name in ("__file__", "__spec__") if name in main}
    main["__spec__"] = None
    try:
        yield
    finally:
        del main["__spec__"]
        main.update(kept)


def _clear(told: Plan) -> None:
    """Removes what workers that died left half written."""
    for path in (told.folder / "parts").glob(".*"):
        with contextlib.suppress(FileNotFoundError):
            if _is_left(path):
                path.unlink()


def _is_left(path: Path) -> bool:
    """Returns whether nobody writes a file any more: its process has ended, or on another machine it is an hour old."""
    before, _, process = path.name.rpartition(".")
    if before.endswith(f".{host()}"):
        return not Path(f"/proc/{process}").exists()
    return clock.time() - path.stat().st_mtime > AN_HOUR


def faults(told: Plan) -> pd.DataFrame:
    """Returns the traces that ended in a fault, by name: kind, object, slot, rule, timestep, value, and the words."""
    model, rows = told.model, []
    names = Policy(told.files[1]).rule_names(model)
    for name, words in texts_of(told, "fault"):
        fault = fault_of(model, names, words)
        rows.append((name, *(getattr(fault, column) for column in FAULT_COLUMNS)))
    frame = pd.DataFrame(rows, columns=["trace", *FAULT_COLUMNS]).set_index("trace")
    return frame.astype({"rule": "Int64", "step": "Int64"})


def refusals(told: Plan) -> pd.DataFrame:
    """Returns the traces that the program refused, by name: why, and the row."""
    rows = [(name, *words.split(": ", 1)) for name, words in texts_of(told, "refused")]
    return pd.DataFrame(rows, columns=["trace", "reason", "row"]).set_index("trace")


def values(told: Plan, numbers: Kept = "float") -> xarray.Dataset:
    """Returns all values by trace and time, a variable for each slot, read from the parts when they are looked at.

    `OverflowError` where a value is beyond 2^53 and `numbers` is "float"; with "int64" what is not known is
    the least of all whole numbers.
    """
    import xarray

    _judge(numbers)
    return xarray.open_mfdataset(
        [path for _, path in each_part(told)],
        preprocess=lambda part: _exact(part, numbers),
        combine="nested",
        concat_dim="trace",
        data_vars="minimal",
        coords="minimal",
        compat="override",
        combine_attrs="override",
        mask_and_scale=numbers == "float",
    )


def statistics(told: Plan, numbers: Kept = "float") -> xarray.Dataset:
    """Returns what `merge` wrote, by time: SLOT.known, SLOT.min, SLOT.max, SLOT.mean, SLOT.percentile.

    `numbers` as of `values`. Raises `Error` where nothing is merged yet. Traces that ended in a fault are warned of, by name:
    no statistic counts them. `faulted` and `refused` hold all their names where there are some.
    """
    import xarray

    _judge(numbers)
    if not (told.folder / STATISTICS).exists():
        raise Error("there are no statistics yet: basin.ensemble.merge(..) writes them")
    with xarray.open_dataset(told.folder / STATISTICS, mask_and_scale=numbers == "float") as data:
        found = _exact(data, numbers).load()
    if "faulted" in found:
        warnings.warn(left_out([str(name) for name in found["faulted"].values], told.traces), stacklevel=2)
    return found


def _judge(numbers: str) -> None:
    """Raises `ValueError` where numbers are asked for in another form."""
    if numbers not in ("float", "int64"):
        raise ValueError(f'numbers is "float" or "int64", and not {numbers!r}')


def _exact(data: xarray.Dataset, numbers: Kept) -> xarray.Dataset:
    """Returns the data, where floats have each of its values or none are wanted."""
    if numbers == "float" and not data.attrs["exact_as_float64"]:
        data.close()
        raise OverflowError('a value beyond 2^53 isn\'t exact as float64: ask for numbers="int64"')
    return data


def nearest(told: Plan, slot: str, percent: Percent, over: Literal["mean", "last"] = "mean") -> str:
    """Returns the settled trace whose mean of a slot (or last known value) is that percentile of all of them, by name."""
    if over not in ("mean", "last"):
        raise ValueError(f'over is "mean" or "last", and not {over!r}')
    if slot not in told.slots:
        raise Error(f"the ensemble keeps no slot {plain(slot)}")
    found: list[tuple[Fraction, int, str]] = []
    for _, path in each_part(told):
        with opened(path) as part:
            texts = zip(part["trace"][:], part["fault"][:], part["refused"][:], part[slot][:])
            for name, fault, refused, cells in texts:
                known = cells[cells != UNKNOWN].tolist()
                if known and not fault and not refused:
                    measure = Fraction(sum(known), len(known)) if over == "mean" else Fraction(known[-1])
                    found.append((measure, len(found), str(name)))
    if not found:
        raise Error(f"no settled trace knows {slot}")
    return sorted(found)[int(rank_of(len(found), percent)) - 1][2]
