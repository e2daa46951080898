"""Ensembles in this process: against values reckoned by hand, ways, resumption, percentiles, Slurm's tasks."""

from __future__ import annotations

import os
import shlex
import signal
import subprocess
import sys
import time
from fractions import Fraction
from pathlib import Path

import netCDF4
import numpy as np
import pandas as pd
import pytest
import xarray

import basin
from basin import ensemble, netcdf
from basin.plans import shares
from basin.statistics import blocks, percentile
from basin.tables import UNKNOWN
from basin_files.ending import below

from small import (
    INPUTS,
    MODEL,
    SLOTS,
    STEPS,
    cells_of,
    inflows,
    inputs,
    model,
    outflow,
    planned,
    policy,
    rows,
    series,
)
from small import TOP, storage, wants

WAYS = ("run", "mrm")


def in_way(way: str) -> str:
    """The way, where the program has it."""
    if way == "mrm":
        wants("mrm", 4)
    return way


@pytest.mark.parametrize("way", WAYS)
def test_values_are_those_reckoned_by_hand(tmp_path: Path, way: str) -> None:
    inflow = inflows(70)
    told = planned(tmp_path / "a", inflow, way=in_way(way))
    done = ensemble.execute(told, workers=0)
    assert [(one.part, one.settled, one.faults, one.refused) for one in done] == [(0, 35, 0, 0), (1, 35, 0, 0)]
    assert (cells_of(told, "Dam.Storage") == storage(inflow)).all()
    assert (cells_of(told, "Dam.Outflow") == outflow(inflow)).all()
    with ensemble.values(told) as data:
        assert list(data["trace"].values[[0, 69]]) == ["y1900", "y1969"]
        assert (data["time"].values == model().index().values).all()
        held = data["Dam.Storage"]
        assert (held.attrs["units"], held.attrs["basin_unit"]) == ("m3", "m3")
        assert data["Dam.Outflow"].attrs["cell_methods"] == "time: sum"


def written(*traces: tuple[int, str]) -> str:
    """What `mrm` writes of traces with these inflows, each with how it ended."""
    header = f"step,stamp,{','.join(model().slots)}\n"
    table = basin.run(model(), policy(), inputs(), numbers="Int64").table
    rows = table.astype(str).agg(",".join, axis=1)
    text = "".join(f"{step},2020-01-01T00:00,{row}\n" for step, row in enumerate(rows, 1))
    tables = [(f"# trace {number} {ending}\n{header}", text if ending == "settled" else "") for number, ending in traces]
    return "".join(f"{begin}{table}" for begin, table in tables)


def telling(folder: Path, text: str, ending: str) -> str:
    """A program by which a part is this text, and then something else."""
    program, told = folder / "basin", folder / "told"
    told.write_text(text)
    program.write_text(f"#!/bin/sh\n[ $1 = mrm ] || exit 0\ncat {told}\n{ending}\n")
    program.chmod(0o755)
    return str(program)


@pytest.mark.parametrize("last", ["settled", "fault limit object Dam step 1 after 50"])
def test_a_program_is_left_where_all_traces_are_told(tmp_path: Path, last: str) -> None:
    summary = "" if last == "settled" else "# summary 1 of 2\n"  # of a fault the next line tells where it ends
    program = telling(tmp_path, written((1, "settled"), (2, last)) + summary, "exec sleep 1000")
    told = planned(tmp_path / "a", inflows(2), way="mrm", program=program)
    (done,) = ensemble.execute(told, workers=0)
    assert (done.settled, done.faults) == ((2, 0) if last == "settled" else (1, 1))
    assert (cells_of(told, "Dam.Storage")[0] == storage(np.full(STEPS, 9))).all()


@pytest.mark.parametrize(
    "cut, ending, why",
    [
        (0, "exit 0", "wrote nothing for 1 of 3 traces"),
        (0, "kill -9 $$", "ended by signal 9"),
        (5, "kill -9 $$", "ended by signal 9"),  # within a row, of which nobody sees the half
        (0, "echo basin: want of memory >&2; exit 5", "want of memory"),
        (5, "exit 0", "row is cut"),
    ],
)
def test_a_program_that_tells_too_little(tmp_path: Path, cut: int, ending: str, why: str) -> None:
    text = written((1, "settled"), (2, "settled"))
    program = telling(tmp_path, text[: len(text) - cut], ending)
    told = planned(tmp_path / "a", inflows(3), way="mrm", program=program)
    with pytest.raises(basin.Error, match=why):
        ensemble.execute(told, workers=0)
    assert told.missing() == [0] and list((told.folder / "parts").iterdir()) == []


def test_a_program_with_other_columns(tmp_path: Path) -> None:
    text = written((1, "settled")).replace("Dam.Inflow,Dam.Outflow", "Dam.Outflow,Dam.Inflow")
    told = planned(tmp_path / "a", inflows(1), way="mrm", program=telling(tmp_path, text, "exit 0"))
    with pytest.raises(basin.Error, match="columns of the program are not the slots"):
        ensemble.execute(told, workers=0)


def test_parts_are_of_about_one_size() -> None:
    for count in (1, 5, 63, 64, 65, 130, 1000):
        for size in (1, 7, 64):
            lengths = [some.stop - some.start for some in shares(count, size)]
            assert sum(lengths) == count and len(lengths) == -(-count // size)
            assert 1 <= min(lengths) and max(lengths) <= min(size, min(lengths) + 1)


def test_one_call_for_all_three_with_progress(
    tmp_path: Path, monkeypatch: pytest.MonkeyPatch, capsys: pytest.CaptureFixture[str]
) -> None:
    monkeypatch.setattr(ensemble, "QUIET", 0)
    inflow = inflows(3)
    told = ensemble.run(
        tmp_path / "a", model(), policy(), inputs(), series(inflow), slots=SLOTS, percentiles=[50], workers=0
    )
    median = np.sort(storage(inflow), axis=0)[1]
    assert (ensemble.statistics(told)["Dam.Storage.percentile"].values[0] == median).all()
    assert capsys.readouterr().err == "basin: 1 of 1 parts\n"


@pytest.mark.parametrize("way", WAYS)
def test_a_trace_takes_the_place_of_inputs_of_linked_slots(tmp_path: Path, way: str) -> None:
    traces = rows(
        ("a", "Below.GageInflow", "3-5", 2), ("a", "Dam.Inflow", 4, None), ("b", "Dam.Outflow", 7, 1)
    )
    given = inputs(f"{INPUTS}Dam.Outflow,1-10,4\n")
    told = ensemble.plan(
        tmp_path / "a", model(), policy(), given, traces, slots=["Dam.Outflow", "Dam.Inflow"], way=in_way(way)
    )
    ensemble.execute(told, workers=0)
    found, flows = cells_of(told, "Dam.Outflow"), cells_of(told, "Dam.Inflow")
    assert list(found[0, :8]) == [4, 4, 2, 2, 2, 4, 4, 4] and list(found[1, :8]) == [4] * 6 + [1, 4]
    assert np.isnan(flows[0, 3]) and np.isnan(flows).sum() == 1


def test_both_ways_come_to_the_same_cells(tmp_path: Path) -> None:
    wants("mrm", 4)
    folder = Path(basin.__file__).resolve().parents[2] / "examples/valley-rules"
    files = [folder / name for name in ("model.toml", "policy.rpl", "inputs.csv")]
    edits = pd.read_csv(folder / "edits.csv")
    found = []
    for way in WAYS:
        told = ensemble.plan(tmp_path / way, *files, edits, slots="all", way=way)
        ensemble.execute(told, workers=0)
        found.append(ensemble.values(told).load())
    assert found[0].drop_vars("trace").equals(found[1].drop_vars("trace")) and found[0].sizes["trace"] == 4


def test_more_rows_than_a_file_of_traces_has(tmp_path: Path) -> None:
    inflow = inflows(64, 400)
    told = ensemble.plan(
        tmp_path / "a",
        model(MODEL.replace(f"steps = {STEPS}", "steps = 400")),
        policy(),
        inputs("slot,step,value\n"),
        series(inflow),
        slots=SLOTS,
    )
    ensemble.execute(told, workers=0)
    assert (cells_of(told, "Dam.Storage") == storage(inflow)).all()


def test_a_folder_of_another_user_names_no_program(tmp_path: Path, monkeypatch: pytest.MonkeyPatch) -> None:
    told = planned(tmp_path / "a", inflows(2))
    program = basin.find_program()
    monkeypatch.setattr("os.geteuid", lambda: (tmp_path / "a").stat().st_uid + 1)
    monkeypatch.delenv("BASIN", raising=False)
    with pytest.raises(basin.Error, match="is another user's, and its plan names a program to run"):
        ensemble.execute(told, workers=0)
    assert told.missing() == [0]
    monkeypatch.setenv("BASIN", program)
    ensemble.execute(told, workers=0)
    assert not told.missing()


def test_a_full_disk_is_told(tmp_path: Path, monkeypatch: pytest.MonkeyPatch) -> None:
    told = planned(tmp_path / "a", inflows(2))

    real = netCDF4.Dataset

    def full(path: Path, *mode: str) -> netCDF4.Dataset:
        if mode == ("w",):
            raise RuntimeError("NetCDF: HDF error")
        return real(path, *mode)

    with monkeypatch.context() as patched:
        patched.setattr("basin.netcdf.LITTLE", 1 << 62)
        patched.setattr("netCDF4.Dataset", full)
        with pytest.raises(basin.Error, match="00000.nc: the disk is full"):
            ensemble.execute(told, workers=0)
    assert not list((told.folder / "parts").iterdir())
    ensemble.execute(told, workers=0)


def test_what_is_asked_to_end_ends_the_program(tmp_path: Path) -> None:
    begun, program, rooms = tmp_path / "begun", tmp_path / "basin", tmp_path / "rooms"
    rooms.mkdir()
    real = shlex.quote(basin.find_program())
    hangs = f"test -s \"$5\" && echo $$ > {begun}.new && mv {begun}.new {begun} && exec sleep 300"
    program.write_text(f'#!/bin/sh\n[ "$1" != mrm ] || {{ {hangs}; }}\nexec {real} "$@"\n')
    program.chmod(0o755)
    told = planned(tmp_path / "a", inflows(2), way="mrm", program=str(program))
    path = os.pathsep.join(str(TOP / name) for name in ("python", "tools"))
    environment = {**os.environ, "PYTHONPATH": path, "TMPDIR": str(rooms)}
    words = [sys.executable, "-m", "basin", "run", str(told.folder), "--workers", "0"]
    with subprocess.Popen(words, env=environment) as running:
        while not begun.exists() and running.poll() is None:
            time.sleep(0.05)
        running.terminate()
    assert running.returncode == 128 + signal.SIGTERM and not list(rooms.iterdir())
    with pytest.raises(ProcessLookupError):
        os.kill(int(begun.read_text()), 0)


def is_at_work(process: int) -> bool:
    """Whether a process has not ended; one of which nobody asked yet how it ended has."""
    try:
        return Path(f"/proc/{process}/stat").read_text().rpartition(")")[2].split()[0] != "Z"
    except OSError:
        return False


def heed() -> None:
    """Has a program heed SIGINT: what a shell starts in the background ignores it."""
    signal.signal(signal.SIGINT, signal.SIG_DFL)


@pytest.mark.parametrize("number", [signal.SIGTERM, signal.SIGINT])
def test_what_is_asked_to_end_ends_its_workers(tmp_path: Path, number: signal.Signals) -> None:
    begun, program, rooms = tmp_path / "begun", tmp_path / "basin", tmp_path / "rooms"
    for folder in (begun, rooms):
        folder.mkdir()
    real = shlex.quote(basin.find_program())
    hangs = f"grep -q ',47$' \"$5\" && touch {begun}/$$ && exec sleep 300"  # the traces of the last two parts
    program.write_text(f'#!/bin/sh\n[ "$1" != mrm ] || {{ {hangs}; }}\nexec {real} "$@"\n')
    program.chmod(0o755)
    inflow = inflows(6) % 47
    inflow[2:] = 47
    told = planned(tmp_path / "a", inflow, size=2, way="mrm", program=str(program))
    path = os.pathsep.join(str(TOP / name) for name in ("python", "tools"))
    environment = {**os.environ, "PYTHONPATH": path, "TMPDIR": str(rooms)}
    words = [sys.executable, "-m", "basin", "run", str(told.folder), "--workers", "2"]
    with subprocess.Popen(words, env=environment, stderr=subprocess.DEVNULL, preexec_fn=heed) as running:
        while (len(list(begun.iterdir())) < 2 or len(told.missing()) > 2) and running.poll() is None:
            time.sleep(0.05)
        workers = below({running.pid}) - {running.pid}
        running.send_signal(number)
        asked = time.monotonic()
        running.wait(60)
        while any(map(is_at_work, workers)) and time.monotonic() - asked < 60:
            time.sleep(0.05)
    took = time.monotonic() - asked
    programs = {int(file.name) for file in begun.iterdir()}
    assert len(programs) == 2 and programs <= workers
    assert running.returncode == 128 + number and took < 20  # a busy machine takes longer than a second
    assert not list(rooms.iterdir()) and [file.name for file in (told.folder / "parts").iterdir()] == ["00000.nc"]
    program.write_text(f'#!/bin/sh\nexec {real} "$@"\n')
    assert [done.part for done in ensemble.execute(told, workers=0)] == [1, 2]
    assert (cells_of(told, "Dam.Outflow") == outflow(inflow)).all()


@pytest.mark.parametrize("form", ["frames", "rows", "dataset", "file"])
def test_traces_in_each_form(tmp_path: Path, form: str) -> None:
    inflow = inflows(3)
    data = series(inflow)
    frames = {
        name: pd.DataFrame({"Dam.Inflow": row}, index=model().index())
        for name, row in zip(data["trace"].values, inflow)
    }
    long = [
        (name, "Dam.Inflow", step, value)
        for name, row in zip(frames, inflow)
        for step, value in enumerate(row, 1)
    ]
    data.to_netcdf(tmp_path / "traces.nc")
    given = {"frames": frames, "rows": rows(*long), "dataset": data, "file": tmp_path / "traces.nc"}[form]
    told = ensemble.plan(tmp_path / "a", model(), policy(), inputs(), given, slots=["Dam.Outflow"])
    assert told.names == [["y1900", "y1901", "y1902"]]
    ensemble.execute(told, workers=0)
    assert (cells_of(told, "Dam.Outflow") == outflow(inflow)).all()


def test_series_with_holes_large_numbers_and_numbers_for_names(tmp_path: Path) -> None:
    wide = xarray.Dataset(
        {"Dam.Inflow": (("time", "trace"), [[1.0, np.nan], [np.nan, 4.0]])}, {"time": model().index(2)}
    )
    told = ensemble.plan(tmp_path / "a", model(), policy(), inputs(), wide, slots=["Dam.Inflow"])
    ensemble.execute(told, workers=0)
    assert told.names == [["1", "2"]] and cells_of(told, "Dam.Inflow")[:, :3].tolist() == [
        [1, 9, 9],
        [9, 4, 9],
    ]
    filled = series(np.array([[1, -9999] + [9] * (STEPS - 2)])).astype(float)
    filled["Dam.Inflow"].encoding["_FillValue"] = -9999.0
    filled.where(filled > 0).to_netcdf(tmp_path / "filled.nc")  # with the fill for what isn't known
    told = ensemble.plan(
        tmp_path / "c", model(), policy(), inputs("slot,step,value\n"), tmp_path / "filled.nc", slots=SLOTS
    )
    ensemble.execute(told, workers=0)
    assert (
        np.isnan(cells_of(told, "Dam.Storage")[0, 1:]).all() and cells_of(told, "Dam.Storage")[0, 0] == 1001
    )
    large = series(np.full((1, STEPS), 10**17))
    large["Dam.Inflow"].encoding["_FillValue"] = -1
    large.to_netcdf(tmp_path / "large.nc")
    told = ensemble.plan(
        tmp_path / "b", model(), policy(), inputs(), tmp_path / "large.nc", slots=["Dam.Inflow"]
    )
    ensemble.execute(told, workers=0)
    ensemble.merge(told)
    for read in (ensemble.values, ensemble.statistics):
        with pytest.raises(OverflowError, match="int64"):
            read(told)
    assert ensemble.values(told, numbers="int64")["Dam.Inflow"].values[0, 0] == 10**17
    assert ensemble.statistics(told, numbers="int64")["Dam.Inflow.min"].values[0] == 10**17


@pytest.mark.parametrize(
    "attributes, why",
    [
        ({"units": "m3 s-1"}, "base unit"),
        ({"scale_factor": 0.1}, "packed"),
        ({"units": "m3"}, ""),
        ({"units": "m3/step"}, ""),
    ],
)
def test_units_of_series(tmp_path: Path, attributes: dict[str, object], why: str) -> None:
    data = series(inflows(1))
    data["Dam.Inflow"].attrs = attributes
    if why:
        with pytest.raises(ValueError, match=why):
            ensemble.plan(tmp_path / "a", model(), policy(), inputs(), data, slots=SLOTS)
        assert list(tmp_path.iterdir()) == []
    else:
        ensemble.plan(tmp_path / "a", model(), policy(), inputs(), data, slots=SLOTS)


@pytest.mark.parametrize("way", WAYS)
def test_faults_and_refusals_by_name(tmp_path: Path, way: str) -> None:
    traces = rows(
        ("wet", "Dam.Inflow", 1, 50),
        ("dry", "Dam.Outflow", 2, 10**6),
        ("below", "Dam.Inflow", 2, -1),
        ("late", "Dam.Inflow", "40-41", None),
        ("other", "Lake.Inflow", 1, 1),
        ("twice", "Dam.Outflow", "1-3", 1),
        ("twice", "Below.GageInflow", 3, 1),
        ("usual", "Dam.Inflow", 1, 20),
    )
    told = ensemble.plan(tmp_path / "a", model(), policy(), inputs(), traces, slots=SLOTS, way=in_way(way))
    with pytest.warns(UserWarning) as warned:
        done = ensemble.execute(told, workers=0)
    assert [(one.category, str(one.message)[:8]) for one in warned] == [
        (ensemble.RefusedTraces, "4 traces"), (ensemble.FaultedTraces, "1 traces")
    ]
    assert [(one.settled, one.faults, one.refused) for one in done] == [(2, 1, 4)] and not told.missing()
    faults = ensemble.faults(told)
    assert list(faults.index) == ["dry"] and faults.loc["dry", "kind"] == "out of range"
    assert (faults.loc["dry", "step"], faults.loc["dry", "time"]) == (2, pd.Timestamp("2020-01-02"))
    assert ensemble.refusals(told).to_dict("index") == {
        "below": {"reason": "out of bounds", "row": "Dam.Inflow,2,-1"},
        "late": {"reason": "step outside", "row": "Dam.Inflow,40-41,"},
        "other": {"reason": "unknown slot", "row": "Lake.Inflow,1,1"},
        "twice": {"reason": "twice", "row": "Below.GageInflow,3,1"},
    }
    ensemble.merge(told, [50])
    with pytest.warns(ensemble.FaultedTraces, match="^1 of 7 traces ended in a fault, and no statistic includes them: dry$"):
        found = ensemble.statistics(told)
    assert [found.attrs[word] for word in ("traces", "settled", "faulted", "refused")] == [8 - 1, 2, 1, 4]
    assert list(found["faulted"].values) == ["dry"] and sorted(found["refused"].values) == ["below", "late", "other", "twice"]
    words = [sys.executable, "-m", "basin", "merge", str(told.folder)]
    path = os.pathsep.join(str(TOP / name) for name in ("python", "tools"))
    merged = subprocess.run(words, env={**os.environ, "PYTHONPATH": path}, check=True, capture_output=True, text=True).stdout
    assert merged.splitlines()[1] == "7 traces, 1 ended in a fault (dry), 4 are refused"
    assert list(found["Dam.Storage.known"].values) == [2] * STEPS
    assert float(found["Dam.Outflow.min"][0]) == 15 and float(found["Dam.Outflow.max"][0]) == 45


def test_percentiles_by_their_definition(tmp_path: Path) -> None:
    inflow = inflows(75)
    told = planned(tmp_path / "a", inflow, size=7)
    ensemble.execute(told, workers=0)
    percents = (0, 5, 28, 50, 90, "99.5", 100)
    ensemble.merge(told, percents, room=20_000)
    found = ensemble.statistics(told)
    held = storage(inflow)
    for place, percent in enumerate(percents):
        share = Fraction(str(percent)) / 100
        for step in range(STEPS):
            least = min(v for v in held[:, step] if Fraction(int((held[:, step] <= v).sum()), 75) >= share)
            assert found["Dam.Storage.percentile"].values[place, step] == least
    assert (found["Dam.Storage.min"].values == held.min(axis=0)).all()
    assert np.allclose(found["Dam.Storage.mean"].values, held.mean(axis=0))
    many = ensemble.merge(told, percents)
    assert found.equals(ensemble.statistics(told)) and many.name == "ensemble.nc"


def test_ranks_by_whole_numbers() -> None:
    column, count = np.arange(1, 26)[:, None], np.array([25])
    assert percentile(column, count, 28)[0] == 7  # floats come to 8, since 28/100 isn't one of theirs
    assert percentile(column, count, 0)[0] == 1 and percentile(column, count, 100)[0] == 25
    assert percentile(np.array([[UNKNOWN], [3], [5]]), np.array([2]), 50)[0] == 3
    assert percentile(np.array([[UNKNOWN]]), np.array([0]), 50)[0] == UNKNOWN
    assert percentile(np.empty((0, 1), np.int64), np.array([0]), 50)[0] == UNKNOWN
    with pytest.raises(ValueError, match="0 to 100"):
        percentile(column, count, 101)


def test_the_median_is_that_of_mrm(tmp_path: Path) -> None:
    wants("mrm", 4)
    inflow = inflows(20)
    frames = [pd.DataFrame({"Dam.Inflow": row}, index=model().index()) for row in inflow]
    told = planned(tmp_path / "a", inflow)
    ensemble.execute(told, workers=0)
    ensemble.merge(told, [50])
    summary, found = basin.mrm(model(), policy(), inputs(), frames).summary, ensemble.statistics(told)
    for slot in SLOTS:
        assert list(summary.loc[slot, "median"]) == list(found[f"{slot}.percentile"].values[0])


def test_blocks_cover_all_once() -> None:
    for room in (16 * 3 * 4, 16 * 3 * 10, 16 * 3 * 25, 10**6, 1):
        covered = [
            (slot, step)
            for block in blocks(["a", "b", "c"], 10, 3, room)
            for slot in block.slots
            for step in range(block.steps.start, block.steps.stop)
        ]
        assert sorted(covered) == [(slot, step) for slot in "abc" for step in range(10)]


def test_resumption_and_another_ensemble(tmp_path: Path) -> None:
    inflow = inflows(20)
    told = planned(tmp_path / "a", inflow, size=5)
    ensemble.execute(told, workers=0)
    before = {path: path.read_bytes() for path in (told.folder / "parts").iterdir()}
    told.part(2).unlink()
    again = planned(tmp_path / "a", inflow, size=5)
    assert again == told and again.missing() == [2]
    assert [done.part for done in ensemble.execute(again, workers=0)] == [2]
    assert {path: path.read_bytes() for path in (told.folder / "parts").iterdir()} == before
    assert ensemble.execute(again) == []  # and starts no worker
    for changed in (inflows(20, seed=2), inflows(19)):
        with pytest.raises(basin.Stale, match="another ensemble"):
            planned(tmp_path / "a", changed, size=5)
    with pytest.raises(basin.Stale):
        ensemble.plan(
            tmp_path / "a", model(), policy(RULE_OF_6), inputs(), series(inflow), slots=SLOTS, size=5
        )
    assert [path.name for path in tmp_path.iterdir()] == ["a"]


RULE_OF_6 = 'RULE "let out": Dam.Outflow[t] := Max(Dam.Inflow[t] - 6 "m3/step", 0 "m3/step"); ENDRULE\n'


def test_plans_that_can_not_be(tmp_path: Path) -> None:
    data = series(inflows(2))
    with pytest.raises(basin.Refused):
        ensemble.plan(tmp_path / "a", model(), policy("RULE"), inputs(), data, slots=SLOTS)
    with pytest.raises(basin.Error, match="no slot"):
        ensemble.plan(tmp_path / "a", model(), policy(), inputs(), data, slots=["Dam.Nothing"])
    with pytest.raises(TypeError):
        ensemble.plan(tmp_path / "a", model(), policy(), inputs(), data, slots="Dam.Storage")
    with pytest.raises(ValueError, match="same name"):
        ensemble.plan(
            tmp_path / "a", model(), policy(), inputs(), data.assign_coords(trace=["a", "a"]), slots=SLOTS
        )
    with pytest.raises(ValueError, match="no trace"):
        ensemble.plan(tmp_path / "a", model(), policy(), inputs(), {}, slots=SLOTS)
    with pytest.raises(ValueError, match="1 to 64"):
        planned(tmp_path / "a", inflows(2), size=65)
    (tmp_path / "full").mkdir()
    (tmp_path / "full/mine").touch()
    with pytest.raises(basin.Error, match="cannot make"):
        planned(tmp_path / "full", inflows(2))
    assert [path.name for path in tmp_path.iterdir()] == ["full"]
    told = planned(tmp_path / "a", inflows(2))
    with pytest.raises(basin.Error, match="1 of 1 parts are missing"):
        ensemble.merge(told)
    with pytest.raises(basin.Error, match="no statistics yet"):
        ensemble.statistics(told)
    for read in (ensemble.values, ensemble.statistics):
        with pytest.raises(ValueError, match="float"):
            read(told, numbers="Int64")  # type: ignore[arg-type]


def test_plans_are_found_by_their_folder(tmp_path: Path, monkeypatch: pytest.MonkeyPatch) -> None:
    told = planned(tmp_path / "a", inflows(2))
    monkeypatch.chdir(tmp_path)
    assert ensemble.Plan.read("a") == told  # by its whole path, since workers may be elsewhere
    for text in ("", "[]", "{}"):
        (tmp_path / "plan.json").write_text(text)
        with pytest.raises(basin.Error, match="holds no plan"):
            ensemble.Plan.read(tmp_path)
    with pytest.raises(basin.Error, match="holds no plan"):
        ensemble.Plan.read("b")


def test_a_task_whose_part_fails_runs_the_others(tmp_path: Path) -> None:
    told = planned(tmp_path / "a", inflows(6), size=2)
    (told.folder / "traces.nc").rename(told.folder / "away")
    (told.folder / "traces").mkdir()
    (told.folder / "traces/00001.csv").write_text("trace,slot,step,value\n1,Dam.Inflow,1,7\n2,Dam.Inflow,1,8\n")
    words = [sys.executable, "-m", "basin", "task", told.folder]
    done = subprocess.run([*words, "1", "1"], capture_output=True, text=True, check=False)
    assert done.returncode == 2 and done.stderr.startswith("basin: 2 of 3 parts failed; part 0: ")
    assert told.missing() == [0, 2]
    for task, tasks in (("0", "1"), ("2", "1"), ("1", "0")):
        done = subprocess.run([*words, task, tasks], capture_output=True, text=True, check=False)
        assert (done.returncode, done.stderr) == (2, f"basin: of {tasks} tasks none is the one numbered {task}\n")


def test_the_trace_nearest_to_a_percentile(tmp_path: Path) -> None:
    inflow = inflows(25)
    told = planned(tmp_path / "a", inflow)
    ensemble.execute(told, workers=0)
    last = storage(inflow)[:, -1]
    order = np.argsort(last, kind="stable")
    assert ensemble.nearest(told, "Dam.Storage", 28, over="last") == f"y{1900 + order[6]}"
    with pytest.raises(basin.Error, match="keeps no slot"):
        ensemble.nearest(told, "Dam.Inflow", 50)
    with pytest.raises(ValueError, match="mean"):
        ensemble.nearest(told, "Dam.Storage", 50, over="median")  # type: ignore[arg-type]
    means = outflow(inflow).sum(axis=1)
    assert ensemble.nearest(told, "Dam.Outflow", 100) == f"y{1900 + np.argsort(means, kind='stable')[-1]}"


def test_slurm_tasks_one_by_one(tmp_path: Path) -> None:
    inflow = inflows(20)
    told = planned(tmp_path / "a", inflow, size=5)
    array, last = ensemble.slurm(told, tasks=2)
    assert "#SBATCH --array=1-2\n" in array.read_text()
    bare = {"PATH": os.defpath}  # a task has neither the variables nor the folder of the process that planned it
    for task in ("1", "2"):
        subprocess.run(
            ["bash", array], check=True, cwd="/", env={**bare, "SLURM_ARRAY_TASK_ID": task}, capture_output=True
        )
    merged = subprocess.run(["bash", last], check=True, cwd="/", env=bare, capture_output=True, text=True).stdout
    assert merged.splitlines()[1] == "20 traces, 0 ended in a fault, 0 are refused"
    assert (cells_of(told, "Dam.Storage") == storage(inflow)).all()
    with netCDF4.Dataset(told.folder / "ensemble.nc") as out:
        assert out.settled == 20


def test_no_more_than_a_thousand_tasks_and_plain_folders(tmp_path: Path) -> None:
    told = planned(tmp_path / "a", inflows(3), size=1)
    assert "--array=1-3\n" in ensemble.slurm(told, tasks=5000)[0].read_text()
    odd = planned(tmp_path / "a b;touch pwned", inflows(3))
    with pytest.raises(ValueError, match="letters"):
        ensemble.slurm(odd)


def test_words_of_the_module(tmp_path: Path) -> None:
    told = planned(tmp_path / "a", inflows(3))
    done = subprocess.run(
        [sys.executable, "-m", "basin", "merge", told.folder], capture_output=True, text=True, check=False
    )
    assert (done.returncode, done.stderr) == (2, "basin: 1 of 1 parts are missing, the first is 0\n")
    done = subprocess.run(
        [sys.executable, "-m", "basin", "run", tmp_path], capture_output=True, text=True, check=False
    )
    assert done.returncode == 2 and "holds no plan" in done.stderr


def test_what_another_container_writes_is_not_taken_for_left(tmp_path: Path, monkeypatch: pytest.MonkeyPatch) -> None:
    told = planned(tmp_path / "a", inflows(1))
    nobody = 2**22 + 1  # no process has such a number
    names = {}
    for where in ("4026531836", "4026532999"):
        monkeypatch.setattr("basin.netcdf.host", lambda where=where: f"node-{where}")
        monkeypatch.setattr("basin.netcdf.os.getpid", lambda: nobody)
        with netcdf.appearing(told.part(0)):
            (names[where],) = (path.name for path in (told.folder / "parts").glob(".*"))
        told.part(0).unlink()
    assert len(set(names.values())) == 2
    for name in names.values():
        (told.folder / "parts" / name).touch()
    monkeypatch.setattr("basin.ensemble.host", lambda: "node-4026531836")
    ensemble._clear(told)
    assert [path.name for path in (told.folder / "parts").glob(".*")] == [names["4026532999"]]
