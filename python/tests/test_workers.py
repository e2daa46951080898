"""Ensembles on workers: one that is killed, a script without a guard, a client of one's own, a notebook."""

from __future__ import annotations

import os
import shlex
import signal
import subprocess
import sys
from pathlib import Path

import pytest
from distributed import Client, LocalCluster
from distributed.security import Security

import basin
from basin import ensemble

from small import SLOTS, cells_of, inflows, inputs, model, outflow, planned, policy, series, storage

pytestmark = pytest.mark.slow


def test_a_thousand_traces_with_a_worker_killed(tmp_path: Path) -> None:
    inflow = inflows(1000)
    loop = planned(tmp_path / "loop", inflow, size=40)
    ensemble.execute(loop, workers=0)
    told = planned(tmp_path / "workers", inflow, size=40)
    killed: list[int] = []

    def kill(done: int, _parts: int, _last: ensemble.Done) -> None:
        """Ends a worker as the system does where memory runs out."""
        if done == 4:
            os.kill(killed[0], signal.SIGKILL)

    settings = dict(
        n_workers=2,
        threads_per_worker=1,
        dashboard_address="127.0.0.1:0",
        local_directory=str(tmp_path / "dask"),
    )
    with LocalCluster(**settings) as cluster, Client(cluster) as client:
        killed += list(client.run(os.getpid).values())[:1]
        done = ensemble.execute(told, client=client, progress=kill)
        assert killed[0] not in client.run(os.getpid).values()
    assert sorted(one.part for one in done) == list(range(25)) and not told.missing()
    for slot, wanted in (("Dam.Storage", storage(inflow)), ("Dam.Outflow", outflow(inflow))):
        assert (cells_of(told, slot) == wanted).all() and (cells_of(loop, slot) == wanted).all()
    assert not list((told.folder / "parts").glob(".*"))


def test_local_workers_keep_their_memory() -> None:
    with ensemble._client(None, 1) as client:
        found = client.submit(os.environ.get, "MALLOC_TRIM_THRESHOLD_").result()
    assert found == os.environ.get("MALLOC_TRIM_THRESHOLD_")


def test_nobody_else_reaches_local_workers() -> None:
    with ensemble._client(None, 1) as client:
        address = client.scheduler.address
        assert address.startswith("tls://")
        for security in (None, Security.temporary()):
            with pytest.raises((OSError, TypeError)):
                Client(address if security else address.replace("tls", "tcp"), timeout=5, security=security)


def test_a_script_without_a_guard_starts_no_workers_without_end(tmp_path: Path) -> None:
    told = planned(tmp_path / "a", inflows(20), size=5)
    script = tmp_path / "script.py"
    script.write_text(
        "from basin import ensemble\n"
        f"told = ensemble.Plan.read({str(told.folder)!r})\n"
        "print(len(ensemble.execute(told, workers=2)), __name__, __file__[-9:])\n"
    )
    done = subprocess.run([sys.executable, script], capture_output=True, text=True, timeout=300, check=True)
    assert done.stdout == "4 __main__ script.py\n"


def test_a_part_that_fails_each_time_stops_no_other(tmp_path: Path) -> None:
    program = tmp_path / "basin"  # one that dies where an inflow is 49
    real = shlex.quote(basin.find_program())
    program.write_text(f'#!/bin/sh\ngrep -q \'Dam.Inflow,1,49$\' "$4" && kill -9 $$\nexec {real} "$@"\n')
    program.chmod(0o755)
    inflow = inflows(12) % 49
    inflow[7, 0] = 49
    told = ensemble.plan(
        tmp_path / "a",
        model(),
        policy(),
        inputs(),
        series(inflow),
        slots=SLOTS,
        size=2,
        way="run",
        program=str(program),
    )
    for workers in (0, 1):
        with pytest.raises(
            basin.Error, match="1 of . parts failed; part 3: the program was ended by signal 9"
        ):
            ensemble.execute(told, workers=workers, retries=1)
        assert told.missing() == [3]


def test_a_notebook(tmp_path: Path) -> None:
    nbclient = pytest.importorskip("nbclient")  # for the slow ones alone
    nbformat = pytest.importorskip("nbformat")
    told = planned(tmp_path / "a", inflows(10), size=5)
    cells = [
        f"from basin import ensemble, plot\ntold = ensemble.Plan.read({str(told.folder)!r})",
        "len(ensemble.execute(told, workers=2))",
        "ensemble.merge(told, [10, 50, 90])\nfloat(ensemble.statistics(told)['Dam.Storage.max'][-1])",
        "%matplotlib inline\nplot.bands(told, 'Dam.Storage');",
    ]
    book = nbformat.v4.new_notebook(cells=[nbformat.v4.new_code_cell(source) for source in cells])
    nbclient.NotebookClient(book, timeout=300, kernel_name="python3").execute(cwd=str(tmp_path))
    texts = [
        output["data"].get("text/plain")
        for cell in book.cells[1:3]
        for output in cell["outputs"]
        if "data" in output
    ]
    assert texts == ["2", str(float(storage(inflows(10))[:, -1].max()))]
    assert any("image/png" in output.get("data", {}) for output in book.cells[3]["outputs"])
