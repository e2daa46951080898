"""The calls, on the shipped examples and on a small basin."""

from __future__ import annotations

import pickle
import shlex
import time
from pathlib import Path
from typing import Any, Callable

import numpy as np
import pandas as pd
import pytest

import basin
from basin import ensemble
from basin import files as of_files
from basin.errors import Refused
from basin.process import answer

from small import EXAMPLES, INPUTS, MODEL, STEPS, VALLEY, inflows, inputs, model, outflow, planned, policy, rows, wants

NOTHING = "slot,step,value\n"


@pytest.mark.parametrize("name", sorted(path.parent.name for path in EXAMPLES.glob("*/table.csv")))
def test_shipped_tables_cell_by_cell(name: str) -> None:
    folder = EXAMPLES / name
    wanted = pd.read_csv(folder / "table.csv", comment="#", dtype=str, keep_default_na=False)
    files = [folder / file for file in ("model.toml", "policy.rpl", "inputs.csv") if (folder / file).exists()]
    for form in ("Int64", "float"):
        answer = (basin.run if len(files) == 3 else basin.simulate)(*files, numbers=form)
        assert list(answer.table.columns) == list(wanted.columns[2:]) == list(answer.units)
        for slot in answer.table:
            held = answer.table[slot]
            assert ["" if pd.isna(value) else str(int(value)) for value in held] == list(wanted[slot])
    ends = basin.Model(folder / "model.toml").ends(len(wanted))
    assert list(ends.strftime("%Y-%m-%dT%H:%M")) == list(wanted["stamp"])


def test_months_are_summed_right() -> None:
    table = basin.run(*VALLEY).table
    assert table.index.freqstr == "D" and str(table.index[0]) == "2021-01-01 00:00:00"
    sums = table["Upper.Inflow"].resample("MS").sum()
    assert list(sums.iloc[:2]) == [31 * 300, 28 * 320]  # by the shipped inputs
    assert table["Upper.Storage"].resample("MS").last().iloc[0] == table["Upper.Storage"].iloc[30]


def test_edits_reuse_flags_and_trace() -> None:
    answers = basin.run(
        *VALLEY, edits=EXAMPLES / "valley-rules/edits.csv", reuse=True, flags=True, trace=True
    )
    assert [answer.number for answer in answers] == [0, 1, 2, 3, 4]
    assert answers[0].reran is None and 0 < len(answers[1].reran or []) < 365
    flags = answers[0].flags
    assert flags is not None and flags.shape == answers[0].table.shape
    assert set(flags["Upper.Inflow"]) == {"I0"}  # an input
    assert answers[0].trace[0] == "open 1" and answers[0].trace[-1] == "close 365"


def test_inputs_and_edits_from_frames() -> None:
    index = model().index(3)
    frame = pd.DataFrame({"Dam.Inflow": [5, np.nan, 7]}, index=index)
    given = basin.Inputs.from_frame(model(), frame)
    assert given.content == b"slot,step,value\nDam.Inflow,1,5\nDam.Inflow,3,7\n"
    edits = [(1, "Dam.Inflow", "2020-01-02", 9), (2, "Dam.Inflow", 3, None)]
    wanted = [[5, -1, 7], [5, 9, 7], [5, 9, -1]]
    long = pd.DataFrame(edits, columns=["batch", "slot", "time", "value"])
    for batches in (
        basin.run(model(), policy(), given, edits=long),
        basin.run(model(), policy(), frame, edits=long),
    ):
        assert [list(one.table["Dam.Inflow"].fillna(-1).iloc[:3]) for one in batches] == wanted
    wide = [pd.DataFrame({"Dam.Inflow": [9]}, index=index[1:2])]
    assert list(basin.run(model(), policy(), given, edits=wide)[1].table["Dam.Inflow"].iloc[:3]) == [5, 9, 7]
    with pytest.raises(ValueError, match="batch 1 has no value"):
        basin.run(model(), policy(), given, edits=[wide[0].iloc[:0]])


@pytest.mark.parametrize(
    "files, fields",
    [
        (
            (MODEL, "", f"{NOTHING}Dam.Inflow,99,1\n"),
            dict(status=8, file="inputs", row=2, column=2, reason="step outside"),
        ),
        (
            (MODEL.replace("= 40", "= 0"), "", NOTHING),
            dict(status=6, file="model", path="run.steps", reason="bad parameter"),
        ),
        (
            (MODEL.replace('Below"', 'Dam"'), "", NOTHING),
            dict(file="model", path="object[2]", reason="duplicate name"),
        ),
        (("[", "", NOTHING), dict(status=6, file="model", reason="not TOML")),
        (
            (MODEL, "RULE", NOTHING),
            dict(status=7, file="rules", declaration=1, line=1, reason="bad declaration"),
        ),
        ((MODEL, 'RULE "a": Dam.X[t] := 1; ENDRULE', NOTHING), dict(file="rules", declaration=1, node=1)),
        (
            (MODEL, "CODE 1\nRULE\nLOCALS -\nadd\nEND\n", NOTHING),
            dict(status=9, file="code", block=1, place=0),
        ),
    ],
)
def test_refusals_have_fields(files: tuple[str, str, str], fields: dict[str, object]) -> None:
    with pytest.raises(basin.Refused) as told:
        basin.run(model(files[0]), policy(files[1]), inputs(files[2]))
    assert {name: getattr(told.value, name) for name in fields} == fields
    again = pickle.loads(pickle.dumps(told.value))  # as from a worker
    assert {name: getattr(again, name) for name in fields} == fields and str(again) == str(told.value)


def test_refusals_of_paths_are_shown_on_one_line() -> None:
    with pytest.raises(basin.Refused) as told:
        basin.check("no\x1b[31m\nsuch", policy())
    assert told.value.reason == "cannot read" and told.value.path.endswith("no\x1b[31m\nsuch")
    assert str(told.value).isprintable()


def test_a_fault_has_fields_and_the_table_up_to_it() -> None:
    rules = policy('RULE "halves\x1b": Dam.Outflow[t] := Dam.Inflow[t] / (2 - DAY(t)); ENDRULE\n')
    with pytest.raises(basin.Fault) as told:
        basin.run(model(), rules, inputs())
    fault = told.value
    assert (fault.kind, fault.rule, fault.rule_name, fault.step) == ("division by zero", 1, "halves\x1b", 2)
    assert fault.time == pd.Timestamp("2020-01-02") and str(fault).isprintable()
    assert fault.answer is not None and len(fault.answer.table) == 1
    at_once = policy('RULE "none": Dam.Outflow[t] := Dam.Inflow[t] / (1 - DAY(t)); ENDRULE\n')
    empty = basin.run(model(), at_once, inputs(), flags=True, errors="keep")
    assert empty.flags is not None and empty.flags.shape == empty.table.shape == (0, len(model().slots))
    kept = basin.run(model(), rules, inputs(), errors="keep").fault
    assert kept is not None and kept.words == "division by zero rule 1 step 2"


def test_a_conflict_has_its_values() -> None:
    given = inputs(f"{NOTHING}Dam.Inflow,1,9\nDam.Outflow,1,4\nDam.Storage,1,1000\n")
    with pytest.raises(basin.Fault) as told:
        basin.simulate(model(), given)
    fault = told.value
    assert (fault.kind, fault.object, fault.slot, fault.step) == ("conflict", "Dam", "Dam.Storage", 1)
    assert (fault.held, fault.solved, fault.rule, fault.after) == (1000, 1005, None, None)


def test_large_numbers_are_exact_or_refused() -> None:
    given = inputs(f"{NOTHING}Dam.Inflow,1,{10**16 + 1}\n")
    assert basin.run(model(), policy(), given, numbers="Int64").table["Dam.Inflow"].iloc[0] == 10**16 + 1
    with pytest.raises(OverflowError, match="Int64"):
        basin.run(model(), policy(), given)


def test_a_program_whose_reader_breaks_off_is_ended(tmp_path: Path) -> None:
    header = ",".join(("step", "stamp", *model().slots))
    row = ",".join(("1", "2020-01-02T00:00", *[str(10**16 + 1)] * len(model().slots)))
    (tmp_path / "told").write_text(f"# trace 1 settled\n{header}\n{row}\n# trace 2 settled\n")
    program = script(tmp_path / "basin", f"cat {tmp_path}/told; exec sleep 1000")
    frames = [pd.DataFrame({"Dam.Inflow": [5]}, index=[1])] * 2
    with pytest.raises(OverflowError):
        basin.mrm(model(), policy(), inputs(), frames, program=program)


def test_why_and_check() -> None:
    cell = basin.why(*VALLEY, "Upper.Inflow", "2021-02-01")
    assert (cell.value, cell.flag, cell.given, len(cell.history)) == (320, "I0", True, 0)
    cell = basin.why(model(), policy(), inputs(), "Dam.Outflow", 2)
    assert (cell.value, cell.flag, cell.given, cell.fault) == (4, "R1", False, False)
    assert cell.history.to_dict("records") == [
        dict(step=2, time=pd.Timestamp("2020-01-02"), by="rule", rule=1, name="let out", value=4, flag="R1")
    ]
    unknown = basin.why(model(), policy(), inputs(NOTHING), "Dam.Outflow", 2)
    assert unknown.value is None and unknown.flag == ""
    budgets = basin.check(*VALLEY[:2])
    text = (EXAMPLES / "valley-rules/check.txt").read_text().splitlines()[1:]
    assert [
        f"rule {k} instructions {a} reads {b} puts {c} words {d}" for k, _, a, b, c, d in budgets.itertuples()
    ] == text
    assert list(budgets["name"][:2]) == ["flood pool", "least release"]


def test_effects_of_rules() -> None:
    given = inputs(f"{INPUTS}Dam.Outflow,3-5,7\n")  # the rule wants 4
    found = basin.effects(model(), policy(), given)
    row = found.table.loc[(1, "Dam.Outflow")]
    assert (row["name"], row["stands"], row["denied"], row["again"]) == ("let out", STEPS - 3, 3, 0)
    valley = basin.effects(*VALLEY)
    assert (valley.table.drop(columns="name").sum(axis=1) == 365).all()  # each rule fires each day
    gave_way = valley.table["gave way"]
    assert [
        f" {count} timesteps" in told for count, told in zip(gave_way[gave_way > 0], valley.sentences)
    ] == [True]


def test_order_of_dispatches() -> None:
    newest = basin.simulate(model(), inputs(f"{INPUTS}Dam.Outflow,1-{STEPS},4\n"), order="newest")
    assert list(newest.table["Dam.Storage"].iloc[:2]) == [1005, 1010]


def wants_asked() -> None:
    """Skips the test where the program hasn't --asked."""
    try:
        basin.run(model(), policy(), inputs(), trace=True, asked=True)
    except Refused as refused:
        assert refused.status == 2
        pytest.skip("the program has no --asked")


def test_asked() -> None:
    wants_asked()
    given = inputs(f"{INPUTS}Dam.Outflow,3-5,7\n")  # the rule wants 4
    answer = basin.run(model(), policy(), given, trace=True, asked=True)
    assert answer.trace[0] == "open 1" and answer.asked is not None
    mine = answer.asked[answer.asked["by"] == "rule"]
    denied = mine[mine["fate"] == "denied"]
    assert denied.drop_duplicates()[
        ["step", "rule", "slot", "at", "value", "flag", "held", "held_flag"]
    ].values.tolist() == [[step, 1, "Dam.Outflow", step, 4, "R1", 7, "I0"] for step in (3, 4, 5)]
    assert list(denied["time"].drop_duplicates()) == list(model().index()[2:5])
    written = mine[mine["fate"] == "written"]
    assert set(written["value"]) == {4} and len(written) == STEPS - 3
    assert written["held"].isna().all() and set(written["name"]) == {"let out"}
    assert basin.run(model(), policy(), given, trace=True).asked is None


def test_asked_reads_the_rules_once(monkeypatch: pytest.MonkeyPatch) -> None:
    wants_asked()
    counted: list[object] = []
    read = of_files.read_ruleset
    monkeypatch.setattr(
        of_files, "read_ruleset", lambda source, *more: counted.append(source) or read(source, *more)
    )
    basin.run(model(), policy(), inputs(), trace=True, asked=True)
    assert len(counted) == 1


def test_balance() -> None:
    wants("balance", 3)
    book = basin.balance(model(), policy(), inputs())
    row = book.table.loc["Dam"]
    assert (row["initial"], row["in"], row["out"], row["final"]) == (1000, 40 * 9, 40 * 4, 1000 + 40 * 5)
    assert not row["unknown"] and book.fault is None
    unknown = basin.balance(model(), policy(), inputs(NOTHING)).table.loc["Dam"]
    assert unknown["unknown"] and unknown["final"] is None
    most = 10**17
    full = inputs(f"{NOTHING}Dam.Inflow,1-{STEPS},{most}\nDam.Outflow,1-{STEPS},{most}\n")
    assert (
        basin.balance(model(), policy(""), full).table.loc["Dam", "in"] == STEPS * most
    )  # beyond 2^63 - 1: 4 * 10^18


def test_mrm_with_a_fault() -> None:
    wants("mrm", 4)
    one_day = model(MODEL.replace("steps = 40", "steps = 1"))
    given = inputs(f"{NOTHING}Dam.Outflow,1,0\n")
    frames = {f"{k}": pd.DataFrame({"Dam.Inflow": [k]}, index=[1]) for k in (10, 30, 20)}
    frames["dry"] = pd.DataFrame({"Dam.Inflow": [20], "Dam.Outflow": [1100]}, index=[1])
    with pytest.warns(basin.FaultedTraces, match="^1 of 4 traces ended in a fault, and no statistic includes them: dry$"):
        many = basin.mrm(one_day, policy(""), given, frames)
    assert many.faulted == ["dry"]
    assert [answer.name for answer in many.answers] == ["10", "30", "20", "dry"]
    fault = many.answers[3].fault
    assert [answer.fault is None for answer in many.answers[:3]] == [True] * 3
    assert fault is not None and (fault.kind, fault.value) == ("out of range", -80)
    assert list(many.summary.loc["Dam.Storage"].iloc[0]) == [3, 1010, 1020, 1030]
    assert list(many.summary.columns) == ["known", "min", "median", "max"]
    assert list(many.summary.index) == [(slot, time) for slot in one_day.slots for time in one_day.index()]
    unknown = basin.mrm(one_day, policy(""), inputs(NOTHING), {"dry": frames["30"]}).summary
    assert unknown.loc["Dam.Storage", "known"].tolist() == [0] and unknown.loc["Dam.Storage"].isna().sum().sum() == 3
    with pytest.raises(basin.Refused) as told:
        basin.mrm(one_day, policy(""), given, pd.DataFrame([("a", "Dam.Inflow", 2, 1)]))
    assert (told.value.file, told.value.row, told.value.reason) == ("traces", 2, "step outside")


def test_frames_of_the_tables_are_inputs_again() -> None:
    inflow = np.arange(STEPS) % 9
    frame = pd.DataFrame({"Dam.Inflow": inflow}, index=model().index())
    table = basin.run(model(), policy(), frame).table
    assert list(table["Dam.Outflow"]) == list(outflow(inflow))
    again = basin.simulate(model(), table[["Dam.Inflow", "Dam.Outflow"]]).table
    assert again.equals(table)


def test_a_model_with_what_other_readers_of_toml_refuse() -> None:
    text = MODEL + '[[object]]\nname = "Plan"\nkind = "data"\nslots = [{ name = "X", unit = "dam3", }]\n'
    assert basin.run(model(text), policy(), inputs()).units["Plan.X"] == "m3"  # values are in base units


def test_years_of_which_pandas_has_no_dates() -> None:
    with pytest.raises(ValueError, match="1678 to 2261"):
        basin.run(model(MODEL.replace("2020", "1500")), policy(), inputs())


def test_programs_that_are_none_or_go_wrong(tmp_path: Path, monkeypatch: pytest.MonkeyPatch) -> None:
    with pytest.raises(basin.NoProgram, match="BASIN"):
        basin.run(model(), policy(), inputs(), program="/nowhere")
    monkeypatch.setenv("BASIN", str(tmp_path))
    with pytest.raises(basin.NoProgram):
        basin.find_program()
    killed = script(tmp_path / "killed", "kill -9 $$")
    with pytest.raises(basin.Error, match="signal 9"):
        basin.run(model(), policy(), inputs(), program=killed)
    with pytest.raises(basin.Error, match="no run"):
        basin.run(model(), policy(), inputs(), program=script(tmp_path / "mute", "exit 0"))
    long_line = script(tmp_path / "long", "head -c 300000 /dev/zero | tr '\\0' x >&2; exit 6")
    with pytest.raises(basin.Refused) as told:  # more than a pipe holds
        basin.run(model(), policy(), inputs(), program=long_line)
    assert len(told.value.said) == 300_000 and len(str(told.value)) < 5_000


def test_the_program_has_not_what_dask_sets_for_workers(tmp_path: Path, monkeypatch: pytest.MonkeyPatch) -> None:
    monkeypatch.setenv("MALLOC_TRIM_THRESHOLD_", "65536")
    monkeypatch.setenv("OMP_NUM_THREADS", "1")
    program = script(tmp_path / "told", 'echo "$MALLOC_TRIM_THRESHOLD_ $OMP_NUM_THREADS"')
    assert answer([], program) == (0, " 1\n")


def script(path: Path, line: str) -> str:
    """A program of one line."""
    path.write_text(f"#!/bin/sh\n{line}\n")
    path.chmod(0o755)
    return str(path)


def test_the_program_of_a_checkout_is_looked_for_once(monkeypatch: pytest.MonkeyPatch) -> None:
    path, looks = basin.find_program(), []
    monkeypatch.delenv("BASIN", raising=False)
    monkeypatch.setattr("basin.process.built", lambda: looks.append(1) or path)
    monkeypatch.setattr("basin.process.clock.monotonic", lambda: 1e9)
    assert [basin.find_program() for _ in range(3)] == [path] * 3 and len(looks) == 1
    monkeypatch.setattr("basin.process.clock.monotonic", lambda: 2e9)
    assert basin.find_program() == path and len(looks) == 2


def hanging(tmp_path: Path, words: str = "*") -> str:
    """A program that never ends where its words are like this, and else is the program."""
    path = tmp_path / "hanging"
    path.write_text(f'#!/bin/sh\ncase "$*" in {words}) echo; exec sleep 300;; esac\nexec {shlex.quote(basin.find_program())} "$@"\n')
    path.chmod(0o755)
    return str(path)


def test_a_call_that_takes_too_long(tmp_path: Path) -> None:
    given: dict[str, Any] = {"program": hanging(tmp_path), "timeout": 0.2}
    required = basin.Requirements(text='REQUIRE "wet": Lower.Inflow[t] >= 0 "m3/step";\n')
    began = time.monotonic()
    calls: list[Callable[[], object]] = [
        lambda: basin.run(*VALLEY, **given),
        lambda: basin.run(*VALLEY, edits=rows((1, "Lower.Inflow", 1, 5)).rename(columns={"trace": "batch"}), **given),
        lambda: basin.simulate(VALLEY[0], VALLEY[2], **given),
        lambda: basin.why(*VALLEY, "Lower.Outflow", 3, **given),
        lambda: basin.check(*VALLEY[:2], **given),
        lambda: basin.effects(*VALLEY, **given),
        lambda: basin.balance(*VALLEY, **given),
        lambda: basin.mrm(*VALLEY, rows((1, "Lower.Inflow", 1, 5)), **given),
        lambda: basin.requirements(*VALLEY, required, **given),
    ]
    for call in calls:
        with pytest.raises(basin.TimedOut, match="the program was ended, since it took longer than its timeout"):
            call()
    assert time.monotonic() - began < 60


def test_a_call_that_is_quick_enough() -> None:
    answer = basin.run(*VALLEY, timeout=300)
    assert answer.table.equals(basin.run(*VALLEY).table)


def test_a_part_of_an_ensemble_that_takes_too_long(tmp_path: Path) -> None:
    for way in ("mrm", "run"):
        inflow = inflows(4)
        told = planned(tmp_path / way, inflow, size=2, way=way, program=hanging(tmp_path, f'"{way} "*parts*|"{way} "*basin-*'))
        with pytest.raises(basin.Error, match="2 of 2 parts failed; part 0: the program was ended, since it took longer"):
            ensemble.execute(told, workers=0, timeout=0.2)
        assert told.missing() == [0, 1] and not list((told.folder / "parts").glob("*"))
