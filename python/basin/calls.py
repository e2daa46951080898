"""One call for each command: `run`, `simulate`, `why`, `check`, `balance`, `mrm`; and the effects of rules."""

from __future__ import annotations

import os
import tempfile
import warnings
from pathlib import Path
from typing import Any, Literal, Union, overload

import pandas as pd

from basin_files.firing import blocks_of
from basin_files.inputs import read_inputs
from basin_files.sections import read_sections
from basin_files.walking import OtherPolicy, Walk
from basin_rules import effects as of_rules
from basin_rules.policy import read_policy

from . import process
from .answers import Answer, Book, Cell, Effects, Numbers, Traces
from .answers import answer_of, asked_of, book_of, cell_of, rule_name, whole_array
from .errors import Error, Refused, left_out
from .files import Model, Policy
from .inputs import Inputs, inputs_of
from .process import PathLike
from .rows import batches_of, batches_text, step_number
from .tables import chapters, numbers, section_of, sections, table_in

Errors = Literal["raise", "keep"]
ModelGiven = Union[Model, PathLike]
PolicyGiven = Union[Policy, PathLike]
InputsGiven = Union[Inputs, pd.DataFrame, PathLike]
MOST_TRACES = 64  # of one `mrm`
MOST_ROWS = 10_000  # of a file of traces


class Files:
    """The files of a call: those that are given, and in a folder of its own those that are made of texts and frames."""

    def __init__(self, model: ModelGiven, policy: PolicyGiven | None, inputs: InputsGiven | None) -> None:
        self.model = Model.of(model)
        self.policy = None if policy is None else Policy.of(policy)
        self.inputs = None if inputs is None else inputs_of(self.model, inputs)
        self.made = tempfile.TemporaryDirectory(prefix="basin-")

    def __enter__(self) -> Files:
        return self

    def __exit__(self, _: object, error: object, __: object) -> None:
        if isinstance(error, Refused) and error.row is not None:
            error.row_text = self.row_text(error.file, error.row)
        self.made.cleanup()

    def row_text(self, file: str, row: int) -> str:
        """Returns a row of a file that was made from a frame, or "" for a file that the caller gave."""
        made = self.folder / {"inputs": "inputs.csv", "edits": "batch.csv", "traces": "trace.csv"}.get(file, "")
        rows = made.read_text().splitlines() if made.is_file() else []
        return rows[row - 1] if row <= len(rows) else ""

    @property
    def folder(self) -> Path:
        """Returns where files are made."""
        return Path(self.made.name)

    @property
    def paths(self) -> list[str]:
        """Returns the paths in the order in which the program needs them."""
        given = ((self.model, "model.toml"), (self.policy, "policy.rpl"), (self.inputs, "inputs.csv"))
        return [file.at(self.folder, name) for file, name in given if file is not None]

    def batches(self, given: Any, word: str) -> tuple[str, list[str]]:
        """Returns the path of edits or traces, and their names where they are made of frames."""
        if isinstance(given, (str, os.PathLike)):
            return str(Path(given).absolute()), []
        named = batches_of(self.model, given, word)
        path = self.folder / f"{word}.csv"
        path.write_text(batches_text(named.values(), word))
        return str(path), list(named)


@overload  # type: ignore[misc]
def run(
    model: ModelGiven,
    policy: PolicyGiven,
    inputs: InputsGiven,
    *,
    edits: None = None,
    reuse: bool = False,
    flags: bool = False,
    trace: bool = False,
    asked: bool = False,
    numbers: Numbers = "float",
    errors: Errors = "raise",
    program: PathLike | None = None,
    timeout: float | None = None,
) -> Answer:
    ...


@overload
def run(
    model: ModelGiven,
    policy: PolicyGiven,
    inputs: InputsGiven,
    *,
    edits: Any,
    reuse: bool = False,
    flags: bool = False,
    trace: bool = False,
    asked: bool = False,
    numbers: Numbers = "float",
    errors: Errors = "raise",
    program: PathLike | None = None,
    timeout: float | None = None,
) -> list[Answer]:
    ...


def run(
    model: ModelGiven,
    policy: PolicyGiven,
    inputs: InputsGiven,
    *,
    edits: Any = None,
    reuse: bool = False,
    flags: bool = False,
    trace: bool = False,
    asked: bool = False,
    numbers: Numbers = "float",
    errors: Errors = "raise",
    program: PathLike | None = None,
    timeout: float | None = None,
) -> Answer | list[Answer]:
    """Returns a run as an `Answer`. With `edits` a list of them: the run from the inputs, and one after each batch.

    `edits` is a path, a frame (batch, slot, step or time, value; a missing value takes away), or frames with
    slots by columns. `asked` wants `trace`, and goes without `reuse`. After `timeout` seconds the
    program is ended, and the call raises `TimedOut`; so in all calls. `Fault` where a run ends in one; with `errors="keep"` it is kept in its answer.
    """
    asked_for = {"--reuse": reuse, "--flags": flags, "--trace": trace, "--asked": asked}
    words = ["run", *(word for word, wanted in asked_for.items() if wanted)]
    with Files(model, policy, inputs) as files:
        if edits is not None:
            words.append(f"--edits={files.batches(edits, 'batch')[0]}")
        answers = _answers(files, words, numbers, errors, program, timeout)
    return answers[0] if edits is None else answers


def simulate(
    model: ModelGiven,
    inputs: InputsGiven,
    *,
    flags: bool = False,
    trace: bool = False,
    asked: bool = False,
    order: Literal["oldest", "newest"] | None = None,
    numbers: Numbers = "float",
    errors: Errors = "raise",
    program: PathLike | None = None,
    timeout: float | None = None,
) -> Answer:
    """Returns a run without rules. `order` says which of several objects that wait is dispatched first."""
    asked_for = {"--flags": flags, "--trace": trace, "--asked": asked, f"--order={order}": order is not None}
    words = ["simulate", *(word for word, wanted in asked_for.items() if wanted)]
    with Files(model, None, inputs) as files:
        return _answers(files, words, numbers, errors, program, timeout)[0]


def _answers(
    files: Files,
    words: list[str],
    form: Numbers,
    errors: Errors,
    program: PathLike | None,
    timeout: float | None,
) -> list[Answer]:
    """Returns the runs that the program wrote. Raises a fault unless faults are to be kept."""
    if errors not in ("raise", "keep"):
        raise ValueError(f'errors is "raise" or "keep", and not {errors!r}')
    with process.at_work([*words, *files.paths], program, timeout) as running:
        found = sections(chapters(running))
        answers = [answer_of(files.model, files.policy, section, form) for section in found]
        for answer in answers if "--asked" in words else ():
            answer.asked = asked_of(files.model, files.policy, answer.trace)
    if not answers:
        raise Error("the program wrote no run")
    for answer in answers:
        if answer.fault and errors == "raise":
            raise answer.fault
    return answers


def why(
    model: ModelGiven,
    policy: PolicyGiven,
    inputs: InputsGiven,
    slot: str,
    time: Any,
    *,
    program: PathLike | None = None,
    timeout: float | None = None,
) -> Cell:
    """Returns the assignments to a cell. `time` is the number of a timestep, or the moment at which it begins."""
    with Files(model, policy, inputs) as files:
        assert files.policy is not None
        step = str(step_number(files.model, time))
        status, text = process.answer(["why", *files.paths, slot, step], program, timeout)
        return cell_of(files.model, files.policy, text, status == 1)


def check(
    model: ModelGiven, policy: PolicyGiven, *, program: PathLike | None = None, timeout: float | None = None
) -> pd.DataFrame:
    """Returns the cost limits of each rule, by its number, with its name."""
    with Files(model, policy, None) as files:
        assert files.policy is not None
        _, text = process.answer(["check", *files.paths], program, timeout)
        names = files.policy.rule_names(files.model)
    rows = [[int(word) for word in line.split()[1::2]] for line in text.splitlines()[1:]]
    frame = pd.DataFrame(rows, columns=["rule", "instructions", "reads", "puts", "words"]).set_index("rule")
    frame.insert(0, "name", [rule_name(names, number) for number in frame.index])
    return frame


def effects(
    model: ModelGiven,
    policy: PolicyGiven,
    inputs: InputsGiven,
    *,
    program: PathLike | None = None,
    timeout: float | None = None,
) -> Effects:
    """In how many timesteps the last firing of each rule got what it wanted of each slot, and else what became of it.

    What the columns mean `tools/effect --help` says: what stands, what gave way to an object, what was denied.
    """
    with Files(model, policy, inputs) as files:
        assert files.policy is not None
        names = files.policy.rule_names(files.model)
        found = _effects(files, program, timeout)
    headings = of_rules.HEADINGS
    rows = [
        (
            rule,
            slot,
            rule_name(names, rule),
            *(found.counts[(rule, slot)][one] for one in headings),
        )
        for rule, slots in enumerate(found.sets, 1)
        for slot in slots
    ]
    table = pd.DataFrame(rows, columns=["rule", "slot", "name", *headings]).set_index(["rule", "slot"])
    return Effects(table, list(found.sentences()))


def _effects(files: Files, program: PathLike | None, timeout: float | None) -> of_rules.Effects:
    """Goes through each firing of a run, as `tools/effect` does."""
    assert files.inputs is not None
    model, paths = files.model.read, files.paths
    text, is_asked = _traced(paths, program, timeout)
    rules = read_policy(paths[1], model)
    code = "" if is_asked or not rules.code else rules.source.text
    if not is_asked and not rules.code:
        code = process.answer(["compile", *paths[:2]], program, timeout)[1]
    given = read_inputs(files.inputs.content, model)
    walk = Walk(model, blocks_of(code), given, read_sections(text)[0], is_asked)
    try:
        return of_rules.Effects(model, rules, walk)
    except OtherPolicy as error:
        raise Error(str(error)) from None


def _traced(paths: list[str], program: PathLike | None, timeout: float | None) -> tuple[str, bool]:
    """Returns a run with its event log, and whether the log has requested assignments; that of an older program has none."""
    try:
        return process.answer(["run", "--trace", "--asked", *paths], program, timeout)[1], True
    except Refused as refused:
        if refused.status != process.NO_SUCH_WORDS:
            raise
    return process.answer(["run", "--trace", *paths], program, timeout)[1], False


def balance(
    model: ModelGiven,
    policy: PolicyGiven,
    inputs: InputsGiven,
    *,
    program: PathLike | None = None,
    timeout: float | None = None,
) -> Book:
    """Returns the water balance of each object that stores water, in m3: initial, in, out, final."""
    with Files(model, policy, inputs) as files:
        assert files.policy is not None
        _, text = process.answer(["balance", *files.paths], program, timeout)
        return book_of(files.model, files.policy, text.splitlines())


def mrm(
    model: ModelGiven,
    policy: PolicyGiven,
    inputs: InputsGiven,
    traces: Any,
    *,
    numbers: Numbers = "float",
    program: PathLike | None = None,
    timeout: float | None = None,
) -> Traces:
    """Up to 64 traces, each over the inputs as they are, and their summary. A trace that ends in a fault is kept, and
    warned of by name, since the summary does not count it.

    `traces` is a path, a frame (trace, slot, step or time, value), or frames with slots by columns.
    """
    with Files(model, policy, inputs) as files:
        path, names = files.batches(traces, "trace")
        found = Traces([], pd.DataFrame())
        with process.at_work(["mrm", *files.paths, path], program, timeout) as running:
            for chapter in chapters(running):
                if section := section_of(chapter):
                    name = names[section.number - 1] if names else str(section.number)
                    found.answers.append(answer_of(files.model, files.policy, section, numbers, name))
                else:
                    found.summary = _summary(files.model, found.answers[0].table.columns, chapter)
    if found.faulted:
        warnings.warn(left_out(found.faulted, len(found.answers)), stacklevel=2)
    return found


def _summary(model: Model, slots: pd.Index, chapter: bytearray) -> pd.DataFrame:
    """Returns the statistics after the sections of `mrm`: slots in the order of a table, and for each its timesteps."""
    values = numbers(table_in(chapter)[1], range(4))
    index = pd.MultiIndex.from_product([slots, model.index()], names=["slot", "time"])
    if len(values) != len(index):
        raise Error("the program's summary isn't that of all slots and timesteps")
    frame = pd.DataFrame({"known": values[:, 0]}, index=index)
    for place, name in enumerate(("min", "median", "max"), 1):
        frame[name] = whole_array(values[:, place])
    return frame
