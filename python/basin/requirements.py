"""Requirements of a policy, checked by the program in its runs: what `tools/require` does, as frames and as tests.

    import basin, pytest
    JUDGED = basin.requirements("model.toml", "policy.rpl", "inputs.csv", "valley.require")

    @pytest.mark.parametrize("one", JUDGED, ids=str)
    def test_requirement(one):
        one.check()
"""

from __future__ import annotations

import os
from dataclasses import dataclass, replace
from fractions import Fraction
from typing import Any, Iterator, Sequence, Union

import numpy as np
import pandas as pd

from basin_files.reasons import LONG, plain
from basin_require.beside import Beside, Wrong
from basin_require.counting import HELD, NEVER, Calendar, Verdict, judged, over_traces, value_of
from basin_require.reading import Unreadable, read_requirements
from basin_rules.findings import told
from basin_rules.places import Source

from . import process
from .calls import Files, InputsGiven, ModelGiven, PolicyGiven
from .errors import Error
from .files import File, Model, Policy
from .inputs import inputs_of
from .process import PathLike
from .tables import UNKNOWN, Section, chapters, numbers, section_of

SHARES = ("reliability", "resilience", "vulnerability")
COLUMNS = ("asked", "held", "failed", "unknown", *SHARES, "worst", "worst_step", "margin", "first", "stretches", "longest")


class Requirements(File):
    """A file of requirements, by its path or by its text."""


RequirementsGiven = Union[Requirements, PathLike]


class WrongRequirements(Error):
    """Requirements that cannot be read or judged, or one that ended a run itself: the lines that tell where."""


@dataclass(frozen=True)
class Judgement:
    """A requirement over one run. `run` is the number of the batch, or the name of the trace."""

    name: str
    wanted: str
    run: str
    verdict: Verdict
    unit: str
    fault: str
    time: pd.Timestamp | None  # when the first failing timestep begins

    def __str__(self) -> str:
        return f"{self.run}: {self.name}"

    @property
    def held(self) -> bool:
        """Returns whether it is held, or was never asked."""
        return self.verdict.verdict in (HELD, NEVER)

    def check(self) -> None:
        """Raises `AssertionError` where it is not held, and why."""
        assert self.held, self.message

    @property
    def message(self) -> str:
        """Returns one line: the name, the verdict and the first failure."""
        verdict = self.verdict
        says = f'"{plain(self.name, LONG)}" is {verdict.verdict} ({self.run}; {self.wanted})'
        if verdict.first is not None:
            says += f": fails {verdict.failed} times, first in timestep {verdict.first} ({self.time}),"
            says += f" most by {verdict.worst} {self.unit}".rstrip()
        if self.fault:
            says += f"; the run ended in a fault: {self.fault}"
        return says


class Judged(Sequence[Judgement]):
    """The requirements over all runs, in their order, and the values of measures, by run and name."""

    def __init__(self, judgements: list[Judgement], measures: pd.DataFrame, over_runs: dict[str, str]) -> None:
        self.judgements, self.measures, self.over_runs = judgements, measures, over_runs

    def __len__(self) -> int:
        return len(self.judgements)

    def __getitem__(self, place: Any) -> Any:
        return self.judgements[place]

    @property
    def held(self) -> bool:
        """Returns whether all are held, those with `OF TRACES` in as many traces as that says."""
        return all(verdict in (HELD, NEVER) for verdict in self.over_runs.values())

    @property
    def table(self) -> pd.DataFrame:
        """Returns a row for each requirement and run. Shares are floats."""
        rows = []
        for one in self.judgements:
            values = [getattr(one.verdict, column) for column in COLUMNS]
            rows.append((one.run, one.name, one.verdict.verdict, *map(as_number, values), one.unit, one.fault))
        frame = pd.DataFrame(rows, columns=["run", "requirement", "verdict", *COLUMNS, "unit", "fault"])
        whole = dict.fromkeys(("worst_step", "margin", "first"), "Int64")
        return frame.astype(whole).set_index(["run", "requirement"])

    def check(self) -> None:
        """Raises `AssertionError` where one is not held, with all that are not."""
        assert self.held, "\n".join(one.message for one in self.judgements if not one.held)


def requirements(
    model: ModelGiven,
    policy: PolicyGiven,
    inputs: InputsGiven,
    required: RequirementsGiven,
    *,
    edits: Any = None,
    traces: Any = None,
    program: PathLike | None = None,
    timeout: float | None = None,
) -> Judged:
    """Judges a policy over a run, over that of each batch of edits, or over each of at most 64 traces. `timeout` is in
    seconds for each call of the program."""
    if edits is not None and traces is not None:
        raise TypeError("edits or traces, and not both")
    asking = Asking(model, policy, required, program, timeout)
    calendar = asking.calendar
    found: list[Judgement] = []
    values: dict[tuple[str, str], float] = {}
    over: dict[str, list[Verdict]] = {}
    for run, fault, margins in asking.runs(inputs, edits, traces):
        for asked, column in zip(asking.beside.asked, margins.T):
            held = [None if value == UNKNOWN else int(value) for value in column]
            if asked.item.how:
                value = value_of(asked.item.how, held, calendar)
                values[run, asked.item.name] = float("nan") if value is None else float(value)
                continue
            verdict = judged(asked.item, held, calendar, bool(fault))
            time = None if verdict.first is None else asking.model.index()[verdict.first - 1]
            found.append(Judgement(asked.item.name, asked.item.wanted, run, verdict, asked.unit, fault, time))
            over.setdefault(asked.item.name, []).append(verdict)
    measures = pd.Series(values, dtype=float).unstack() if values else pd.DataFrame()
    items = {asked.item.name: asked.item for asked in asking.beside.asked}
    if traces is None:  # of batches each one counts
        items = {name: replace(item, traces=Fraction(100)) for name, item in items.items()}
    return Judged(found, measures, {name: over_traces(items[name], some) for name, some in over.items()})


class Asking:
    """Returns a policy joined with its requirements, ready to be run."""

    def __init__(
        self,
        model: ModelGiven,
        policy: PolicyGiven,
        required: RequirementsGiven,
        program: PathLike | None,
        timeout: float | None = None,
    ) -> None:
        self.timeout = timeout
        self.model, self.program = Model.of(model), process.find_program(program)
        file = Requirements.of(required)
        name = "requirements" if file.path is None else plain(os.fspath(file.path))
        self.source = Source(name, file.content)
        try:
            self.required = read_requirements(self.source)
            contents = self.model.content, Policy.of(policy).content
            self.beside = Beside(self.required, *contents, self.answered)
        except (Unreadable, Wrong) as wrong:
            raise self.wrong(wrong) from None
        self.width = len(self.beside.asked)
        timesteps = self.model.timesteps
        self.calendar = Calendar([timesteps.begin(step) for step in range(1, timesteps.count + 1)])
        self.model_text = Model(text=self.beside.model)
        self.code = Policy(text=self.beside.code.encode("latin-1"))

    def wrong(self, wrong: Unreadable | Wrong) -> WrongRequirements:
        """Returns what is wrong, with its places."""
        return WrongRequirements("\n".join(line for one in wrong.findings for line in told(one, self.source)))

    def answered(self, command: str, *contents: bytes) -> str:
        """Returns what the program answers to a command and the contents of its files."""
        with Files(self.model, None, None) as files:
            paths = [files.folder / f"file{number}" for number in range(len(contents))]
            for path, content in zip(paths, contents):
                path.write_bytes(content)
            return process.answer([command, *map(str, paths)], self.program, self.timeout)[1]

    def runs(self, inputs: InputsGiven, edits: Any, traces: Any) -> Iterator[tuple[str, str, Any]]:
        """Of each run its name, its fault, and the margins by timestep and requirement."""
        given = inputs_of(self.model, inputs)
        with Files(self.model_text, self.code, given) as files:
            names: list[str] = []
            words = ["run", *files.paths]
            if edits is not None:
                words.append(f"--edits={files.batches(edits, 'batch')[0]}")
            elif traces is not None:
                path, names = files.batches(traces, "trace")
                words = ["mrm", *files.paths, path]
            with process.at_work(words, self.program, self.timeout) as running:
                for section in filter(None, map(section_of, chapters(running))):
                    fault = self.fault_of(section)
                    kind = "trace" if traces is not None else "batch"
                    name = names[section.number - 1] if names and kind == "trace" else f"{kind} {section.number}"
                    yield name, fault, numbers(section.rows, range(self.width))

    def fault_of(self, section: Section) -> str:
        """Returns the words of the fault of a section."""
        return self.words_of(section.number, section.fault)

    def words_of(self, run: int, fault: str) -> str:
        """Returns the words of a fault as the policy has them. Raises `WrongRequirements` where a requirement itself ended the run."""
        words, whose = self.beside.of_fault(fault)
        if whose:
            raise WrongRequirements(f'requirement "{plain(whose.item.name, LONG)}" itself ended run {run}: {words}')
        return words


def as_number(value: Any) -> Any:
    """Returns a share as a float, and all else as it is."""
    return float(value) if isinstance(value, Fraction) else value



def over_ensemble(
    folder: PathLike,
    model: ModelGiven,
    policy: PolicyGiven,
    inputs: InputsGiven,
    required: RequirementsGiven,
    traces: Any,
    *,
    workers: int | None = None,
    client: Any = None,
    program: PathLike | None = None,
    timeout: float | None = None,
) -> pd.DataFrame:
    """Judges a policy over any number of traces: an ensemble of which the folder keeps the margins alone.

    A row for each trace: what measures come to, of each requirement its slack (below 0 where it is not held), `.failed` and
    `.verdict`, and the fault. An ensemble that was broken off goes on.
    """
    from . import ensemble
    from .netcdf import opened
    from .plans import each_part
    from .slack import columns_of, frame_of

    asking = Asking(model, policy, required, program, timeout)
    slots = [asked.slot for asked in asking.beside.asked]
    given = inputs_of(asking.model, inputs)
    told = ensemble.plan(folder, asking.model_text, asking.code, given, traces, slots=slots, program=asking.program)
    ensemble.execute(told, workers=workers, client=client, timeout=timeout)
    frames = []
    for number, path in each_part(told):
        with opened(path) as part:
            margins = np.stack([part[slot][:] for slot in slots], axis=1)
            faults = [asking.words_of(number, str(fault)) for fault in part["fault"][:]]
            refused = [str(why) for why in part["refused"][:]]
        values = columns_of(asking.beside, asking.calendar, margins, np.array([bool(one) for one in faults]))
        frame = frame_of(asking.beside, values, [fault or why for fault, why in zip(faults, refused)])
        frames.append(frame.set_axis(pd.Index(told.names[number], name="trace")))
    return pd.concat(frames)
