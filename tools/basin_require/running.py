"""Runs a policy with its requirements beside it: of each run the margins, and how it ended."""

import csv
import tempfile
from collections.abc import Iterator
from dataclasses import dataclass, field
from pathlib import Path

from basin_files.program import Unable, basin
from basin_files.sections import HEADING, STEP_OF_FAULT

from .beside import Asked, Beside, Wrong
from basin_rules.findings import Finding

ASKING = {"edits": "batch", "traces": "trace"}


@dataclass
class Run:
    """A run: its batch or trace, its fault, if it ended in one, and the margins of each requirement up to there."""

    number: int
    word: str = "batch"
    fault: str = ""
    margins: list[list[int | None]] = field(default_factory=list)

    @property
    def called(self) -> str:
        """The run for people to read."""
        return f"{self.word} {self.number}"


def answered(command: str, *contents: bytes) -> str:
    """What the program answers to a command and the contents of its files."""
    with tempfile.TemporaryDirectory(prefix="basin-") as folder:
        paths = [Path(folder) / f"file{number}" for number in range(len(contents))]
        for path, content in zip(paths, contents):
            path.write_bytes(content)
        status, output, refusal = basin(command, *paths)
    if status > 1:
        raise Unable(refusal)
    return output


def runs_of(beside: Beside, inputs: str, edits: str = "", traces: str = "") -> Iterator[Run]:
    """The runs. `Wrong` where a requirement itself ended one: it divided by zero, or left the range of numbers."""
    with tempfile.TemporaryDirectory(prefix="basin-") as folder:
        model, code = Path(folder) / "model.toml", Path(folder) / "policy.code"
        model.write_bytes(beside.model)
        code.write_text(beside.code, "latin-1")
        words: list[str | Path] = ["mrm", model, code, inputs, traces] if traces else ["run", model, code, inputs]
        words += ["--edits", edits] if edits else []
        status, output, refusal = basin(*words)
    if status > 1:
        raise Unable(refusal)
    yield from read_runs(beside, output)


def read_runs(beside: Beside, output: str) -> Iterator[Run]:
    """The runs that the program wrote."""
    count, run = len(beside.asked), None
    for line in output.splitlines():
        if line.startswith("#"):
            if run:
                yield run
            found = HEADING.fullmatch(line)
            run = begun(beside, int(found[1]), found[3] or "", line.split()[1], count) if found else None
        elif run and not line.startswith("step,"):
            for column, text in zip(run.margins, line.split(",", count + 2)[2:]):
                column.append(int(text) if text else None)
    if run:
        yield run


def begun(beside: Beside, number: int, fault: str, word: str, count: int) -> Run:
    """A run of which the first line is read."""
    words, whose = beside.of_fault(fault)
    if whose:
        raise Broken(whose, f"{word} {number}", words)
    return Run(number, word, words, [[] for _ in range(count)])


class Broken(Wrong):
    """A requirement ended a run itself."""

    def __init__(self, whose: Asked, where: str, words: str):
        step = STEP_OF_FAULT.search(words)
        says = (
            f"in {where} at timestep {step[1] if step else '?'} it ended the run: {words.split(' rule ')[0]}."
            " A requirement must end without a fault whatever it reads"
        )
        super().__init__([Finding("", whose.item.expression, says, whose=f'"{whose.item.name}"')])
        self.whose = whose


def given_slots(inputs: str) -> set[str]:
    """The slots that inputs name."""
    with open(inputs, encoding="utf-8-sig", errors="replace", newline="") as file:
        return {row[0] for row in csv.reader(file) if row}
