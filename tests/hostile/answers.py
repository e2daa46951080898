"""What an answer has to be, by docs/FORMATS.md: its status, the line of that status, and the form of its output."""

import re
import sys
from collections.abc import Iterable
from dataclasses import dataclass
from pathlib import Path

sys.path.insert(0, str(Path(__file__).resolve().parents[2] / "tools"))

from basin_files import formats  # noqa: E402
from basin_rules.codefile import MISFITS  # noqa: E402
from basin_rules.judging import ORDER  # noqa: E402

FILES = {
    "model": "model.toml", "policy": "policy.rpl", "inputs": "inputs.csv", "edits": "edits.csv", "traces": "traces.csv",
}


@dataclass(frozen=True)
class Answer:
    """How a run ended, and what it took: seconds of a processor, and megabytes."""

    status: int  # below 0: minus the signal
    output: bytes
    errors: bytes
    seconds: float
    megabytes: int

    def same(self, other: "Answer") -> bool:
        """Whether another answer has the same bytes."""
        return (self.status, self.output, self.errors) == (other.status, other.output, other.errors)


def one_of(words: Iterable[str]) -> str:
    """A pattern of these texts and no others."""
    return f"(?:{'|'.join(re.escape(word) for word in words)})"


def behind(kind: str) -> str:
    """A pattern of what a refusal of a model says behind a word of its own."""
    return one_of([word.removeprefix(f"{kind} ") for word in formats.MODEL_REFUSALS if word.startswith(f"{kind} ")])


MODEL = (
    f"not TOML|(?:missing|wrong kind|unknown key|unknown kind) .*|build .*: {behind('build')}"
    f"|table .*: {behind('table')}|calendar: {behind('calendar')}"
)
RULES = (
    r"line \d+: bad token|declaration \d+ line \d+: bad declaration|declaration \d+: too many"
    rf"|declaration \d+ node \d+: {one_of(ORDER)}"
)
ROW = r"row \d+ column \d+: "
ROWS = (
    f"inputs: {ROW}{one_of(formats.INPUTS_REFUSALS)}"
    f"|(?:edits|traces): {ROW}{one_of(formats.INPUTS_REFUSALS | formats.EDITS_REFUSALS)}|why: no such cell"
)
CODE = rf"line \d+: bad line|truncated|block \d+ place \d+: {one_of(MISFITS)}"
# The statuses that a file can bring, with the lines that they have; a path and a key may have any bytes.
LINES = {
    status: re.compile(f"basin: (?:{line})\n".encode(), re.DOTALL)
    for status, line in {
        6: f"model: (?:{MODEL})",
        7: f"rules: (?:{RULES})",
        8: ROWS,
        9: f"code: (?:{CODE})",
        10: f"too long {one_of(FILES.values())}",
    }.items()
}
SECTIONS = re.compile(rb"# batch 0 (?:settled|fault .*)\n(?:.*\n)+")
NUMBER = rb"-?\d+"
BOOK = rb"\w+ (?:unknown|initial \d+ in %b out %b final \d+)\n" % (NUMBER, NUMBER)
STATISTICS = rb"\w+\.\w+,\d+,(?:0,,,|[1-9]\d?,%b,%b,%b)\n" % (NUMBER, NUMBER, NUMBER)
ENDS = re.compile(rb"^# (?:batch|trace) \d+ (settled|fault)", re.MULTILINE)
SUMMARY = re.compile(rb"^# summary (\d+) of (\d+)$", re.MULTILINE)
OUTPUTS = {
    "run": SECTIONS,
    "simulate": SECTIONS,
    "check": re.compile(
        rb"ok \d+ rules \d+ functions\n(?:rule \d+ instructions \d+ reads \d+ puts \d+ words \d+\n)*"
    ),
    "compile": re.compile(rb"CODE 1\n(?:(?:.*\n)*END\n)?"),
    "why": re.compile(rb"given -?\d+\n(?:.*\n)*|(?:step .*\n)*holds .*\n"),
    "balance": re.compile(rb"# batch 0 (?:settled|fault .*)\n(?:%b)*" % BOOK),
    "mrm": re.compile(
        rb"(?:# trace \d+ (?:settled|fault .*)\nstep,.*\n(?:\d+,.*\n)*)*# summary \d+ of \d+\n"
        rb"slot,step,known,min,median,max\n(?:%b)*" % STATISTICS
    ),
    "migrate": re.compile(rb"(?:.*\n)*?format = 2\n(?:.*\n)*"),
}
FAULTS = ("run", "simulate", "why", "balance", "mrm")  # commands that have status 1


def wrong_with(answer: Answer, command: str, greatest: int) -> str | None:
    """What isn't as the page has it, or `None`; `greatest` is the length of the longest file that the command reads."""
    status = answer.status
    if status < 0:
        return f"signal {-status}"
    if status not in (0, 1, *LINES):
        return f"status {status}, which no file can bring"
    if status in LINES:
        if answer.output:
            return f"an output with status {status}"
        if status == 10 and greatest <= formats.GREATEST_FILE:
            return "no file is too long"
        return None if LINES[status].fullmatch(answer.errors) else "a line of another form"
    if answer.errors:
        return f"a line on the error stream with status {status}"
    if status and command not in FAULTS:
        return f"status 1 of {command}"
    if not OUTPUTS[command].fullmatch(answer.output):
        return "an output of another form"
    return wrong_with_ends(answer, command == "mrm")


def wrong_with_ends(answer: Answer, of_all: bool) -> str | None:
    """Whether the status isn't that of the last run, or, of many runs, that of all of them and of their summary."""
    ends = ENDS.findall(answer.output)
    faults = ends.count(b"fault")
    if not of_all:
        return "the status isn't that of the last run" if ends and (ends[-1] == b"fault") != answer.status else None
    if (faults > 0) != answer.status:
        return "the status isn't that of all runs"
    counts = [(len(ends) - faults, len(ends))]
    found = [(int(settled), int(runs)) for settled, runs in SUMMARY.findall(answer.output)]
    return None if found == counts else "the summary counts other runs"
