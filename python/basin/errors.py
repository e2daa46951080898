"""What a call raises: no program, a file that is refused, a run that ended in a fault."""

from __future__ import annotations

import re
from typing import TYPE_CHECKING

from basin_files.reasons import LONG, plain

if TYPE_CHECKING:
    import pandas as pd

    from .answers import Answer

MOST_NAMED = 5  # traces in a warning
# What the error line of a refusal says, by its form; the first that fits counts.
FORMS = tuple(
    re.compile(form, re.DOTALL)
    for form in (
        r"(?P<file>inputs|edits|traces): row (?P<row>\d+) column (?P<column>\d+): (?P<reason>.*)",
        r"(?P<file>model): (?P<reason>not TOML)",
        r"(?P<file>model): (?P<reason>missing|wrong kind|unknown key|unknown kind|bad parameter) (?P<path>.*)",
        r"(?P<file>model): (?:build|table) (?P<path>.*): (?P<reason>[^:]*)",
        r"(?P<file>model): calendar: (?P<reason>.*)",
        r"(?P<file>rules|code): declaration (?P<declaration>\d+) node (?P<node>\d+): (?P<reason>.*)",
        r"(?P<file>rules|code): declaration (?P<declaration>\d+)(?: line (?P<line>\d+))?: (?P<reason>.*)",
        r"(?P<file>rules|code): line (?P<line>\d+): (?P<reason>.*)",
        r"(?P<file>code): block (?P<block>\d+) place (?P<place>\d+): (?P<reason>.*)",
        r"(?P<file>code|why): (?P<reason>.*)",
        r"(?P<reason>cannot read|too long) (?P<path>.*)",
        r"(?P<reason>.*)",
    )
)


class Error(Exception):
    """Whatever goes wrong in this package."""


class FaultedTraces(UserWarning):
    """Traces that ended in a fault: no statistic counts them, and often they are the driest or the wettest."""


class NoProgram(Error):
    """There is no program to run, or it cannot be run."""


class TimedOut(Error):
    """The program took longer than the `timeout` of the call, and was ended."""


class Stale(Error):
    """A folder holds another ensemble: another model, policy, input, trace, slot or program."""


class Refused(Error):
    """The program refused the words or a file, and what its line says of it.

    `file` is model, rules, code, inputs, edits, traces, why, or "" where it is none of these.
    """

    def __init__(self, status: int, said: str) -> None:
        super().__init__(status, said)
        self.status, self.said = status, said
        words = said.removeprefix("basin: ")
        found = next(match for form in FORMS if (match := form.fullmatch(words))).groupdict()
        self.file: str = found.get("file") or ""
        self.reason: str = found["reason"]
        self.path: str = found.get("path") or ""
        self.row, self.column = _number(found, "row"), _number(found, "column")
        self.line, self.declaration = _number(found, "line"), _number(found, "declaration")
        self.node = _number(found, "node")
        self.block, self.place = _number(found, "block"), _number(found, "place")
        self.row_text = ""  # the row, if its file was made from a frame: the caller does not have that file

    def __str__(self) -> str:
        said = plain(self.said, LONG) or f"the program ended with status {self.status}"
        return f"{said} (that is {plain(self.row_text, LONG)})" if self.row_text else said


class Fault(Error):
    """A run ended in a fault: what its words say, the moment at which its timestep begins, its rule's name.

    `answer` has the table up to the timestep before it, where the fault was raised by a call that answers one.
    """

    def __init__(
        self, words: str, time: pd.Timestamp | None = None, rule_name: str = "", answer: Answer | None = None
    ) -> None:
        super().__init__(words, time, rule_name)
        self.words, self.time, self.rule_name, self.answer = words, time, rule_name, answer
        self.kind = re.split(r" (?:object|rule) ", words, maxsplit=1)[0]
        self.object, self.slot = _word(words, "object"), _word(words, "slot")
        numbers = {name: _word(words, name) for name in ("rule", "step", "held", "solved", "value", "after")}
        self.rule, self.step, self.held, self.solved, self.value, self.after = (
            int(number) if number else None for number in numbers.values()
        )

    def __str__(self) -> str:
        when = f" ({self.time:%Y-%m-%d %H:%M})" if self.time is not None else ""
        whose = f', rule "{plain(self.rule_name)}"' if self.rule_name else ""
        return f"{self.words}{when}{whose}"


def some_of(names: list[str]) -> str:
    """Returns the first names, and how many more there are."""
    first = ", ".join(plain(name) for name in names[:MOST_NAMED])
    return first + (f" and {len(names) - MOST_NAMED:,} more" if len(names) > MOST_NAMED else "")


def left_out(faulted: list[str], traces: int) -> FaultedTraces:
    """Returns the warning that names the traces which no statistic counts."""
    return FaultedTraces(f"{len(faulted)} of {traces} traces ended in a fault, and no statistic includes them: {some_of(faulted)}")


def _number(found: dict[str, str | None], name: str) -> int | None:
    """Returns a number of a refusal's line, where the line has it."""
    number = found.get(name)
    return int(number) if number else None


def _word(words: str, name: str) -> str | None:
    """Returns what follows a word of a fault."""
    found = re.search(rf"(?:^| ){name} (\S+)", words)
    return found[1] if found else None
