"""What `basin` writes: sections, each with a heading, a table, and flags and a trace where they were asked for; of many
runs each has the number of its trace, and the summary behind them is no section."""

import re
from dataclasses import dataclass, field
from datetime import datetime

from .moments import moment_of
from .program import Progress

HEADING = re.compile(r"# (?:batch|trace) ([0-9]+) (settled|fault ([A-Za-z0-9_. -]+))")
SLOT = re.compile(r"[A-Za-z_][A-Za-z0-9_]*\.[A-Za-z_][A-Za-z0-9_]*")
A_WHILE = 4096  # lines
LONGEST = 32  # letters of a field: a value has at most 18 digits
STEP_OF_FAULT = re.compile(r"\bstep ([0-9]+)")


@dataclass
class Row:
    """A closed timestep: its number, its stamp as a moment, and what each slot holds; unknown is `None`."""

    step: int
    stamp: datetime
    values: dict[str, int | None]


@dataclass
class Section:
    """A run: its batch of edits or its trace, its fault if it ended in one, its slots, and its closed timesteps.

    Where they were asked for: of each timestep the flags of its known slots, and the lines of the trace.
    """

    batch: int = 0
    fault: str = ""
    slots: list[str] = field(default_factory=list)
    rows: list[Row] = field(default_factory=list)
    flags: dict[int, dict[str, str]] = field(default_factory=dict)
    trace: list[str] = field(default_factory=list)

    @property
    def ending(self) -> str:
        """How the run ended, in `basin`'s words."""
        return f"fault {self.fault}" if self.fault else "settled"

    @property
    def fault_step(self) -> int | None:
        """The timestep in which the run ended by its fault, or `None`."""
        found = STEP_OF_FAULT.search(self.fault)
        return int(found[1]) if found else None


def is_table(text: str) -> bool:
    """Whether a text is one that `basin` wrote, or a table of it."""
    return bool(HEADING.match(text)) or text.startswith("step,stamp")


def read_sections(text: str) -> list[Section]:
    """The sections of a text that `basin` wrote. `ValueError` where a line isn't one that it writes."""
    sections: list[Section] = []
    columns: list[str] = []
    part = "table"
    lines, progress = text.splitlines(), Progress("the table is read")
    for number, line in enumerate(lines, 1):
        if not number % A_WHILE:
            progress.at(number, len(lines), "lines")
        heading = HEADING.fullmatch(line)
        if heading:
            sections.append(Section(int(heading[1]), heading[3] or ""))
            part = "table"
        elif line.startswith("# "):
            part = line[2:] if line in ("# flags", "# trace") else part if line.startswith("# reran") else ""
        elif part and line.strip():
            if not sections:
                sections.append(Section())
            if part == "trace":
                sections[-1].trace.append(line)
            elif part == "table":
                read_line(sections[-1], line.split(","), number)
            else:
                columns = read_flags(sections[-1], line.split(","), columns, number)
    if not any(section.slots for section in sections):
        raise ValueError("this is not a table that basin wrote: the line step,stamp,.. is missing")
    return sections


def read_line(section: Section, fields: list[str], number: int) -> None:
    """A line of a section's table: its columns, or the row of a timestep."""
    if fields[:2] == ["step", "stamp"]:
        section.slots = slots_of(fields[2:], number)
        return
    stamp = moment_of(fields[1]) if len(fields) > 1 else None
    if not section.slots or len(fields) != len(section.slots) + 2 or not stamp or max(map(len, fields)) > LONGEST:
        raise ValueError(f"line {number} is not part of a table that basin wrote")
    values = {slot: int(value) if value else None for slot, value in zip(section.slots, fields[2:])}
    section.rows.append(Row(int(fields[0]), stamp, values))


def slots_of(fields: list[str], number: int) -> list[str]:
    """The slots of a line of columns. Whoever draws or prints them relies on it that they are names, and no commands."""
    if not all(map(SLOT.fullmatch, fields)):
        raise ValueError(f"line {number} is not part of a table that basin wrote: it names a column that is not a slot")
    return fields


def read_flags(section: Section, fields: list[str], columns: list[str], number: int) -> list[str]:
    """A line of a section's flags: its columns, or a timestep's. The columns that stand then."""
    if fields[0] == "step":
        return slots_of(fields[1:], number)
    if len(fields) != len(columns) + 1 or not fields[0].isdigit():
        raise ValueError(f"line {number} is not part of flags that basin wrote")
    section.flags[int(fields[0])] = {slot: flag for slot, flag in zip(columns, fields[1:]) if flag}
    return columns


def section_of(sections: list[Section], batch: int) -> Section | None:
    """The section of a batch, or `None`."""
    return next((section for section in sections if section.batch == batch), None)
