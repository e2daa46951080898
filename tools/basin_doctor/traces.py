"""Which of many traces have something to mend, which of these are alike, and what a trace is as a batch of edits."""

import csv
import io
import re
from collections.abc import Iterator

from basin_files.inputs import folded, records_of
from basin_files.model import Model
from basin_files.sections import Section
from basin_files.waiting import empty_rows

MOST_KINDS = 3  # of faults that are explained
STEP = re.compile(r" step [0-9]+")
NUMBERS = re.compile(r"(value|held|solved|after) (-?)[0-9]+")  # in which faults of one kind differ, signs apart
EDITS = "batch,slot,step,value"


def kind_of(fault: str) -> str:
    """Returns the words of a fault without its timestep, and of its numbers the signs alone."""
    return NUMBERS.sub(r"\1 \2", STEP.sub("", fault))


def named(numbers: list[int]) -> str:
    """Returns traces by their numbers."""
    return f"trace{'s' * (len(numbers) > 1)} {folded(numbers)}"


class Traces:
    """The traces of a file: how each of them ended, and their rows."""

    def __init__(self, model: Model, sections: list[Section], content: bytes) -> None:
        self.rows = list(records_of(content))[1:]
        self.count = len(sections)
        self.kinds: dict[str, list[int]] = {}  # of faults, by their words without numbers
        for section in sections:
            if section.fault:
                self.kinds.setdefault(kind_of(section.fault), []).append(section.batch)
        self.faulted = sorted(number for numbers in self.kinds.values() for number in numbers)
        self.empty = [section.batch for section in sections if not section.fault and empty_rows(model, section)]

    def lines(self) -> Iterator[str]:
        """Yields lines on all traces together."""
        yield f"{self.count} traces: {self.count - len(self.faulted)} settled, {len(self.faulted)} ended in a fault."
        if self.faulted:
            yield (
                f"No statistic includes {named(self.faulted)}. If these are the driest or the wettest traces, the"
                " statistics describe only the others."
            )
        if self.empty:
            yield f"Cells are empty in {named(self.empty)}; the statistics of a cell include only the traces in which it is known."

    def told(self) -> Iterator[tuple[int, list[int]]]:
        """Yields the traces to explain, each with those that are like it: one for each kind of fault, one for empty cells."""
        kinds = sorted(self.kinds.values(), key=len, reverse=True)[:MOST_KINDS]
        for first, *alike in [*kinds, *([self.empty] if self.empty else [])]:
            yield first, alike

    @staticmethod
    def line_of_alike(numbers: list[int]) -> str:
        """Returns the line that names the traces which are like one that was explained."""
        return f"The same is true of {named(numbers)}."

    def as_edits(self, number: int) -> bytes:
        """Returns a trace as the first batch of edits: both are applied to the inputs as they are in their file."""
        text = io.StringIO()
        csv.writer(text, lineterminator="\n").writerows(
            ["1", *row[1:]] for _, row in self.rows if row[0].strip().isdigit() and int(row[0]) == number
        )
        return f"{EDITS}\n{text.getvalue()}".encode("utf-8", "surrogateescape")
