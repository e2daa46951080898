"""Inputs as the tools read them: the values of each cell, and all that is wrong with the rows.

As with models, what is wrong is judged in the order of docs/FORMATS.md, and `basin` is the judge.
"""

import csv
import io
import re
from collections.abc import Iterable, Iterator
from dataclasses import dataclass

from .formats import GREATEST_FILE, amount
from .model import Model
from .reasons import plain, shown, why_unknown

HEADER = ["slot", "step", "value"]
NUMBER = re.compile(r"[0-9]{1,18}")
SIGNED = re.compile(r"-?[0-9]{1,18}")
csv.field_size_limit(GREATEST_FILE)

Wrong = tuple[int, str, str]  # a column, a refusal, and why


@dataclass
class Given:
    """A value that a row of the inputs gives to a cell: the slot and the line that name it."""

    slot: str
    line: int
    row: int
    value: int


@dataclass
class InputsFinding:
    """What is wrong with a row: `basin`'s words for it, the line of the file, and what stands there."""

    refusal: str
    line: int
    says: str


@dataclass
class Inputs:
    """What inputs give: for the first slot of each link (or a slot in none), the values by timestep."""

    model: Model
    cells: dict[str, dict[int, Given]]
    findings: list[InputsFinding]

    def given(self, full_name: str, step: int) -> Given | None:
        """What a slot is given at a timestep, under its own or a linked slot's name, or `None`."""
        return self.cells.get(self.model.group(full_name)[0].full_name, {}).get(step)

    def all_given(self, full_name: str) -> dict[int, Given]:
        """The same for all timesteps at which the slot is given, rising."""
        return dict(sorted(self.cells.get(self.model.group(full_name)[0].full_name, {}).items()))


def records_of(content: bytes) -> Iterator[tuple[int, list[str]]]:
    """The records of a text of inputs, each with the line at which it begins. Empty lines are none."""
    text = content.decode("utf-8", "surrogateescape").removeprefix("\ufeff")
    reader = csv.reader(io.StringIO(text, newline=""))
    line = 1
    for record in reader:
        if record:
            yield line, record
        line = reader.line_num + 1


def read_inputs(content: bytes, model: Model) -> Inputs:
    """The inputs that the bytes spell for a model."""
    inputs = Inputs(model, {}, [])
    records = records_of(content)
    nothing: list[str] = []
    line, header = next(records, (1, nothing))
    if header != HEADER:
        says = wrong_with_header(content, header)
        inputs.findings.append(InputsFinding("row 1 column 0: header", line, says))
        return inputs
    for row, (line, record) in enumerate(records, 2):
        wrong = wrong_with_row(record, inputs, line, row)
        if wrong:
            column, refusal, says = wrong
            inputs.findings.append(InputsFinding(f"row {row} column {column}: {refusal}", line, says))
    return inputs


def wrong_with_header(content: bytes, header: list[str]) -> str:
    """Why the first row isn't the header."""
    wanted = "the first row must be slot,step,value"
    if content[:2] in (b"\xff\xfe", b"\xfe\xff"):
        return f"{wanted}. The file is UTF-16: save it as UTF-8."
    if not header:
        return f"{wanted}, and there is no row."
    first = plain(",".join(header).encode("utf-8", "replace").decode())
    mark = next((mark for mark in (";", "\t") if mark in first), None)
    if mark:
        return f"{wanted}, with commas between; it is {first}. tools/inputs makes inputs of such a table."
    if [name.strip().lower() for name in header] == HEADER:
        return f"{wanted}, in small letters and without spaces; it is {first}."
    if any("." in name for name in header) or header[:2] == ["step", "stamp"] or first.startswith("# batch"):
        return f"{wanted}. This is a wide table, a column a slot: tools/inputs makes inputs of it."
    return f"{wanted}; it is {first}."


def wrong_with_row(record: list[str], inputs: Inputs, line: int, row: int) -> Wrong | None:
    """The first thing that is wrong with a row: column, refusal, and why. Else its cells are taken."""
    if len(record) != 3:
        return 0, "ragged", f"the row has {len(record)} fields, but must have 3: {plain(','.join(record))}."
    name, steps, value = record
    return (
        wrong_with_slot(name, inputs.model)
        or wrong_with_steps(steps, inputs.model)
        or wrong_with_value(value, name, inputs.model)
        or taken(name, steps_named(steps), Given(name, line, row, int(value)), inputs)
    )


def wrong_with_slot(name: str, model: Model) -> Wrong | None:
    """Why inputs can't give a slot of this name."""
    slot = model.slots.get(name)
    if not slot:
        return 1, "unknown slot", why_unknown(model, name)
    if not slot.settable:
        owner = model.owner(slot)
        terms = [other.name for other in owner.slots if other.role == "solvable" or other.name == "Storage"]
        return (
            1,
            "not settable",
            (
                f"{name} is derived: {slot.owner} ({owner.kind}) computes it from its other slots. Give"
                f" {', '.join(terms)} instead."
            ),
        )
    return None


def steps_of(text: str) -> tuple[int, int] | None:
    """The first and the last timestep that a field spells, or `None`."""
    first, dash, last = text.partition("-")
    parts = (first, last) if dash else (first, first)
    return (int(parts[0]), int(parts[1])) if all(NUMBER.fullmatch(part) for part in parts) else None


def steps_named(text: str) -> tuple[int, int]:
    """The first and the last timestep that a field spells, which has been judged."""
    steps = steps_of(text)
    assert steps
    return steps


def wrong_with_steps(text: str, model: Model) -> Wrong | None:
    """Why a field names no timesteps of the run."""
    steps = steps_of(text)
    count = model.run.count
    if not steps:
        hint = (
            " tools/inputs converts dates to timesteps."
            if re.search(r"[0-9][-./:][0-9]+[-./:T]", text)
            else ""
        )
        return (
            2,
            "not a number",
            f"step is {shown(text)}, but must be a number, or two with a - between them.{hint}",
        )
    if not 1 <= steps[0] <= steps[1] <= count:
        why = (
            "the first is after the last"
            if steps[0] > steps[1]
            else f"the run has the timesteps 1 to {count:,}"
        )
        return 2, "step outside", f"step is {shown(text)}: {why}."
    return None


def wrong_with_value(text: str, name: str, model: Model) -> Wrong | None:
    """Why a slot can't have what a field spells."""
    if not SIGNED.fullmatch(text):
        hint = ""
        if re.fullmatch(r"[-+]?[0-9.,eE+-]+", text):
            hint = " tools/inputs rounds decimals, and converts m3/s to m3 per timestep."
        return (
            3,
            "not a number",
            f"value is {shown(text)}, but must be a whole number of 1 to 18 digits.{hint}",
        )
    low, high = model.bounds(name)
    if not low <= int(text) <= high:
        whose = ", ".join(slot.full_name for slot in model.group(name))
        return (
            3,
            "out of bounds",
            (
                f"{name} cannot be {int(text):,}: its bounds are {amount(low)} to"
                f" {amount(high)} {model.slots[name].unit}"
                + (f", between those of {whose}." if whose != name else ".")
            ),
        )
    return None


def taken(name: str, steps: tuple[int, int], given: Given, inputs: Inputs) -> Wrong | None:
    """Takes the cells of a row, unless one of them was given before: then that is wrong."""
    cells = inputs.cells.setdefault(inputs.model.group(name)[0].full_name, {})
    for step in range(steps[0], steps[1] + 1):
        earlier = cells.get(step)
        if earlier:
            linked = (
                f" under the name of {earlier.slot}, which is linked to it" if earlier.slot != name else ""
            )
            return (
                0,
                "twice",
                (
                    f"{name} at timestep {step} is given already{linked}: line {earlier.line} (row"
                    f" {earlier.row}) gives {earlier.value:,}."
                ),
            )
    for step in range(steps[0], steps[1] + 1):
        cells[step] = given
    return None


def edited(inputs: Inputs, content: bytes, batch: int) -> Inputs:
    """The inputs as the batches of edits up to one leave them; the edits are ones that `basin` took."""
    for row, (line, (number, name, steps, value)) in enumerate(list(records_of(content))[1:], 2):
        if int(number) <= batch:
            cells = inputs.cells.setdefault(inputs.model.group(name)[0].full_name, {})
            first, last = steps_named(steps)
            for step in range(first, last + 1):
                cells.pop(step, None)
                if value:
                    cells[step] = Given(name, line, row, int(value))
    return inputs


def rows_of(slot: str, values: dict[int, int]) -> Iterator[str]:
    """The rows of inputs that give a slot these values by timestep: equal values of timesteps in a row are one."""
    runs: list[list[int]] = []
    for step, value in sorted(values.items()):
        if runs and runs[-1][1] == step - 1 and runs[-1][2] == value:
            runs[-1][1] = step
        else:
            runs.append([step, step, value])
    for first, last, value in runs:
        yield f"{slot},{first if first == last else f'{first}-{last}'},{value}"


def folded(steps: Iterable[int]) -> str:
    """Rising timesteps in few words: 1-4, 6-12."""
    parts: list[list[int]] = []
    for step in steps:
        if parts and parts[-1][1] == step - 1:
            parts[-1][1] = step
        else:
            parts.append([step, step])
    return ", ".join(str(first) if first == last else f"{first}-{last}" for first, last in parts)
