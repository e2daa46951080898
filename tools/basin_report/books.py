"""The book of water: that of each object, as `balance` writes it, all of them together, and what crosses the basin's edge."""

import re
import tempfile
from collections.abc import Iterator
from dataclasses import dataclass, field

from basin_files.asking import WORDS_REFUSED
from basin_files.inputs import Inputs, rows_of
from basin_files.model import Model, Slot
from basin_files.program import basin
from basin_files.sections import Section

LINE = re.compile(r"(\S+) (?:(unknown)|initial (-?[0-9]+) in (-?[0-9]+) out (-?[0-9]+) final (-?[0-9]+))")
PARTS = ("Release", "Spill")  # parts of an Outflow
NO_BALANCE = "This program has no command `balance`, so no water balance is shown."


@dataclass
class Book:
    """The books of a run: of each object that keeps one its name and what it held at first, got, gave and held last
    (nothing where one of these is unknown), or why there are none; and sums over the ends that no other object has."""

    said: str = ""
    rows: list[tuple[str, list[int]]] = field(default_factory=list)
    brought: list[tuple[str, int]] = field(default_factory=list)
    taken: list[tuple[str, int]] = field(default_factory=list)

    def told(self) -> dict[str, object]:
        """The books as a browser reads them."""
        return {
            "said": self.said,
            "rows": [[name, *map(str, amounts)] for name, amounts in self.rows],
            "brought": [[name, str(amount)] for name, amount in self.brought],
            "taken": [[name, str(amount)] for name, amount in self.taken],
        }


def book_of(model: Model, files: tuple[str, str], inputs: Inputs, section: Section) -> Book:
    """The books of the run of a policy with these inputs. `files` are the model's and the policy's."""
    with tempfile.NamedTemporaryFile("w", suffix=".csv") as file:
        file.write("slot,step,value\n")
        for slot, cells in inputs.cells.items():
            file.writelines(f"{row}\n" for row in rows_of(slot, {step: one.value for step, one in cells.items()}))
        file.flush()
        status, output, refusal = basin("balance", *files, file.name)
    if status == WORDS_REFUSED:
        return Book(NO_BALANCE)
    if status > 1:
        return Book(f"The program printed: {refusal}")
    book = Book()
    for line in output.splitlines()[1:]:
        found = LINE.fullmatch(line)
        assert found, line  # by docs/FORMATS.md
        book.rows.append((found[1], [] if found[2] else [int(found[place]) for place in range(3, 7)]))
    book.brought = list(sums_of(section, edge(model, "in", "out")))
    book.taken = list(sums_of(section, edge(model, "out", "in")))
    return book


def edge(model: Model, way: str, other: str) -> Iterator[Slot]:
    """The slots by which water comes in, or goes out, and that no object has at its other end."""
    for name, slot in model.slots.items():
        group = [one for one in model.group(name) if one.name != "DiversionRequest"]
        ends = [one for one in group if one.way == way and is_counted(model, one)]
        if ends[:1] == [slot] and not any(one.way == other for one in group):
            yield slot


def is_counted(model: Model, slot: Slot) -> bool:
    """Whether a slot's water counts: an Outflow's, or that of its parts, where one of these is linked with an inflow."""
    if slot.name not in (*PARTS, "Outflow"):
        return True
    parts = [one for one in model.owner(slot).slots if one.name in PARTS]
    is_parted = any(other.way == "in" for part in parts for other in model.group(part.full_name))
    return (slot.name in PARTS) == is_parted


def sums_of(section: Section, slots: Iterator[Slot]) -> Iterator[tuple[str, int]]:
    """What each of these slots comes to over the timesteps that were closed."""
    for slot in slots:
        yield slot.full_name, sum(row.values[slot.full_name] or 0 for row in section.rows)
