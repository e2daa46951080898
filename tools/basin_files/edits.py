"""Edits and traces as the tools read them: how many batches or traces they have, and all that is wrong with their rows."""

from dataclasses import dataclass, field

from .formats import MOST_BATCHES, MOST_EDITS
from .inputs import NUMBER, InputsFinding, Wrong, records_of, steps_named
from .inputs import wrong_with_slot, wrong_with_steps, wrong_with_value
from .model import Model
from .reasons import plain, shown

FIELDS = ["slot", "step", "value"]  # behind the number of the batch or the trace


@dataclass
class Edits:
    """What edits or traces are for a model: how many batches they have, and what is wrong with them."""

    model: Model
    word: str = "batch"  # what they call a batch
    batches: int = 0
    findings: list[InputsFinding] = field(default_factory=list)
    named: dict[tuple[int, str, int], int] = field(default_factory=dict)  # the line that names a cell in a batch

    def judge(self, record: list[str], line: int, row: int) -> Wrong | None:
        """The first thing that is wrong with a row."""
        if len(record) != 1 + len(FIELDS):
            return 0, "ragged", f"the row has {len(record)} fields, but must have 4: {plain(','.join(record))}."
        number, name, steps, value = record
        wrong = self.wrong_with_batch(number)
        wrong = wrong or moved(wrong_with_slot(name, self.model)) or moved(wrong_with_steps(steps, self.model))
        wrong = wrong or (moved(wrong_with_value(value, name, self.model)) if value else None)
        return wrong or self.named_twice(name, steps_named(steps), line) or self.wrong_with_count(row)

    def wrong_with_batch(self, text: str) -> Wrong | None:
        """Why a field names no batch that may come next; else that batch is the last one."""
        if not NUMBER.fullmatch(text):
            return 1, "not a number", f"{self.word} is {shown(text)}, but must be a number."
        number, there = int(text), self.batches
        if number not in ((there, there + 1) if there else (1,)):
            due = f"{there} or {there + 1}, as the row before it has {there}" if there else "1, as the first one"
            return 1, "batch order", f"{self.word} is {number}, but must be {due}."
        if number > MOST_BATCHES:
            more = "; basin.ensemble accepts any number (docs/PYTHON.md)" if self.word == "trace" else ""
            return 1, "too many", f"{self.word} is {number}, but at most {MOST_BATCHES} are allowed{more}."
        self.batches = number
        return None

    def named_twice(self, name: str, steps: tuple[int, int], line: int) -> Wrong | None:
        """Whether the batch or trace names one of the cells already; else it names them now."""
        first = self.model.group(name)[0].full_name
        cells = [(self.batches, first, step) for step in range(steps[0], steps[1] + 1)]
        earlier = next((cell for cell in cells if cell in self.named), None)
        if earlier:
            said = f"{self.word} {self.batches} names {name} at timestep {earlier[2]} already"
            says = f"{said}, or a slot that is linked to it"
            return 0, "twice", f"{says}: line {self.named[earlier]}."
        self.named.update(dict.fromkeys(cells, line))
        return None

    def wrong_with_count(self, row: int) -> Wrong | None:
        """Whether a row is one too many."""
        if row <= MOST_EDITS + 1:
            return None
        more = "; basin.ensemble accepts any number of traces (docs/PYTHON.md)" if self.word == "trace" else ""
        return 0, "too many", f"the file has too many rows: at most {MOST_EDITS:,} are allowed{more}."


def moved(wrong: Wrong | None) -> Wrong | None:
    """What is wrong with a field of inputs, as a column of edits: these have one more in front."""
    return (wrong[0] + 1, *wrong[1:]) if wrong else None


def read_edits(content: bytes, model: Model, word: str = "batch") -> Edits:
    """The edits that the bytes spell for a model; with the word `trace` the traces."""
    edits, records, wanted = Edits(model, word), records_of(content), [word, *FIELDS]
    line, header = next(records, (1, []))
    if header != wanted:
        says = f"the first row must be {','.join(wanted)}" + (f"; it is {plain(','.join(header))}." if header else ".")
        edits.findings.append(InputsFinding("row 1 column 0: header", line, says))
        return edits
    for row, (line, record) in enumerate(records, 2):
        wrong = edits.judge(record, line, row)
        if wrong:
            column, refusal, says = wrong
            edits.findings.append(InputsFinding(f"row {row} column {column}: {refusal}", line, says))
    return edits
