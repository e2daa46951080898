"""What a page knows of a model, a policy and the runs of it."""

from collections.abc import Iterator
from dataclasses import dataclass, field
from functools import cached_property
from pathlib import Path

from basin_files.asking import NO_SUCH_OPTION, asked_run
from basin_files.inputs import Inputs, edited, read_inputs
from basin_files.model import Model
from basin_files.moments import stamp_of
from basin_files.program import bytes_of
from basin_files.reasons import LONG, plain
from basin_files.sections import Section, read_sections
from basin_files.waiting import settled_words
from basin_files.walking import Walk
from basin_files.wide import factor_of
from basin_rules.after import Run, lines_of_run
from basin_rules.effects import Effects
from basin_rules.findings import Finding, told_short
from basin_rules.listing import lines_of
from basin_rules.never import warnings
from basin_rules.places import Span
from basin_rules.policy import Policy
from basin_rules.surprises import surprises

from . import remarks
from .books import Book, book_of
from .required import requiring
from .series import series_of
from .story import Story, Teller

# Units in which people look at what base units measure; the first ones are chosen if nobody chooses.
UNITS = {
    "m3/step": ("m3/s", "m3/step", "cfs", "Mm3/step", "acre-ft/step"),
    "m3": ("Mm3", "m3", "acre-ft", "TAF"),
    "mm": ("m", "mm", "ft"),
    "kWh": ("MWh", "kWh", "GWh"),
}
WHY_ROOM = 7_000_000  # bytes of all that is told of who put what, of all runs together


@dataclass
class Files:
    """The files of which a page is made."""

    model: str
    policy: str
    inputs: str
    edits: str | None = None
    required: str | None = None

    @property
    def names(self) -> list[str]:
        """Their names without folders, for people to read."""
        return [plain(Path(name).name, LONG) for name in (self.model, self.policy, self.inputs, self.edits, self.required) if name]


@dataclass
class Told:
    """A run as a page tells it: its section, what the doctor says of it, what its rules did, its books, and its story."""

    section: Section
    lines: list[str]
    effects: dict[str, object]
    book: Book
    story: Story
    required: dict[str, object] | None = None


@dataclass
class Gathered:
    """All that a page knows."""

    title: str
    files: Files
    model: Model
    policy: Policy
    why: tuple[int, int]  # the timesteps of which it is told who put what
    runs: list[Told] = field(default_factory=list)
    is_asked: bool = True

    def __post_init__(self) -> None:
        if not self.policy.findings:
            self.run_all()

    @cached_property
    def remarked(self) -> remarks.Remarked:
        """The text of the policy, with what is to be looked at."""
        return remarks.lines_of(self.policy, list(self.findings()))

    @property
    def refusal(self) -> list[str]:
        """What is told of a policy that is refused."""
        return [told_short(finding, self.policy.source) for finding in self.policy.findings]

    def run_all(self) -> None:
        """Runs the policy with the inputs, and after each batch of edits."""
        edits = ["--edits", self.files.edits] if self.files.edits else []
        words = ("run", self.files.model, self.files.policy, self.files.inputs, "--flags", *edits)
        output, self.is_asked = asked_run(*words)
        self.blocks = self.policy.blocks(self.files.model, self.files.policy)
        compiled = self.policy.compiled(self.files.model, self.files.policy)
        self.places = lines_of(self.policy.ruleset, compiled) if self.policy.ruleset else None
        paths = (self.files.model, self.files.policy, self.files.inputs)
        asking = requiring(self.model, paths, self.files.required, self.files.edits) if self.files.required else None
        room = WHY_ROOM
        for section in read_sections(output):
            self.runs.append(self.told(section, room))
            room -= len(self.runs[-1].story.text)
            self.runs[-1].required = asking.told(section.batch) if asking else None
            section.trace = []

    def inputs(self, batch: int) -> Inputs:
        """The inputs of the run of a batch."""
        inputs = read_inputs(bytes_of(self.files.inputs), self.model)
        return edited(inputs, bytes_of(self.files.edits), batch) if batch and self.files.edits else inputs

    def told(self, section: Section, room: int) -> Told:
        """What is told of a run."""
        inputs = self.inputs(section.batch)
        walk = Walk(self.model, self.blocks, inputs, section, self.is_asked)
        lines, most = lines_of_run(Run(self.model, inputs, section, walk, self.policy.names(), self.places))
        book = book_of(self.model, (self.files.model, self.files.policy), inputs, section)
        story = Teller(self.model, walk).story(*self.why, room)
        lines = [*(lines or [settled_words(self.model, section)]), *most]
        return Told(section, [plain(line, LONG) for line in lines], effects_of(Effects(self.model, self.policy, walk)), book, story)

    # ---- as a browser reads it

    def data(self) -> dict[str, object]:
        """All but the numbers and the stories of the runs."""
        timesteps = self.model.run
        steps = range(1, timesteps.count + 1)
        slots = list(self.model.slots)
        return {
            "title": self.title,
            "files": self.files.names,
            "step": timesteps.step,
            "begin": stamp_of(timesteps.begin(1)),
            "stamps": [stamp_of(timesteps.end(step)) for step in steps],
            "seconds": [timesteps.seconds(step) for step in steps],
            "objects": [{"name": thing.name, "kind": thing.kind.replace("_", " ")} for thing in self.model.objects],
            "slots": [self.slot(name, slots) for name in slots],
            "units": {base: [self.unit(unit, base) for unit in units] for base, units in UNITS.items()},
            "chosen": {base: self.chosen(base, units) for base, units in UNITS.items()},
            "rules": [plain(name, LONG) for name in self.policy.names()] if self.runs else [],
            "sets": [[slots.index(one) for one in rule.slots()] for rule in self.policy.facts(self.model)] if self.runs else [],
            "policy": self.remarked,
            "asked": "" if self.is_asked else f"{NO_SUCH_OPTION[0].upper()}{NO_SUCH_OPTION[1:]}.",
            "runs": [run_of(told) for told in self.runs],
        }

    def slot(self, name: str, slots: list[str]) -> dict[str, int | str]:
        """A slot: its name, its unit, the place of its object, and that of the first slot of its link."""
        slot = self.model.slots[name]
        owner = [thing.name for thing in self.model.objects].index(slot.owner)
        return {"name": name, "unit": slot.unit, "object": owner, "first": slots.index(self.model.group(name)[0].full_name)}

    def unit(self, unit: str, base: str) -> tuple[str, float, bool]:
        """A unit: its name, how many base units it is, and whether that is of one second."""
        factor, timesteps = factor_of(unit, base, self.model.run), self.model.run
        is_rate = unit.partition("/")[2] not in ("", "step") or unit == "cfs"
        return unit, float(factor(1) / timesteps.seconds(1) if is_rate else factor(1)), is_rate

    def chosen(self, base: str, units: tuple[str, ...]) -> int:
        """The place of the unit that is chosen if nobody chooses: the first where something comes to one of it."""
        slots = [name for name, slot in self.model.slots.items() if slot.unit == base]
        rows = [row for told in self.runs[:1] for row in told.section.rows]
        most = max((row.values[name] or 0 for row in rows for name in slots), default=0)
        seconds = self.model.run.seconds(1)
        _, factor, is_rate = self.unit(units[0], base)
        return 0 if most >= factor * (seconds if is_rate else 1) else units.index(base)

    def findings(self) -> Iterator[tuple[str, Finding]]:
        """What is to be looked at in the policy's text, with its sort."""
        if self.policy.findings:
            yield from (("fault", one) for one in self.policy.findings)
            return
        inputs = self.inputs(0)
        yield from (("never", one) for one in warnings(self.policy, self.model, inputs))
        yield from (("surprise", one) for one in surprises(self.policy, self.model))
        for told in self.runs:
            number = rule_of_fault(told.section)
            if number:
                says = f"The run of batch {told.section.batch} ended here. {' '.join(told.lines[1:2])}".rstrip(".")
                yield "fault", Finding("", self.place_of(number), says)

    def place_of(self, rule: int) -> Span:
        """Where a rule stands in the text."""
        return self.policy.facts(self.model)[rule - 1].head

    def series(self, number: int) -> dict[str, dict[int, str]]:
        """The numbers and flags of a run."""
        return series_of(self.model, self.runs[number].section)


def effects_of(effects: Effects) -> dict[str, object]:
    """What became of what each rule wanted, as a browser reads it."""
    headings, *rows = effects.rows()
    return {"headings": headings, "rows": rows, "lines": [plain(one, LONG) for one in effects.sentences()]}


def run_of(told: Told) -> dict[str, object]:
    """What is told of a run, as a browser reads it."""
    return {
        "batch": told.section.batch,
        "ending": told.section.ending,
        "fault": bool(told.section.fault),
        "closed": len(told.section.rows),
        "lines": told.lines,
        "effects": told.effects,
        "book": told.book.told(),
        "required": told.required,
        "why": [told.story.first, told.story.last],
    }


def rule_of_fault(section: Section) -> int:
    """The number of the rule whose fault ended a run, or 0."""
    words = section.fault.split()
    return int(words[words.index("rule") + 1]) if "rule" in words else 0
