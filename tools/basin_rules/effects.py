"""What became of what each rule wanted to set, over a whole run."""

from collections import Counter, defaultdict
from collections.abc import Callable, Iterator
from dataclasses import dataclass, field

from basin_files.asking import DENIED, LATE, Asked
from basin_files.listing import aligned
from basin_files.model import Model
from basin_files.program import Progress
from basin_files.walking import END, Content, Event, Walk

from .policy import Policy

HEADINGS = ("stands", "earlier", "again", "passed", "gave way", "denied", "ahead", "late", "no put", "unknown")
BESIDE = ("ahead", "late")  # these are counted beside what became of a put at the timestep itself
MOST_TOLD = 12


@dataclass
class Moment:
    """A timestep in which a rule didn't get what it wanted: what it wanted, and what holds."""

    step: int
    wanted: int
    holds: int

    @property
    def apart(self) -> int:
        """How far apart the two are."""
        return abs(self.holds - self.wanted)


@dataclass
class Effects:
    """Goes through a run's firings: counts by rule and slot, and what is worth a look."""

    model: Model
    policy: Policy
    walk: Walk
    counts: dict[tuple[int, str], Counter[str]] = field(default_factory=lambda: defaultdict(Counter))
    # moments by rule and slot, and by the object and flag, the rule that holds it, or the flag that denied it
    gave: dict[tuple[int, str, str, str], list[Moment]] = field(default_factory=lambda: defaultdict(list))
    held: dict[tuple[int, str, int], list[Moment]] = field(default_factory=lambda: defaultdict(list))
    denied: dict[tuple[int, str, str], list[Moment]] = field(default_factory=lambda: defaultdict(list))

    def __post_init__(self) -> None:
        self.names = self.policy.names()
        self.sets = [list(dict.fromkeys(one.slot for one in facts.settings)) for facts in self.policy.facts(self.model)]
        firings = defaultdict(list)
        for event in self.walk.events:
            if event.rule:
                firings[(event.rule, event.step)].append(event)
        progress = Progress("each firing is gone through again")
        for (rule, step), events in firings.items():
            progress.at(step, self.model.run.count, "timesteps")
            self.count(rule, step, events)

    def count(self, rule: int, step: int, events: list[Event]) -> None:
        """Counts what became of the last firing of a rule in a timestep."""
        puts = self.walk.wanted(events[-1])
        wanted = {put.slot: put for put in puts if put.step == step}
        for slot in self.sets[rule - 1]:
            count, content = self.counts[(rule, slot)], self.walk.held(slot, step, END)
            later = {put.fate == LATE for put in puts if put.slot == slot and put.step > step}
            count["ahead"] += False in later
            count["late"] += True in later
            if events[-1].ended != "done":
                count["unknown"] += 1
            elif slot in wanted:
                what = became(rule, wanted[slot], content)
                count[what] += 1
                self.note(rule, wanted[slot], events, content, what)
            else:
                count["earlier" if content.flag == f"R{rule}" else "no put"] += not later

    def note(self, rule: int, put: Asked, events: list[Event], content: Content, what: str) -> None:
        """Notes what is worth a look."""
        if content.value is None:
            return
        moment = Moment(put.step, put.value, content.value)
        if what == "gave way" and content.event:
            self.gave[(rule, put.slot, content.event.thing, content.flag)].append(moment)
        if what in ("denied", "passed"):
            puts = [one for event in events[:-1] for one in self.walk.wanted(event)]
            was_own = content.value in [one.value for one in puts if (one.slot, one.step) == (put.slot, put.step)]
            if was_own and content.flag[:1] == "R":
                self.held[(rule, put.slot, int(content.flag[1:]))].append(moment)
            elif what == "denied":
                self.denied[(rule, put.slot, content.flag)].append(moment)

    # ---- what is told

    def rows(self, written: Callable[[int], str] = str) -> list[list[str]]:
        """The list: a row for each rule and slot that it sets, below the headings; how a count is written may be told."""
        rows = [["rule", "sets", *HEADINGS]]
        for rule, slots in enumerate(self.sets, 1):
            for slot in slots:
                count = self.counts[(rule, slot)]
                rows.append([self.names[rule - 1], slot, *(written(count[one]) for one in HEADINGS)])
        return rows

    def lines(self) -> Iterator[str]:
        """The list, and what is worth a look."""
        yield from aligned(self.rows(lambda count: f"{count:,}" if count else "."), 2)
        yield from self.sentences()

    def sentences(self) -> Iterator[str]:
        """What is worth a look: puts that gave way, and puts that a higher rule holds fast."""
        for (rule, slot, thing, flag), moments in sorted(self.gave.items())[:MOST_TOLD]:
            most = max(moments, key=lambda one: one.apart)
            whose = "from what inputs give" if flag == "O0" else f"as strong as {self.names[int(flag[1:]) - 1]}"
            yield (
                f"{self.names[rule - 1]}: {slot} was overridden by the object {thing} ({flag}, {whose}) in"
                f" {times(moments)}, most in timestep {most.step}: the rule set {most.wanted:,}, and the table"
                f" has {most.holds:,}."
            )
        for (rule, slot, by), moments in sorted(self.held.items())[:MOST_TOLD]:
            most = max(moments, key=lambda one: one.apart)
            yield (
                f"{self.names[rule - 1]}: its first value of {slot} was set again by {self.names[by - 1]}, so its"
                f" later values were denied, in {times(moments)}; most in timestep {most.step}: it asked for"
                f" {most.wanted:,}, and the table has {most.holds:,}."
            )
        for (rule, slot, flag), moments in sorted(self.denied.items())[:MOST_TOLD]:
            most = max(moments, key=lambda one: one.apart)
            yield (
                f"{self.names[rule - 1]}: its value of {slot} was denied, since {self.whose(flag)} had set it, in"
                f" {times(moments)}; most in timestep {most.step}: it asked for {most.wanted:,}, and the table"
                f" has {most.holds:,}."
            )

    def whose(self, flag: str) -> str:
        """Whose a content with this flag is."""
        if flag[0] == "R":
            return self.names[int(flag[1:]) - 1]
        return "an input" if flag[0] == "I" else f"an object ({flag})"


def became(rule: int, put: Asked, content: Content) -> str:
    """What became of a put, by what the cell holds at the end of its timestep."""
    if content.value == put.value:
        return "stands" if content.flag == f"R{rule}" else "again"
    if put.fate == DENIED:
        return "denied"
    return "gave way" if content.flag[:1] == "O" else "passed"


def times(moments: list[Moment]) -> str:
    """How many timesteps they are."""
    return f"{len(moments):,} timestep{'s' * (len(moments) > 1)}"
