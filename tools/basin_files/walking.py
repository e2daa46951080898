"""From a cell to the cells that its writer looked at, over the trace of a run."""

from bisect import bisect_left
from collections.abc import Iterator
from dataclasses import dataclass, field

from .asking import DENIED, LATE, WRITTEN, Asked, told_by
from .dispatch import elevation, first_past, past_ago, past_name
from .firing import Block, Firing
from .inputs import Inputs
from .model import BasinObject, Model, Slot
from .program import Progress
from .sections import Section

END = float("inf")  # a place behind all of a trace
A_WHILE = 4096  # lines


@dataclass
class Event:
    """A dispatch or a firing of a trace: its place, its timestep, its object or rule, and what it wrote."""

    place: int
    step: int
    thing: str = ""
    rule: int = 0
    ended: str = ""  # how a firing ended: done or unknown
    written: list[tuple[str, int, int]] = field(default_factory=list)  # slots, timesteps and values
    asked: list[Asked] = field(default_factory=list)  # all puts that the trace tells of, in their order


@dataclass
class Content:
    """What a cell held at a place of the trace: value and flag, and the event that wrote it or whence it came."""

    value: int | None
    flag: str = ""
    event: Event | None = None
    slot: str = ""  # the slot under whose name it was written
    whence: str = ""


class OtherPolicy(Exception):
    """A firing of the trace isn't one of the policy's code."""


class NotTold(Exception):
    """What inputs give a cell stands in no table that is there."""


class Walk:
    """The trace of a section, with its model, the blocks of its code, and the inputs where they are known.

    `is_asked` says whether the trace tells what was asked for and not written.
    """

    def __init__(
        self, model: Model, blocks: list[Block], inputs: Inputs | None, section: Section, is_asked: bool = False
    ) -> None:
        self.model, self.blocks, self.inputs, self.is_asked = model, blocks, inputs, is_asked
        self.first = {name: model.group(name)[0].full_name for name in model.slots}
        self.rows = {row.step: row.values for row in section.rows}
        self.events: list[Event] = []
        # by cell, under the first slot of its link: places, and contents
        self.puts: dict[tuple[str, int], tuple[list[int], list[Content]]] = {}
        # likewise, where the trace tells them: events and their puts that were denied
        self.denied: dict[tuple[str, int], list[tuple[Event, Asked]]] = {}
        self.read(section.trace)

    def read(self, trace: list[str]) -> None:
        """Goes through the lines of a trace."""
        step, event, progress = 0, Event(0, 0), Progress("the trace is read")
        for place, line in enumerate(trace):
            if not place % A_WHILE:
                progress.at(place, len(trace), "lines")
            if line.startswith("  "):
                put = told_by(line, event.asked)
                if put and put.fate == WRITTEN:
                    self.take(event, put)
                elif put and put.fate == DENIED:
                    self.denied.setdefault((self.first[put.slot], put.step), []).append((event, put))
                continue
            word, *rest = line.split()
            if word == "open":
                step = int(rest[0])
            elif word == "solve":
                event = Event(place, step, thing=rest[0])
                self.events.append(event)
            elif word == "fire":
                event = Event(place, step, rule=int(rest[0]), ended=rest[1])
                self.events.append(event)

    def take(self, event: Event, put: Asked) -> None:
        """Takes a put that an event wrote."""
        event.written.append((put.slot, put.step, put.value))
        places, contents = self.puts.setdefault((self.first[put.slot], put.step), ([], []))
        places.append(event.place)
        contents.append(Content(put.value, put.flag, event, put.slot))

    def held(self, slot: str, step: int, before: float) -> Content:
        """What a cell held before a place of the trace."""
        if step < 1:
            value = self.past(slot, step)
            return Content(value, whence="unknown" if value is None else "before the run, by the model")
        places, contents = self.puts.get((self.first[slot], step), ([], []))
        number = bisect_left(places, before)
        if number:
            return contents[number - 1]
        value = None if places else self.given(slot, step)
        return Content(None, whence="unknown") if value is None else Content(value, "I0", whence="an input")

    def given(self, slot: str, step: int) -> int | None:
        """What inputs give a cell that nobody wrote: the table has it, or the file, where the table ends before."""
        if step in self.rows:
            return self.rows[step].get(slot)
        if step > self.model.run.count:
            return None
        if not self.inputs:
            raise NotTold(f"the run did not complete timestep {step}: give --edits FILE, which says what its inputs were")
        given = self.inputs.given(slot, step)
        return given.value if given else None

    def past(self, slot: str, step: int) -> int | None:
        """What a slot held before the run."""
        owner, _, name = slot.partition(".")
        thing = self.model.the_object(owner)
        if name == "PoolElevation" and thing.stores and not step:
            return elevation(thing.table, thing.options["initial_storage"])
        if name != past_name(thing) or step <= -past_ago(thing):
            return None
        return first_past(thing, step)

    def looked_at(self, event: Event) -> list[tuple[str, int]]:
        """The cells at which the writer of an event looked, as slots and timesteps."""
        return self.of_rule(event) if event.rule else self.of_object(event)

    def of_rule(self, event: Event) -> list[tuple[str, int]]:
        """Those of a firing: its code is gone through again, with what the cells held."""
        firing = self.fired(event)
        if firing.ended != event.ended or not set(event.written) <= set(firing.puts):
            raise OtherPolicy(f"rule {event.rule} of the policy does something different at timestep {event.step}")
        return list(firing.looks)

    def wanted(self, event: Event) -> list[Asked]:
        """All puts that a firing of the trace asked for: as the trace tells them, or gone through again."""
        if self.is_asked:
            return event.asked
        return [self.judged(event, *put) for put in self.fired(event).puts]

    def judged(self, event: Event, slot: str, step: int, value: int) -> Asked:
        """A put of a firing that was gone through again; of its fate what stood against it, or that it was late."""
        flag = f"R{event.rule}"
        if step > self.model.run.count:
            return Asked(LATE, slot, step, value, flag)
        held = self.held(slot, step, event.place)
        is_denied = held.value not in (None, value) and int(held.flag[1:]) < event.rule
        before = None if held.value is None else (held.value, held.flag)
        return Asked(DENIED if is_denied else WRITTEN, slot, step, value, flag, before)

    def fired(self, event: Event) -> Firing:
        """A firing of the trace, gone through again."""
        return self.refired(event.rule, event.step, event.place)

    def refired(self, rule: int, step: int, before: float = END) -> Firing:
        """A firing of a rule with what cells held before a place of the trace, or at its end."""

        def held(slot: str, at: int) -> int | None:
            return self.held(slot, at, before).value

        return Firing(self.model, self.blocks, step, held).run(rule)

    def of_object(self, event: Event) -> list[tuple[str, int]]:
        """Those of a dispatch: what it goes by and hadn't solved itself, and its past."""
        thing = self.model.the_object(event.thing)
        wrote = {(self.first[slot], step) for slot, step, _ in event.written}
        cells = [(slot.full_name, event.step) for slot in thing.slots if goes_by(thing, slot)]
        cells = [cell for cell in cells if (self.first[cell[0]], event.step) not in wrote]
        contents = {cell: self.held(*cell, event.place) for cell in cells}
        others = [cell for cell, content in contents.items() if is_of_another(content, thing)]
        if past_name(thing):
            others.append((f"{thing.name}.{past_name(thing)}", event.step - past_ago(thing)))
        return others


def goes_by(thing: BasinObject, slot: Slot) -> bool:
    """Whether an object solves by what this slot of it holds at the timestep."""
    return slot.role in ("solvable", "fixed") or (thing.stores and slot.role == "neither")


def is_of_another(content: Content, thing: BasinObject) -> bool:
    """Whether a cell was known, and not by the object itself."""
    return content.value is not None and not (content.event and content.event.thing == thing.name)


def lines_of(walk: Walk, slot: str, step: int, levels: int) -> Iterator[str]:
    """The lines of a walk from a cell on, so many levels deep."""
    waiting: list[tuple[str, int, float, int]] = [(slot, step, END, 0)]
    seen: set[int] = set()
    while waiting:
        slot, step, before, level = waiting.pop()
        content = walk.held(slot, step, before)
        event = content.event
        more = walk.looked_at(event) if event and level < levels and event.place not in seen else []
        yield f"{'  ' * level}{slot} {step} {told(content, slot)}{mark(event, seen, level, levels)}"
        yield from denials(walk, slot, step, before, level)
        if event and more:
            seen.add(event.place)
            waiting += [(name, at, event.place, level + 1) for name, at in reversed(more)]


def denials(walk: Walk, slot: str, step: int, before: float, level: int) -> Iterator[str]:
    """Lines on what was wanted of a cell up to a place of the trace, and denied; of a value that was wanted again one."""
    lines: dict[str, None] = {}
    for event, put in walk.denied.get((walk.first[slot], step), ()):
        if event.place < before and put.held:
            value, flag = put.held
            when = "" if event.step == step else f", in timestep {event.step},"
            lines[f"rule {event.rule} asked for {put.value} here{when} and was denied: {value} {flag} was there already"] = None
    yield from (f"{'  ' * level}  {line}" for line in lines)


def told(content: Content, slot: str) -> str:
    """What a line says of what a cell held."""
    value = "" if content.value is None else f"= {content.value} "
    flag = f"{content.flag}, " if content.flag else ""
    if not content.event:
        return f"{value}{flag}{content.whence}"
    writer = f"by rule {content.event.rule}" if content.event.rule else f"by {content.event.thing}"
    return f"{value}{flag}{writer}" + (f", as {content.slot}" if content.slot != slot else "")


def mark(event: Event | None, seen: set[int], level: int, levels: int) -> str:
    """What stands behind a line whose writer isn't followed."""
    if event and event.place in seen:
        return " (above)"
    return " .." if event and level == levels else ""
