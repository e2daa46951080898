"""Why each cell holds what it holds: the events of a run, with their puts and with the cells at which they looked."""

import json
from dataclasses import dataclass, field

from basin_files.asking import FATES, Asked
from basin_files.model import Model
from basin_files.program import Progress
from basin_files.walking import Event, Walk

EXACT = 2**53  # up to where a browser's numbers are exact


def number_of(value: int | None) -> int | str | None:
    """A number as a browser reads it exactly: beyond its own numbers as a text."""
    return value if value is None or abs(value) < EXACT else str(value)


@dataclass
class Story:
    """What is told of the events of a run, as a browser reads it, and of which timesteps."""

    text: str
    first: int
    last: int


@dataclass
class Teller:
    """Tells the events of some timesteps of a run that asked for a put, or ended unknown.

    An event is who (an object's place, or minus a rule's number), its timestep, its looks and its puts. A look is a
    slot's place, a timestep, a value, and a flag or whence it came. A put is its fate, a slot's place, a timestep, a
    value, a flag, and value and flag of what was held, where that is told.
    """

    model: Model
    walk: Walk
    slots: dict[str, int] = field(default_factory=dict)
    objects: dict[str, int] = field(default_factory=dict)

    def __post_init__(self) -> None:
        self.slots = {name: place for place, name in enumerate(self.model.slots)}
        self.objects = {thing.name: place for place, thing in enumerate(self.model.objects)}

    def story(self, first: int, last: int, room: int) -> Story:
        """What is told of whole timesteps, as many as have room, in bytes."""
        events: list[str] = []
        whole, size, step = 0, 0, first
        progress = Progress("each event is gone through again")
        for event in self.walk.events:
            if not first <= event.step <= last or not (event.asked or event.ended == "unknown"):
                continue
            if event.step > step:
                whole, step = len(events), event.step
            text = json.dumps(self.told(event), separators=(",", ":"))
            size += len(text) + 1
            if size > room:
                return Story(f"[{','.join(events[:whole])}]", first, step - 1)
            events.append(text)
            progress.at(step, last, "timesteps")
        return Story(f"[{','.join(events)}]", first, last)

    def told(self, event: Event) -> list[object]:
        """An event as a browser reads it."""
        who = -event.rule if event.rule else self.objects[event.thing]
        puts = [self.put(one) for one in event.asked]
        return [who, event.step, [self.look(event, *cell) for cell in self.walk.looked_at(event)], puts]

    def look(self, event: Event, slot: str, step: int) -> list[object]:
        """A look: what the cell held then."""
        held = self.walk.held(slot, step, event.place)
        return [self.slots[slot], step, number_of(held.value), held.flag or held.whence]

    def put(self, one: Asked) -> list[object]:
        """A put."""
        told: list[object] = [FATES.index(one.fate), self.slots[one.slot], one.step, number_of(one.value), one.flag]
        return [*told, number_of(one.held[0]), one.held[1]] if one.held else told
