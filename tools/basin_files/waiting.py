"""Why cells of a settled run are empty: which objects wait for what, back to the missing input."""

from collections import deque
from collections.abc import Iterator
from dataclasses import dataclass
from heapq import heappop, heappush

from .dispatch import missing, past_ago, past_name, past_value
from .formats import LEVELS
from .inputs import Inputs, folded
from .model import BasinObject, Model, Slot
from .moments import stamp_of
from .sections import Row, Section

MOST_TOLD = 20  # objects that wait, and inputs that are missing


def tell_empty(model: Model, inputs: Inputs, section: Section) -> list[str]:
    """Lines that tell of the empty cells of a settled section; none where there are none."""
    empty = empty_rows(model, section)
    if not empty:
        return []
    lines = [how_many_empty(model, section, empty)]
    for row in empty:
        waiting = Waiting(model, inputs, section.rows, row)
        if waiting.objects:
            return lines + waiting.lines()
    missed = {name for row in empty for name in empty_in(model, row)}
    names = [name for name in section.slots if name in missed]
    return lines + [
        "No object waits for another value. Nothing gives these slots: " + ", ".join(names) + "."
    ]


def unasked_in(model: Model, row: Row) -> Iterator[str]:
    """Slots that a row leaves empty and for which nothing asks: requests where what they would ask for is known."""
    for thing in model.objects:
        for request, given in (("EnergyRequest", "Outflow"), ("DiversionRequest", "Diversion")):
            name = f"{thing.name}.{request}"
            slot = model.slots.get(name) if thing.kind != "data" else None
            if slot and slot.role == "neither" and row.values[name] is None and row.values[f"{thing.name}.{given}"] is not None:
                yield name


def settled_words(model: Model, section: Section) -> str:
    """What is told of a run in which nothing is to be mended."""
    size = f"{len(section.rows):,} timesteps, {len(section.slots):,} slots"
    unasked = dict.fromkeys(name for row in section.rows for name in unasked_in(model, row))
    but = f" except those of {', '.join(unasked)}, which nothing requests" if unasked else ""
    return f"The run settled: {size}, and no cell is empty{but}."


def empty_in(model: Model, row: Row) -> list[str]:
    """The slots that a row leaves empty and that are missed."""
    empty = [name for name, value in row.values.items() if value is None]
    unasked = set(unasked_in(model, row)) if empty else ()
    return [name for name in empty if name not in unasked]


def empty_rows(model: Model, section: Section) -> list[Row]:
    """The rows in which a cell is empty that is missed."""
    return [row for row in section.rows if empty_in(model, row)]


def how_many_empty(model: Model, section: Section, rows: list[Row]) -> str:
    """The line that tells how many cells of these rows are empty."""
    count = sum(len(empty_in(model, row)) for row in rows)
    whole = len(section.rows) * len(section.slots)
    return f"The run settled, and {count:,} of {whole:,} cells are empty; the first timestep with one is {rows[0].step}."


def is_solved(slot: Slot, thing: BasinObject) -> bool:
    """Whether a slot is known once its object has solved all that it can."""
    return slot.role != "neither" or (thing.stores and slot.name in LEVELS)


class Waiting:
    """The objects that wait at the end of a timestep, as its row tells."""

    def __init__(self, model: Model, inputs: Inputs, rows: list[Row], row: Row) -> None:
        self.model, self.inputs, self.rows, self.step = model, inputs, rows, row.step
        self.first = {name: model.group(name)[0].full_name for name in model.slots}
        self.known = {self.first[name] for name, value in row.values.items() if value is not None}
        self.objects = [thing for thing in model.objects if self.waits(thing)]
        # of those that wait, by the first of a link
        self.owners: dict[str, list[BasinObject]] = {name: [] for name in self.first.values()}
        for thing in self.objects:
            for slot in thing.slots:
                self.owners[self.first[slot.full_name]].append(thing)

    def waits(self, thing: BasinObject) -> bool:
        """Whether a slot is unknown that the object solves, derives or has to know."""
        return any(name not in self.known for name in self.solves(thing))

    def solves(self, thing: BasinObject) -> list[str]:
        """The slots that are known once an object has solved all that it can."""
        return [self.first[slot.full_name] for slot in thing.slots if is_solved(slot, thing)]

    def lacking(self, thing: BasinObject, known: set[str]) -> tuple[list[str], list[str]]:
        """What the object lacks where these slots are known: what it has to know, and terms but for one."""
        names = [slot.name for slot in thing.slots if self.first[slot.full_name] in known]
        past = not past_name(thing) or past_value(thing, self.step, self.rows) is not None
        return missing(thing, names, past)

    def candidates(self) -> list[str]:
        """Slots that inputs could give and that objects which wait lack, by the first of their links."""
        names = {self.first[slot.full_name]: None for thing in self.objects for slot in thing.slots}
        return [
            name
            for name in names
            if name not in self.known and all(slot.settable for slot in self.model.group(name))
        ]

    def holes(self) -> list[str]:
        """Candidates that the inputs give at other timesteps, that of the nearest timestep first."""
        steps = {name: self.inputs.all_given(name) for name in self.candidates()}
        given = [name for name in steps if steps[name]]
        return sorted(
            given, key=lambda name: (min(abs(step - self.step) for step in steps[name]), -len(steps[name]))
        )

    def wanted(self) -> list[str]:
        """Slots that an object has to be given and no other object solves, as a rate of evaporation."""
        names, candidates = [], set(self.candidates())
        for thing in self.objects:
            for slot in thing.slots:
                others = [other for other in self.model.group(slot.full_name) if other is not slot]
                if slot.role == "fixed" and not any(
                    other.role in ("solvable", "derived") for other in others
                ):
                    names.append(self.first[slot.full_name])
        return [name for name in dict.fromkeys(names) if name in candidates]

    # ---- what is told

    def lines(self) -> list[str]:
        """The chain of objects that wait, and what is missing."""
        begin, end = self.model.run.begin(self.step), self.model.run.end(self.step)
        search = Search(self)
        roots, order = search.roots, list(search.solved.values())
        chain = order + [thing for thing in self.objects if thing.name not in search.solved]
        lines = [f"In timestep {self.step}, from {stamp_of(begin)} to {stamp_of(end)}, these objects wait:"]
        lines += [f"    {thing.name} ({thing.kind}) {self.wants(thing)}" for thing in chain[:MOST_TOLD]]
        lines += [f"    and {len(chain) - MOST_TOLD} more"] if len(chain) > MOST_TOLD else []
        lines += [line for root in roots[:MOST_TOLD] for line in self.missing_input(root)]
        lines += [f"Missing: {len(roots) - MOST_TOLD} inputs more."] if len(roots) > MOST_TOLD else []
        if roots and len(order) == len(self.objects):
            lines.append("With that no object would wait in this timestep.")
        return lines + [line for thing in self.objects for line in self.hints(thing)]

    def wants(self, thing: BasinObject) -> str:
        """What an object waits for."""
        fixed, terms = self.lacking(thing, self.known)
        fixed = [self.linked(thing, name) for name in fixed]
        words = [f"waits for {' and '.join(fixed)}"] if fixed else []
        if terms:
            few = {1: "", 2: "two of ", 3: "three of "}.get(len(terms) - 1, f"{len(terms) - 1} of ")
            mark = " or " if len(terms) == 2 else ", "
            words.append(
                f"{'and' if fixed else 'waits'} for"
                f" {few}{mark.join(self.linked(thing, name) for name in terms)}"
            )
        return " ".join(words) or "waits"

    def linked(self, thing: BasinObject, name: str) -> str:
        """A slot that is lacking, with the slots with which it is linked."""
        if name.endswith(" before"):
            return f"its {name.removesuffix(' before')} of timestep {self.past_step(thing)}"
        others = [
            slot.full_name for slot in self.model.group(f"{thing.name}.{name}") if slot.owner != thing.name
        ]
        return f"{name} (linked with {', '.join(others)})" if others else name

    def past_step(self, thing: BasinObject) -> int:
        """The earlier timestep at which an object looks."""
        return self.step - past_ago(thing)

    def missing_input(self, root: "Root") -> Iterator[str]:
        """Lines that tell of a missing input, and where else the inputs give it."""
        few = {1: "one of ", 2: "two of "}.get(root.count, f"{root.count} of ") if len(root.names) > 1 else ""
        yield f"Missing: {few}{', '.join(root.names)} at timestep {self.step}."
        for name in root.names:
            steps = self.inputs.all_given(name)
            if steps:
                all_steps = range(1, self.model.run.count + 1)
                lacking = folded(step for step in all_steps if step not in steps)
                yield f"    The inputs give {name} at {folded(steps)}, and not at {lacking}."
        if not any(self.inputs.all_given(name) for name in root.names):
            yield (
                "    The inputs give it at no timestep."
                if len(root.names) == 1
                else "    The inputs give none of them."
            )

    def hints(self, thing: BasinObject) -> Iterator[str]:
        """What else may be wrong with an object that waits."""
        fixed, _ = self.lacking(thing, self.known)
        if any(name.endswith(" before") for name in fixed):
            name = past_name(thing)
            yield (
                f"Missing: {thing.name}.{name} at timestep {self.past_step(thing)}, which {thing.name} reads."
            )
        if (
            thing.kind == "water_user"
            and fixed == ["DiversionRequest"]
            and self.first[f"{thing.name}.Diversion"] in self.known
        ):
            yield (
                f"{thing.name} is supplied by request, so its Diversion alone is not enough: with supply ="
                ' "rule" it would be.'
            )


@dataclass
class Root:
    """Inputs that are missing: so many of these slots, each by the first of its link."""

    names: list[str]
    count: int = 1


class Search:
    """Looks for inputs that are missing: those given at other timesteps, then any that let objects solve, then all that
    the object lacks which lacks least. What follows from an input is gone through a few times, however many there are."""

    def __init__(self, waiting: Waiting) -> None:
        self.waiting = waiting
        self.known = set(waiting.known)  # with the inputs that were found so far, and all that follows
        self.solved: dict[str, BasinObject] = {}  # the objects that solve then, by name, in their order
        self.roots: list[Root] = []
        self.places = {name: place for place, name in enumerate(waiting.candidates())}
        self.numbers = {thing.name: number for number, thing in enumerate(waiting.objects)}
        self.lacks = [(0, number) for number in self.numbers.values()]  # a heap: how much an object lacks, or less
        self.close: list[str] = []  # what objects lack that lack nothing else
        for name in self.starts(waiting.holes()):
            self.take([Root([name])])
        for name in waiting.wanted():
            self.take([Root([name])])
        self.close = list(self.places)
        self.find_others()

    def find_others(self) -> None:
        """Takes what lets objects solve by itself, and where nothing does all that one object lacks."""
        while True:
            names, self.close = sorted(set(self.close), key=self.places.__getitem__), []
            for name in self.starts(names):
                self.take([Root(self.alike(name))])
            if not self.close:
                few = self.fewest()
                if not few:
                    return
                self.take(few)

    def take(self, roots: list[Root]) -> None:
        """Takes inputs as found, unless they follow from what was found."""
        names = [name for root in roots for name in root.names[: root.count]]
        if not self.known.issuperset(names):
            self.roots += roots
            self.solved.update(self.spread(names)[0])

    def spread(self, names: list[str]) -> tuple[dict[str, BasinObject], list[str]]:
        """Makes slots known, and all that objects solve then: these objects in order, and the new slots."""
        order: dict[str, BasinObject] = {}
        added, queue = [], deque(names)
        while queue:
            name = queue.popleft()
            if name in self.known:
                continue
            self.known.add(name)
            added.append(name)
            for thing in self.waiting.owners[name]:
                if thing.name not in self.solved and thing.name not in order and self.is_solved_now(thing):
                    order[thing.name] = thing
                    queue.extend(self.waiting.solves(thing))
        return order, added

    def is_solved_now(self, thing: BasinObject) -> bool:
        """Whether an object lacks nothing more; what it lacks is noted."""
        roots = self.roots_of(thing)
        if roots:
            count = sum(root.count for root in roots)
            heappush(self.lacks, (count, self.numbers[thing.name]))
            self.close += [name for root in roots for name in root.names if count == 1 and name in self.places]
        return not roots

    def roots_of(self, thing: BasinObject) -> list[Root]:
        """What an object lacks; the name of a slot of an earlier timestep is empty."""
        fixed, terms = self.waiting.lacking(thing, self.known)
        names = [self.waiting.first.get(f"{thing.name}.{name}", "") for name in (*fixed, *terms)]
        roots = [Root([name]) for name in names[: len(fixed)]]
        return roots + ([Root(names[len(fixed) :], len(terms) - 1)] if terms else [])

    def forget(self, order: dict[str, BasinObject], added: list[str]) -> None:
        """Takes back what was tried."""
        self.known.difference_update(added)
        for name in order:
            self.solved.pop(name, None)

    def starts(self, names: list[str]) -> list[str]:
        """Those of these slots that let objects solve, without those that follow from others; the one with most first."""
        order, added, starts = {}, [], []
        queue, asked, before = deque(names), set(names), len(self.close)
        while queue:
            name = queue.popleft()
            solved, known = self.spread([name]) if name not in self.known else ({}, [])
            if solved:
                starts.append(name)
                self.solved.update(solved)
                order.update(solved)
                added += known
                queue.extend(name for name in self.close[before:] if name in asked)
            else:
                self.known.difference_update(known)
            del self.close[before:]
        self.forget(order, added)
        return self.without_what_follows(starts)

    def without_what_follows(self, starts: list[str]) -> list[str]:
        """The slots that do not follow from later ones; the one that lets most objects solve first."""
        order, added, gains, before = {}, [], {}, len(self.close)
        for name in reversed(starts):
            if name not in self.known:
                solved, known = self.spread([name])
                self.solved.update(solved)
                order.update(solved)
                added += known
                gains[name] = len(solved)
        self.forget(order, added)
        del self.close[before:]
        return sorted(gains, key=lambda name: (-gains[name], self.places[name]))

    def gain(self, name: str) -> int:
        """How many further objects would solve if a slot were given."""
        before = len(self.close)
        order, added = self.spread([name])
        self.known.difference_update(added)
        del self.close[before:]
        return len(order)

    def alike(self, name: str) -> list[str]:
        """The slots of the object that has this one, each of which would let as many objects solve."""
        if name in self.known:
            return [name]
        own = {self.waiting.first[slot.full_name] for slot in self.waiting.owners[name][0].slots}
        others = sorted((own & self.places.keys()) - self.known, key=self.places.__getitem__)
        gain = self.gain(name)
        return [other for other in others if other == name or self.gain(other) == gain]

    def fewest(self) -> list[Root]:
        """What the object lacks that lacks least, of those that still wait and that inputs could help."""
        while self.lacks:
            noted, number = heappop(self.lacks)
            thing = self.waiting.objects[number]
            roots = [] if thing.name in self.solved else self.roots_of(thing)
            count = sum(root.count for root in roots)
            if count > noted:
                heappush(self.lacks, (count, number))
            elif roots and all(name in self.places for root in roots for name in root.names):
                return roots
        return []
