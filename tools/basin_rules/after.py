"""What became of a run with rules: rules that ended unknown, objects that wait, and whose put led to a fault."""

import re
from collections import Counter, deque
from dataclasses import dataclass

from basin_files.faults import beyond_plant
from basin_files.firing import Block, Firing
from basin_files.formats import GREATEST_QUANTITY, amount
from basin_files.inputs import Inputs
from basin_files.model import BasinObject, Model, Slot
from basin_files.moments import stamp_of
from basin_files.sections import Row, Section
from basin_files.waiting import Waiting, empty_rows, how_many_empty
from basin_files.walking import END, Event, OtherPolicy, Walk, told

MOST_TOLD = 20  # rules and objects
FEW_PUTS = 3
LED, AGAINST, NOWHERE = "led", "against", "nowhere"  # how a put pulled that stands behind a fault
LOOKED_UP = {
    "item": "the list has no item with that number",
    "toelevation": "the table does not reach that storage",
    "tostorage": "the table does not reach that elevation",
}


@dataclass
class Run:
    """A run by a policy: its model, inputs and section, the walk over its trace, and the rules' names.

    `lines` are those of the ruleset from which each block's instructions come, or `None`.
    """

    model: Model
    inputs: Inputs
    section: Section
    walk: Walk
    names: list[str]
    lines: list[list[int]] | None = None

    @property
    def fault_step(self) -> int:
        """The timestep in which a run ended by its fault."""
        step = self.section.fault_step
        assert step is not None
        return step

    def part(self, pattern: str) -> str:
        """What the group of a pattern finds in the words of the fault, which have it."""
        found = re.search(pattern, self.section.fault)
        assert found
        return found[1]

    def rule(self, number: int) -> str:
        """A rule by its number, for people to read."""
        return self.names[number - 1]

    def line(self, firing: Firing) -> str:
        """The line of the ruleset to which a firing came last, in words, or ""."""
        if not self.lines or not firing.at:
            return ""
        block, place = firing.at
        return f" in line {self.lines[self.walk.blocks.index(block)][place]}"

    @property
    def firings(self) -> list[Event]:
        """The firings of the trace, in their order."""
        return [event for event in self.walk.events if event.rule]


def lines_of_run(run: Run) -> tuple[list[str], list[str]]:
    """What is told of a run: what is to be looked at, and then which rule was fired most."""
    lines = lines_of_fault(run) if run.section.fault else lines_of_empty(run)
    return [*lines, *lines_of_unknown(run)], lines_of_most(run)


# ---- cells that are empty


def lines_of_empty(run: Run) -> list[str]:
    """Lines that tell of the empty cells of a settled run; none where there are none."""
    empty = empty_rows(run.model, run.section)
    if not empty:
        return []
    return [how_many_empty(run.model, run.section, empty), *lines_of_waiting(run, empty[0])]


def lines_of_waiting(run: Run, row: Row) -> list[str]:
    """The objects that stayed idle at the end of a timestep, with what each lacks."""
    waiting = Waiting(run.model, run.inputs, run.section.rows, row)
    begin, end = run.model.run.begin(row.step), run.model.run.end(row.step)
    objects = waiting.objects[:MOST_TOLD]
    lines = [f"    {thing.name} ({thing.kind}) {waiting.wants(thing)}" for thing in objects]
    if len(waiting.objects) > MOST_TOLD:
        lines.append(f"    and {len(waiting.objects) - MOST_TOLD} more")
    own = [name for name, value in row.values.items() if value is None and is_of_data(run.model, name)]
    if own:
        lines.append(f"    nothing gave {', '.join(own[:MOST_TOLD])}{' and more' * (len(own) > MOST_TOLD)}")
    when = f"In timestep {row.step}, from {stamp_of(begin)} to {stamp_of(end)}"
    return [f"{when}, this stays unknown:", *lines] if lines else []


def is_of_data(model: Model, name: str) -> bool:
    """Whether a slot is one of a data object, which nothing but inputs and rules give."""
    return model.the_object(name.partition(".")[0]).kind == "data"


# ---- rules that ended unknown


def lines_of_unknown(run: Run) -> list[str]:
    """The rules whose last firing of a timestep ended unknown, with the cell at which the first one did."""
    last = {(event.rule, event.step): event for event in run.firings}
    unknown: dict[int, list[Event]] = {}
    for (rule, _), event in last.items():
        if event.ended == "unknown":
            unknown.setdefault(rule, []).append(event)
    lines = []
    for rule, events in sorted(unknown.items())[:MOST_TOLD]:
        steps = f"{len(events):,} of {run.model.run.count:,} timesteps"
        first = min(events, key=lambda event: event.step)
        lines.append(f"    {run.rule(rule)} in {steps}, first in timestep {first.step}: {lacked(run, first)}")
    return ["Rules that ended unknown, and set nothing:", *lines] if lines else []


def lacked(run: Run, event: Event) -> str:
    """The cell at which a firing ended unknown."""
    try:
        firing = run.walk.fired(event)
    except (OtherPolicy, KeyError):
        return "this tool cannot say why"
    if not firing.lacked:
        return "it asks for the month, the day or the year of a date outside the run"
    slot, step = firing.lacked
    return f"it reads {slot} of timestep {step}, which is not known"


# ---- which rule was fired most


def lines_of_most(run: Run) -> list[str]:
    """The rule that was fired most; of several that were fired as often nothing is told."""
    counts = Counter(event.rule for event in run.firings)
    if not counts:
        return []
    (rule, times), *others = counts.most_common(2)
    if others and others[0][1] == times:
        return []
    steps = Counter(event.step for event in run.firings if event.rule == rule)
    step, most = max(steps.items(), key=lambda item: (item[1], -item[0]))
    if len(steps) == 1:
        return [f"{run.rule(rule)} fired most often: {often(times)}, in timestep {step}."]
    count = f"{often(times)} in {len(steps):,} timesteps"
    return [f"{run.rule(rule)} fired most often: {count}, and {often(most)} in timestep {step}."]


def often(times: int) -> str:
    """How often, in words."""
    return {1: "once", 2: "twice"}.get(times, f"{times:,} times")


# ---- a fault


def lines_of_fault(run: Run) -> list[str]:
    """Lines that tell of the fault that ended the run."""
    fault, step = run.section.fault, run.fault_step
    begin, end = run.model.run.begin(step), run.model.run.end(step)
    lines = [f"The run ended in timestep {step}, from {stamp_of(begin)} to {stamp_of(end)}."]
    rule = re.search(r"\brule ([0-9]+) step", fault)
    if rule:
        return lines + lines_of_rule(run, int(rule[1]))
    thing = run.model.the_object(run.part(r"\bobject ([A-Za-z_0-9]+)"))
    return lines + lines_of_object(run, thing, step)


def lines_of_rule(run: Run, number: int) -> list[str]:
    """What is told where a rule ended the run."""
    fault = run.section.fault
    name = run.rule(number)
    if fault.startswith("division"):
        where = run.line(run.walk.refired(number, run.fault_step))
        return [f"{name} divided by 0{where}. Put an IF before a division by a number that may be 0."]
    if fault.startswith("limit"):
        times = int(run.part(r"after ([0-9]+)"))
        return [f"{name} had fired {often(times)}, and was due again: {what_changed(run, number)}", *to_and_fro(run)]
    value = int(run.part(r"value (-?[0-9]+)"))
    return [f"{name} came to {amount(value)}: {out_of_range(run, number, value)}"]


def what_changed(run: Run, number: int) -> str:
    """What a rule looked at that was set again and again."""
    mine = [event for event in run.firings if event.rule == number and event.step == run.fault_step]
    looks = {cell for event in mine[-2:] for cell in looked_at(run, event)}
    writers: Counter[tuple[str, str]] = Counter()
    for event in run.walk.events:
        for slot, step, _ in event.written:
            if event.place > mine[0].place and (slot, step) in looks:
                writers[(run.rule(event.rule) if event.rule else event.thing, slot)] += 1
    if not writers:
        return "the slots that it reads were set again and again."
    (writer, slot), times = writers.most_common(1)[0]
    whose = "it itself" if writer == run.rule(number) else writer
    return f"it reads {slot}, which {whose} set {often(times)} meanwhile."


def to_and_fro(run: Run) -> list[str]:
    """A line that tells which cells went to and fro between two values when the run ended."""
    values: dict[tuple[str, int], tuple[str, list[int]]] = {}
    for event in run.walk.events:
        if event.step == run.fault_step:
            for slot, step, value in event.written:
                values.setdefault((run.walk.first[slot], step), (slot, []))[1].append(value)
    last = [(slot, held[-4:]) for slot, held in values.values()]
    found = [f"{slot} between {held[0]:,} and {held[1]:,}" for slot, held in last if is_to_and_fro(held)]
    if not found:
        return []
    mend = "Compute the value in one firing, from the values before; or set it only where it changes by more than that."
    return [f"Values go to and fro: {', '.join(found[:MOST_TOLD])}. {mend}"]


def is_to_and_fro(held: list[int]) -> bool:
    """Whether four values in a row are two by turns."""
    return len(held) == 4 and held[:2] == held[2:] and held[0] != held[1]


def looked_at(run: Run, event: Event) -> list[tuple[str, int]]:
    """The cells at which a firing looked, or none where this tool can't tell."""
    try:
        return run.walk.looked_at(event)
    except (OtherPolicy, KeyError):
        return []


def out_of_range(run: Run, number: int, value: int) -> str:
    """What a rule wanted with a number that is out of range."""
    if abs(value) > GREATEST_QUANTITY:
        return "numbers are from -10^17 to 10^17."
    try:
        firing = run.walk.refired(number, run.fault_step)
    except KeyError:
        return "that is out of range."
    for slot, _, wanted in firing.asked:
        low, high = run.model.bounds(slot)
        if wanted == value and not low <= wanted <= high:
            return f"it sets {slot} to that value, whose bounds are {amount(low)} to {amount(high)}."
    if firing.ended != "out of range":
        return "that is out of range."
    assert firing.at  # it has come to something
    word = firing.at[0].instructions[firing.at[1]][0]
    return f"{LOOKED_UP[word]}{run.line(firing)}."


def lines_of_object(run: Run, thing: BasinObject, step: int) -> list[str]:
    """What is told where an object ended the run: what it held, and whose put that came from."""
    swings = to_and_fro(run) if run.section.fault.startswith("limit") else []
    lines = [what_of_object(run, thing), *swings, f"The values of {thing.name} ({thing.kind}) then:"]
    for name in (slot.full_name for slot in thing.slots):
        content = run.walk.held(name, step, END)
        if content.value is not None:
            lines.append(f"    {name} {told(content, name)}")
    puts = [(how_it_pulled(run, thing, own, value), slot, event) for slot, event, own, value in puts_behind(run, thing, step)]
    for _, slot, event in [put for put in puts if put[0] == LED][:FEW_PUTS]:
        when = "this timestep" if event.step == step else f"timestep {event.step}"
        lines.append(f"{run.rule(event.rule)} led to this: it set {slot} = {value_put(event, slot, step):,} in {when}.")
        lines += due_again(run, event)
    for _, slot, event in [put for put in puts if put[0] == AGAINST][:FEW_PUTS]:
        lines.append(f"{run.rule(event.rule)} pulled the other way: it set {slot} = {value_put(event, slot, step):,}.")
    if not any(put[0] == LED for put in puts):
        lines.append("No rule set a value for this timestep that led to this.")
    return lines + too_late(run, thing, step)


def value_put(event: Event, slot: str, step: int) -> int:
    """Returns the value that an event wrote to a cell."""
    return next(value for name, at, value in event.written if (name, at) == (slot, step))


def how_it_pulled(run: Run, thing: BasinObject, own: Slot, value: int) -> str:
    """Returns whether a put led to a fault, by the slot of the object to which it came and by what that held.

    A gain or a loss that pulled away from the limit did not, and one of 0 pulled nowhere. An inflow or an outflow may lead
    there by being too small.
    """
    if own.role != "fixed" or thing.kind not in ("reservoir", "reach") or not run.section.fault.startswith("out of range"):
        return LED
    slot = run.model.slots[run.part(r"\bslot (\S+)")]
    reached = int(run.part(r"value (-?[0-9]+)"))
    (low, high), table = run.model.bounds(slot.full_name), thing.options.get("table")
    if low <= reached <= high and table:
        high = table[-1][0 if slot.name == "PoolElevation" else 1]
    sign = (own.sign or -1) * (-1 if slot.sign > 0 else 1) * (1 if reached > high else -1)  # a rate of evaporation is a loss
    return LED if sign * value > 0 or (not value and sign < 0) else AGAINST if value else NOWHERE


def too_late(run: Run, thing: BasinObject, step: int) -> list[str]:
    """Returns a line on the rules that set a storage but read it first, if the run ended before one of them set it."""
    storage = f"{thing.name}.Storage"
    if not re.search(rf"\bslot {storage} ", run.section.fault):
        return []
    rules = [block for block in run.walk.blocks if block.is_rule]
    last = {event.rule: event for event in run.firings if event.step == step}
    late = [run.rule(rule) for rule, event in sorted(last.items()) if is_for(run, rules[rule - 1], event, storage, step)]
    if not late:
        return []
    value = int(run.part(r"value (-?[0-9]+)"))
    low, high = run.model.bounds(storage)
    mend = f"Extend the {'table' if low <= value <= high else 'bounds'} to {value:,} m3" if value > 0 else "Release less"
    return [
        f"{' and '.join(late)} would set {storage}, but reads it first, and the run ends before it can. {mend}, "
        'or compute the release from the previous storage; docs/LANGUAGE.md, "What happens in a timestep".'
    ]


def is_for(run: Run, block: Block, event: Event, storage: str, step: int) -> bool:
    """Returns whether a firing ended unknown at a storage that its rule sets."""
    if event.ended != "unknown" or not any(line[0] == "put" and line[1] == storage for line in block.instructions):
        return False
    try:
        return run.walk.fired(event).lacked == (storage, step)
    except (OtherPolicy, KeyError):
        return False


def due_again(run: Run, event: Event) -> list[str]:
    """A line that tells where a rule was due again when the run ended: it had looked at what is another value now."""
    mine = [one for one in run.firings if (one.rule, one.step) == (event.rule, event.step)]
    own = {(run.walk.first[slot], step) for one in mine for slot, step, _ in one.written}
    for slot, step in looked_at(run, mine[-1]):
        if (run.walk.first[slot], step) in own:
            continue
        seen, now = run.walk.held(slot, step, mine[-1].place), run.walk.held(slot, step, END)
        if seen.value != now.value and event.step == run.fault_step:
            was = "unknown" if seen.value is None else f"{seen.value:,}"
            return [f"    It was due again: {slot} was {was} when it fired, and is {now.value:,} now."]
    return []


def what_of_object(run: Run, thing: BasinObject) -> str:
    """What the fault of an object is, in words."""
    fault = run.section.fault
    numbers = [int(number) for number in re.findall(r"(?:held|solved|value|after) (-?[0-9]+)", fault)]
    if fault.startswith("limit"):
        return f"{thing.name} was dispatched {often(numbers[0])}, and was due again."
    name = run.part(r"\bslot (\S+)")
    slot = run.model.slots[name]
    if fault.startswith("conflict"):
        held, solved = numbers
        return f"{name} is {held:,} {slot.unit}, but the other slots give {solved:,}, and neither is overridden."
    if slot.name == "EnergyRequest":
        before = run.walk.held(f"{thing.name}.Storage", run.fault_step - 1, END).value
        assert before is not None  # else nothing would be asked of it
        return f"{name} {beyond_plant(thing, before, numbers[0])}"
    low, high = run.model.bounds(name)
    whose, table = "its bounds are", thing.options.get("table")
    if low <= numbers[0] <= high and table:
        place = 0 if slot.name == "PoolElevation" else 1
        whose, low, high = "its table has", table[0][place], table[-1][place]
    return f"{name} would be {numbers[0]:,} {slot.unit}, and {whose} {amount(low)} to {amount(high)}."


def puts_behind(run: Run, thing: BasinObject, step: int) -> list[tuple[str, Event, Slot, int]]:
    """The puts of rules for a timestep from which came what an object held then, the latest first; each with the slot of
    the object to which it came, and what that held."""
    waiting = deque((slot.full_name, END, slot) for slot in thing.slots)
    seen: set[int] = set()
    found: dict[int, tuple[str, Event, Slot, int]] = {}
    while waiting:
        slot, before, own = waiting.popleft()
        content = run.walk.held(slot, step, before)
        event = content.event
        if not event or event.place in seen:
            continue
        seen.add(event.place)
        if event.rule:
            found[event.place] = (content.slot, event, own, run.walk.held(own.full_name, step, END).value or 0)
        else:
            waiting += [(name, event.place, own) for name, at in run.walk.of_object(event) if at == step]
    return [found[place] for place in sorted(found, reverse=True)]
