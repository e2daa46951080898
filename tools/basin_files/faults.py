"""What a fault of a run means: what was known of the object, and which balance doesn't hold."""

from .inputs import Inputs
from .model import BasinObject, Model, Slot
from .sections import Section
from .dispatch import (
    Timestep,
    asks,
    elevation,
    energy,
    head,
    least_release,
    past_ago,
    past_key,
    past_name,
    signed_terms,
    take_contents,
    take_evaporation,
    terms_of,
    volume,
)
from .formats import amount
from .moments import stamp_of

# The slot on the left of each kind's balance.
LEFT_SIDE = {
    "gage": "GageOutflow",
    "confluence": "Outflow",
    "bifurcation": "Inflow",
    "reach": "Outflow",
    "reservoir": "Storage",
    "water_user": "Diversion",
    "power_reservoir": "Storage",
}
DERIVED_TEXT = {
    "Evaporation": "the volume between the previous elevation and the elevation lower by EvaporationRate",
    "Release": "Outflow, up to max_release",
    "Spill": "Outflow - Release",
    "Depletion": "Diversion x depletion / 1000, rounded down",
    "ReturnFlow": "Diversion - Depletion",
    "Seepage": "Inflow - Outflow",
    "Energy": "Release x head x power / 10^9, rounded down",
    "Content": "Content before + Inflow - Outflow",
}


def fault_words(timestep: Timestep) -> str:
    """The fault of a timestep that was gone through again, in `basin`'s words, or "" where it has none."""
    fault = timestep.fault
    if not fault or not timestep.at:
        return ""
    at = f"object {timestep.at.name} slot {timestep.at.name}.{fault.slot} step {timestep.step}"
    return {
        "conflict": f"conflict {at} held {fault.held} solved {fault.value}",
        "out of range": f"out of range {at} value {fault.value}",
        "limit": f"limit object {timestep.at.name} step {timestep.step} after {fault.value}",
    }[fault.kind]


def beyond_plant(thing: BasinObject, past: int, request: int) -> str:
    """Why a request for energy can't be met, behind the name of its slot."""
    most = thing.max_release
    return (
        f"is {request:,} kWh, but with the head of {head(thing, past):,} mm that the previous storage gives, the"
        " maximum release,"
        f" {most:,} m3/step, gives {energy(thing, past, most):,} kWh."
    )


def tell_fault(model: Model, inputs: Inputs, section: Section) -> list[str]:
    """Lines that tell of the fault of a section."""
    step = section.fault_step
    assert step  # a section with a fault names its timestep
    timestep = Timestep(model, inputs, step, section.rows).run()
    begin, end = model.run.begin(step), model.run.end(step)
    lines = [f"The run ended in timestep {step}, from {stamp_of(begin)} to {stamp_of(end)}."]
    if fault_words(timestep) != section.fault:
        return lines + [
            "This tool repeated the timestep and got another result, so it cannot explain more."
        ]
    return lines + Telling(timestep).lines()


class Telling:
    """Tells of the fault of a timestep."""

    def __init__(self, timestep: Timestep) -> None:
        assert timestep.at and timestep.fault
        self.timestep, self.thing, self.fault = timestep, timestep.at, timestep.fault
        self.model = timestep.model
        self.view = timestep.view(self.thing)
        self.values = dict(self.view.known)
        if not any(slot.role == "fixed" and slot.name not in self.values for slot in self.thing.slots):
            _ = take_evaporation(self.view, self.values) or take_contents(self.view, self.values)
        release = self.asked_release()
        if release is not None:
            self.values["Outflow"] = release

    def asked_release(self) -> int | None:
        """The release that a request for energy asks for, where one counts that can be met."""
        view = self.view
        if not asks(view) or elevation(view.thing.table, view.before) is None:
            return None
        return least_release(view.thing, view.before, view.known["EnergyRequest"])

    def lines(self) -> list[str]:
        """What happened, what was known, and what to do."""
        name = f"{self.thing.name} ({self.thing.kind})"
        if self.fault.kind == "limit":
            return [
                f"{name} was dispatched {self.fault.value} times in that timestep, as often as object_limit"
                " allows."
            ]
        told = self.conflict() if self.fault.kind == "conflict" else self.out_of_range()
        return [f"{name}: {told[0]}", *told[1:], "Its known values then:", *self.known(), *self.advice()]

    # ---- what was known

    def source(self, slot: Slot) -> str:
        """Where the value of a slot comes from."""
        cell = self.timestep.cell(slot.full_name)
        if cell and cell.writer:
            return "which it solved itself" if cell.writer == self.thing.name else f"from {cell.writer}"
        given = self.timestep.inputs.given(slot.full_name, self.timestep.step)
        assert given  # what is known and no object wrote
        return f"inputs, line {given.line}" + (f", as {given.slot}" if given.slot != slot.full_name else "")

    def known(self) -> list[str]:
        """A line for each slot of the object, and for the value before."""
        lines = []
        if self.view.past is not None:
            step = self.timestep.step - past_ago(self.thing)
            whence = f"timestep {step}" if step >= 1 else f"{past_key(self.thing)} of the model"
            lines.append(f"    {self.past_label()} = {self.view.past:,} ({whence})")
        for slot in self.thing.slots:
            if slot.name in self.view.known:
                lines.append(
                    f"    {slot.name} = {self.view.known[slot.name]:,} {slot.unit} ({self.source(slot)})"
                )
            elif slot.role != "derived":
                lines.append(f"    {slot.name} unknown")
        return lines

    def past_label(self) -> str:
        """The name of the value before."""
        name, ago = past_name(self.thing), past_ago(self.thing)
        if name != "Inflow":
            return f"{name} before"
        return "Inflow a timestep ago" if ago == 1 else f"Inflow {ago} timesteps ago"

    # ---- the balance

    def balance(self, values: dict[str, int], left: str | None = None) -> tuple[str, int, str, str, int]:
        """The balance: its left slot and value, and its right side in words, in numbers and as a sum."""
        if self.thing.kind == "canal":
            seepage = values["Inflow"] * self.thing.options["seepage"] // 1000
            words = f"Inflow - Inflow x {self.thing.options['seepage']} / 1000, rounded down"
            sum_words = f"{values['Inflow']:,} - {seepage:,}"
            return "Outflow", values["Outflow"], words, sum_words, values["Inflow"] - seepage
        if self.thing.kind == "routed_reach":
            before, inflow, release = self.view.before, values["Inflow"], self.thing.options["release"]
            words = f"(Content before + Inflow) x {release} / 1000, rounded down"
            sum_words = f"({before:,} + {inflow:,}) x {release} / 1000"
            return "Outflow", values["Outflow"], words, sum_words, (before + inflow) * release // 1000
        left = left or LEFT_SIDE[self.thing.kind]
        terms = [(1, self.past_label(), self.view.before)] if past_name(self.thing) else []
        terms += [(sign, name, values[name]) for sign, name in signed_terms(self.thing)]
        turn = -next(sign for sign, name, _ in terms if name == left)
        terms = [(sign * turn, name, value) for sign, name, value in terms if name != left]
        terms.sort(key=lambda term: -term[0])
        words = " ".join(f"{'-' if sign < 0 else '+'} {name}" for sign, name, _ in terms)
        numbers = " ".join(f"{'-' if sign < 0 else '+'} {value:,}" for sign, _, value in terms)
        total = sum(sign * value for sign, _, value in terms)
        return left, values[left], words.removeprefix("+ "), numbers.removeprefix("+ "), total

    def conflict(self) -> list[str]:
        """What a conflict is about."""
        slot, held, value = self.fault.slot, self.fault.held, self.fault.value
        if slot in DERIVED_TEXT and slot not in terms_of(self.thing):
            return [f"{slot} would be {value:,} ({DERIVED_TEXT[slot]}), but it is {held:,}."]
        if slot == "PoolElevation":
            table, storage = self.thing.table, self.values["Storage"]
            there = volume(table, held)
            other = "none" if there is None else f"{there:,} m3"
            return [
                "Storage and PoolElevation do not agree.",
                (
                    f"    in the table {storage:,} m3 is at {value:,} mm, and the volume at {held:,} mm is"
                    f" {other}"
                ),
            ]
        left, left_value, words, numbers, right = self.balance(self.values)
        total = "" if numbers == f"{right:,}" else f" = {right:,}"
        lines = [
            "its mass balance does not hold.",
            f"    {left} = {words}",
            f"    {left_value:,}, and not {numbers}{total}",
        ]
        if self.thing.stores and not self.view.given("Storage"):
            lines.append(
                f"    (the table has {held:,} m3 at PoolElevation {self.view.known['PoolElevation']:,})"
            )
        if self.asked_release() is not None:
            lines.append(f"    (Outflow is the smallest that gives an Energy of {self.values['EnergyRequest']:,} kWh)")
        return lines

    def out_of_range(self) -> list[str]:
        """Which value is outside, and of what."""
        slot, value = self.fault.slot, self.fault.value
        if slot == "EnergyRequest":
            return [f"{slot} {beyond_plant(self.thing, self.view.before, value)}"]
        one = next(one for one in self.thing.slots if one.name == slot)
        low, high = self.view.bounds[slot]
        table = self.thing.options.get("table")
        if low <= value <= high and table:
            place = 1 if slot == "Storage" else 0
            low, high = table[0][place], table[-1][place]
            whose = "its table has"
        else:
            whose = "its bounds are"
        by = f"{low - value:,} too little" if value < low else f"{value - high:,} too much"
        verb = "is" if slot in self.view.known else "would be"
        first = f"{slot} {verb} {value:,} {one.unit}, and {whose} {amount(low)} to {amount(high)}: {by}."
        return [first, *self.how(slot, value)]

    def how(self, slot: str, value: int) -> list[str]:
        """How the object comes to a value, where its balance says so."""
        if slot in self.view.known or slot not in terms_of(self.thing):
            return []
        if self.is_of_before():
            tells = "the head" if self.thing.kind == "power_reservoir" else "the evaporation"
            return [f"    (this is the storage before the timestep, with which the table gives {tells})"]
        left, left_value, words, numbers, _ = self.balance({**self.values, slot: value}, slot)
        return [f"    {left} = {words}", f"    {left_value:,} = {numbers}"]

    def is_of_before(self) -> bool:
        """Whether what is outside is the storage before, of which the table tells what evaporates, or the head."""
        if self.fault.slot != "Storage" or self.fault.value != self.view.past:
            return False
        if self.thing.kind == "power_reservoir":
            return elevation(self.thing.table, self.view.before) is None
        return bool(self.thing.options.get("evaporation")) and "Evaporation" not in self.values

    def advice(self) -> list[str]:
        """What to do."""
        if self.fault.kind == "conflict" and self.fault.slot == "PoolElevation":
            return ["Give one of the two."]
        if self.fault.kind == "conflict":
            given = [
                slot.name
                for slot in self.thing.slots
                if (cell := self.timestep.cell(slot.full_name)) and not cell.writer
            ]
            if not given:
                return ["None of these values is an input: look at the objects that they come from."]
            return [f"Remove one of these inputs ({', '.join(given)}), or change one so that they agree."]
        if self.is_of_before():
            return [f"Correct the inputs that its storage of timestep {self.timestep.step - 1} comes from."]
        if self.fault.slot == "EnergyRequest":
            return ["Ask for less energy, or keep more water stored before."]
        value, low = self.fault.value, self.view.bounds[self.fault.slot][0]
        if not self.thing.stores:
            return ["Change an input that it comes from, or set other bounds."]
        if self.fault.slot == "Outflow" and value < low:
            return ["The storage that is asked for needs more water than there is: ask for less, or divert less."]
        if self.fault.slot == "Storage" and self.fault.slot not in self.view.known:
            table = self.thing.options.get("table")
            less = value < low or (table and value < table[0][1])
            return [
                "Release or divert less, or begin with more." if less else "Release more, or begin with less."
            ]
        return ["Change an input that it comes from, or set other bounds."]
