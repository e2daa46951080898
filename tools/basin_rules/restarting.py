"""A run that goes on where another one ended: its model, its inputs, and what no model can carry on."""

from collections.abc import Iterator
from dataclasses import dataclass

from basin_files.dispatch import elevation, past_key, past_name
from basin_files.inputs import Inputs, rows_of
from basin_files.lines import with_values
from basin_files.model import BasinObject, Model
from basin_files.moments import stamp_of
from basin_files.program import Unable
from basin_files.sections import Section

from .looks import Look, RuleFacts
from .never import has_past
from .policy import Policy


@dataclass
class Restart:
    """A run of `steps` timesteps that begins behind timestep `step` of a section."""

    model: Model
    section: Section
    step: int
    steps: int

    def text(self, text: str) -> str:
        """The model's text, with what it has at its beginning: start, number of timesteps, contents and histories."""
        start = stamp_of(self.model.run.end(self.step))
        values = {"run.start": f'"{start}"', "run.steps": str(self.steps)}
        for number, thing in enumerate(self.model.objects, 1):
            if past_name(thing):
                values[f"object[{number}].{past_key(thing)}"] = self.past(thing)
        return with_values(text, values)

    def past(self, thing: BasinObject) -> str:
        """What an object holds at the beginning, or the inflows of a reach that are still on their way."""
        slot = f"{thing.name}.{past_name(thing)}"
        if thing.kind != "reach":
            return str(self.held(slot, self.step))
        lag, given = thing.options["lag"], list(thing.options["history"])
        return str([self.held(slot, at) if at > 0 else given[at - 1] for at in range(self.step - lag + 1, self.step + 1)])

    def held(self, slot: str, step: int) -> int:
        """What a slot holds at a timestep. A model begins with what is known alone."""
        value = self.section.rows[step - 1].values[slot]
        if value is None:
            raise Unable(f"{slot} is not known at timestep {step}, but the next run must begin with it")
        return value

    def rows(self, inputs: Inputs) -> Iterator[str]:
        """The inputs of the timesteps behind it, numbered anew."""
        by_slot: dict[str, dict[int, int]] = {}
        for cells in inputs.cells.values():
            for at, given in cells.items():
                if self.step < at <= self.step + self.steps:
                    by_slot.setdefault(given.slot, {})[at - self.step] = given.value
        for slot, values in by_slot.items():
            yield from rows_of(slot, values)

    def carried(self, names: list[str], inputs: Inputs) -> Iterator[str]:
        """Yields inputs of the first timestep: the values of these slots in the table, where the inputs do not give them."""
        if names and self.step == len(self.section.rows):
            raise Unable("--carry needs a row after that of --step, since the next run computes its timestep again")
        for name in dict.fromkeys(names):
            slot = self.model.slots.get(name)
            if slot is None or not slot.settable:
                raise Unable(f"{name} is not a slot that inputs can give")
            if inputs.given(name, self.step + 1) is None:
                yield f"{name},1,{self.held(name, self.step + 1)}"

    # ---- what it doesn't carry on

    def left_behind(self) -> Iterator[str]:
        """Yields what the whole run knew of objects at its later timesteps, and the run from here on doesn't."""
        for thing in self.model.objects:
            table = thing.options.get("table") if thing.stores else None
            level = self.section.rows[self.step - 1].values.get(f"{thing.name}.PoolElevation")
            if table and level is not None and level != elevation(table, self.held(f"{thing.name}.Storage", self.step)):
                yield f"{thing.name} is at {level} mm, but its table gives another elevation for its storage"

    def left_by_rules(self, policy: Policy, carried: list[str]) -> Iterator[str]:
        """Yields what rules knew of timesteps up to this one that neither the model nor the slots that are carried give."""
        linked = {slot.full_name for name in carried if name in self.model.slots for slot in self.model.group(name)}
        for rule in policy.facts(self.model):
            yield from (f"{rule.called} {what}" for what in dict.fromkeys(self.of_rule(rule, linked)))

    def of_rule(self, rule: RuleFacts, carried: set[str]) -> Iterator[str]:
        """Yields that of one rule, and what it had set ahead."""
        for look in rule.looks:
            if look.ahead is None:
                yield f"reads {look.slot or 'a slot'} at a time that only a run shows: it may be before the next run"
            elif look.ahead < 0 and not has_past(self.model, look.slot, -look.ahead):
                if look.ahead < -1 or look.slot not in carried:
                    yield f"reads {look.slot}{look.time}, which no model gives before its first timestep{self.cure(look)}"
        for setting in rule.settings:
            if setting.ahead:
                yield f"sets {setting.cell}: what it set by timestep {self.step} for later ones is not carried over"

    def cure(self, look: Look) -> str:
        """Returns how the inputs of the next run give what a rule looks back at, or nothing where they can't."""
        slot = self.model.slots.get(look.slot)
        return f"; begin one timestep earlier with --carry {look.slot}" if look.ahead == -1 and slot and slot.settable else ""
