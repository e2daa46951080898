"""What of a policy may do something else than is meant, though nothing is wrong with it: two traps that are silent."""

from collections.abc import Iterator
from dataclasses import dataclass, field

from basin_files.dispatch import past_name
from basin_files.formats import LEVELS
from basin_files.model import BasinObject, Model

from . import trees
from .findings import Finding
from .looks import RuleFacts, Setting
from .policy import Policy

KEEPS = {"Max": "<", "Min": ">"}
ON_TOP = "move the rule above those decisions: losses and inflows that nobody decides come first, then each dam before the next one downstream"


def surprises(policy: Policy, model: Model) -> list[Finding]:
    """Findings of what may surprise, in the order of the text."""
    rules = policy.facts(model)
    found = [*taking_hold(policy, rules), *Yielding(model, rules).findings()]
    return sorted(found, key=lambda finding: finding.span.begin)


def surprise(rule: RuleFacts, setting: Setting, says: str, hint: str) -> Finding:
    """A finding at the place where a rule sets something."""
    return Finding("", setting.span, says, hint, whose=rule.called)


# ---- a value that is confirmed


def taking_hold(policy: Policy, rules: list[RuleFacts]) -> Iterator[Finding]:
    """Rules that put Max, Min or Clamp over what a slot holds to the slot itself."""
    for rule in rules if policy.ruleset else ():
        for setting in rule.settings:
            call = without_brackets(setting.value) if setting.value else None
            if not isinstance(call, trees.Call) or call.name not in (*KEEPS, "Clamp"):
                continue
            is_own = any(is_now(part, setting.slot) for part in call.parts)
            is_lowest = rule.number == len(rules)
            if setting.sure and not setting.ahead and not is_lowest and is_own:
                own = f"{setting.slot}[t]"
                says = (
                    f"the rule sets {own} even where it changes nothing, so lower rules can no longer change it"
                    " later in the timestep"
                )
                yield surprise(rule, setting, says, f"{corrected(call, setting.slot, policy)}, which sets it only where it must")


def without_brackets(node: trees.Node) -> trees.Node:
    """What stands in brackets."""
    return without_brackets(node.parts[0]) if isinstance(node, trees.Brackets) else node


def is_now(node: trees.Node, slot: str) -> bool:
    """Whether an expression is what the slot holds at `t`."""
    node = without_brackets(node)
    if not isinstance(node, trees.At):
        return False
    return isinstance(node.parts[0], trees.SlotName) and node.parts[0].full_name == slot and isinstance(node.parts[1], trees.Now)


def corrected(call: trees.Call, slot: str, policy: Policy) -> str:
    """The same with IF."""
    limits = [policy.source.words(part.span) for part in call.parts if not is_now(part, slot)]
    if call.name not in KEEPS or len(limits) != 1:
        return f"an IF for each limit, as IF {slot}[t] < least THEN {slot}[t] := least; ENDIF"
    return f"IF {slot}[t] {KEEPS[call.name]} {limits[0]} THEN {slot}[t] := {limits[0]}; ENDIF"


# ---- an inflow or a loss that gives way


@dataclass
class Yielding:
    """Rules that set what flows into a reservoir below those that set both its contents and its outflow.

    Then inflow, outflow and contents are all known, and the weakest of them is solved anew: the inflow.
    """

    model: Model
    rules: list[RuleFacts]
    settings: dict[str, list[tuple[RuleFacts, Setting]]] = field(default_factory=dict)  # by the first slot of a link

    def __post_init__(self) -> None:
        """Keeps what rules set, so that each object finds its own without going through all rules."""
        for rule in self.rules:
            for one in rule.settings:
                self.settings.setdefault(self.first(one.slot), []).append((rule, one))

    def findings(self) -> Iterator[Finding]:
        """What may give way, each setting once."""
        told = set()
        for thing in self.model.objects:
            contents = self.setting([f"{thing.name}.{level}" for level in LEVELS]) if thing.stores else []
            outflows = self.setting([f"{thing.name}.Outflow", f"{thing.name}.EnergyRequest"])
            if not contents or not outflows:
                continue
            weakest = max(outflows, key=lambda rule: rule.number)
            for rule, setting in self.above(thing):
                if rule.number > weakest.number and (rule.number, setting.slot) not in told:
                    told.add((rule.number, setting.slot))
                    yield surprise(rule, setting, self.says(thing, setting, contents[0], weakest), ON_TOP)

    def says(self, thing: BasinObject, setting: Setting, pool: RuleFacts, weakest: RuleFacts) -> str:
        """What may happen to a setting."""
        return (
            f"{setting.slot} may be overridden: where {pool.called} sets what {thing.name} holds, its inflow is"
            " solved again, since"
            f" {weakest.called}, which sets its outflow, has a higher priority than this rule"
        )

    def setting(self, names: list[str]) -> list[RuleFacts]:
        """The rules that set one of these slots, or one that is linked with it, the highest first."""
        firsts = {self.first(name) for name in names if name in self.model.slots}
        found = {rule.number: rule for first in firsts for rule, _ in self.settings.get(first, ())}
        return [found[number] for number in sorted(found)]

    def first(self, name: str) -> str:
        """The first slot of a slot's link."""
        return self.model.group(name)[0].full_name

    def above(self, thing: BasinObject) -> Iterator[tuple[RuleFacts, Setting]]:
        """The settings from which a reservoir's inflow follows within the timestep, and that may so be changed by it."""
        waiting, seen = [f"{thing.name}.Inflow"], {thing.name}
        while waiting:
            first = self.first(waiting.pop())
            yield from ((rule, one) for rule, one in self.settings.get(first, ()) if not one.ahead)
            for slot in self.model.group(first):
                owner = self.model.owner(slot)
                if owner.name not in seen and not past_name(owner) and owner.kind not in ("data", "water_user"):
                    seen.add(owner.name)
                    others = [one for one in owner.slots if one.role == "solvable" and one.full_name != slot.full_name]
                    waiting += [one.full_name for one in others if not self.is_given(one.full_name)]

    def is_given(self, name: str) -> bool:
        """Whether another object derives the slot, so that it doesn't give way."""
        return any(slot.role == "derived" for slot in self.model.group(name))
