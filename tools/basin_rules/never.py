"""What will never happen with a policy that `basin` takes, as far as model, inputs and rules tell."""

from collections.abc import Iterator

from basin_files.dispatch import missing, past_name
from basin_files.formats import amount
from basin_files.inputs import Inputs
from basin_files.model import BasinObject, Model, Slot
from basin_files.waiting import is_solved

from . import trees
from .findings import Finding
from .looks import Look, Looking, RuleFacts
from .places import Span
from .policy import Policy
from .rulesets import Ruleset

WAITS = "split the rule in two, or give the value a name with WITH"


def warnings(policy: Policy, model: Model, inputs: Inputs | None) -> list[Finding]:
    """Findings of what will never happen. `inputs` may be `None`: then they may give each slot that no rule sets."""
    judge = Never(policy.facts(model), model, inputs)
    found = [*judge.never_fire(), *judge.never_begin(), *judge.over_inputs(), *judge.never_count()]
    if policy.ruleset:
        found += [*high_pools(judge, policy.ruleset), *zero_quotients(policy.ruleset, model)]
    found += [warn(span, f"no rule calls the function {name}") for name, span in policy.uncalled()]
    return sorted(found, key=lambda finding: finding.span.begin)


def warn(span: Span, says: str, hint: str = "", whose: str = "") -> Finding:
    """A warning."""
    return Finding("", span, says, hint, whose=whose)


def is_request(slot: Slot, thing: BasinObject) -> bool:
    """Whether a slot is a diversion by request."""
    return thing.kind == "water_user" and slot.name == "Diversion" and slot.role == "solvable"


def is_of_plant(slot: Slot, thing: BasinObject, name: str) -> bool:
    """Whether a slot is this one of a power reservoir."""
    return thing.kind == "power_reservoir" and slot.name == name


def has_past(model: Model, name: str, ago: int) -> bool:
    """Whether a model gives a slot a value so many timesteps before the first one."""
    slot = model.slots[name]
    thing = model.owner(slot)
    if slot.name == "PoolElevation" and thing.stores:
        return ago == 1
    if slot.name != past_name(thing):
        return False
    return ago <= (thing.options["lag"] if thing.kind == "reach" else 1)


class Never:
    """What rules look at and set, with the model and the inputs, and what can be known in a timestep."""

    def __init__(self, rules: list[RuleFacts], model: Model, inputs: Inputs | None) -> None:
        self.rules, self.model, self.inputs = rules, model, inputs
        self.first = {name: model.group(name)[0].full_name for name in model.slots}
        self.setters: dict[str, list[RuleFacts]] = {}  # by the first slot of a link: the rules that set it
        for rule in self.rules:
            for slot in rule.slots():
                self.setters.setdefault(self.first[slot], []).append(rule)
        self.known = self.spread(self.may_be_given(), self.rules)
        self.always = self.always_given()
        self.of_inputs = self.spread(self.always, [], sure=True)

    # ---- what can be known

    def may_be_given(self) -> set[str]:
        """The slots that inputs give at some timestep, or may give where no inputs are told."""
        if self.inputs:
            return {first for first in self.first.values() if self.inputs.all_given(first)}
        slots = self.model.slots.values()
        return {self.first[one.full_name] for one in slots if one.settable and not self.set_by_rules(one.full_name)}

    def always_given(self) -> set[str]:
        """The slots that inputs give at every timestep."""
        if not self.inputs:
            return set()
        given, count = self.inputs, self.model.run.count
        return {first for first in self.first.values() if len(given.all_given(first)) == count}

    def set_by_rules(self, name: str) -> list[RuleFacts]:
        """The rules that set a slot, or one that is linked to it."""
        return self.setters.get(self.first[name], [])

    def spread(self, known: set[str], rules: list[RuleFacts], sure: bool = False) -> set[str]:
        """What can be known where these slots are, by what objects solve and rules set; or what surely is."""
        known, whole, before = set(known), set[int](), -1
        while before != len(known) + len(whole):
            before = len(known) + len(whole)
            for thing in self.model.objects:
                if thing.kind != "data" and not any(self.lacking(thing, known, sure)):
                    known |= {self.first[slot.full_name] for slot in thing.slots if is_solved(slot, thing)}
            for rule in rules:
                if not self.lacks(rule, known):
                    whole.add(rule.number)
                    known |= {self.first[slot] for slot in rule.slots()}
        return known

    def lacking(self, thing: BasinObject, known: set[str], sure: bool = False) -> tuple[list[str], list[str]]:
        """What an object lacks where these slots are known. An earlier inflow may be known, and a storage is."""
        names = [slot.name for slot in thing.slots if self.first[slot.full_name] in known]
        return missing(thing, names, not sure or past_name(thing) != "Inflow" or "Inflow" in names)

    def lacks(self, rule: RuleFacts, known: set[str]) -> Look | None:
        """The first look of a rule at a slot that is never known then, or `None`."""
        for look in rule.needs():
            if look.ahead == 0 and self.first[look.slot] not in known:
                return look
        return None

    # ---- what is told

    def never_fire(self) -> Iterator[Finding]:
        """Rules that end unknown whenever they fire."""
        for rule in self.rules:
            look = self.lacks(rule, self.known)
            if look:
                says, hint = self.why_unknown(rule, look)
                yield warn(look.span, f"the rule never fires to its end: {says}", hint, rule.called)

    def never_begin(self) -> Iterator[Finding]:
        """Rules that look at what they alone set at an earlier timestep, which isn't known at the first one."""
        alone = self.spread(self.may_be_given(), [])
        for rule in self.rules:
            needs = [(look, -look.ahead) for look in rule.needs() if look.ahead is not None and look.ahead < 0]
            early = [look for look, ago in needs if not has_past(self.model, look.slot, ago)]
            early = [look for look in early if self.first[look.slot] not in alone]
            given = self.spread(alone, [one for one in self.rules if one is not rule]) if early else alone
            for look in early:
                if self.first[look.slot] not in given:
                    unless = "" if self.inputs else " (unless inputs give it)"
                    cell = f"{look.slot}{look.time}"
                    says = f"the rule never begins: {cell} is not known at the first timestep, and so at none{unless}"
                    hint = f"put IF KNOWN({cell}) around it, or set the first value by a lower rule or an input"
                    yield warn(look.span, says, hint, rule.called)
                    break

    def why_unknown(self, rule: RuleFacts, look: Look) -> tuple[str, str]:
        """Why a slot is never known, and what to do."""
        others = [other for other in self.set_by_rules(look.slot) if other.number != rule.number]
        unless = "" if self.inputs else " (unless inputs give it)"
        if rule in self.set_by_rules(look.slot) and not others:
            what = f"it alone sets {look.slot}{look.time}"
            return f"{what}, and a statement does not see what another one of the rule sets{unless}", WAITS
        if others:
            names = ", ".join(other.called for other in others)
            return f"only {names} sets {look.slot}[t], which never fires to its end either{unless}", ""
        return self.why_no_object(look.slot), self.settable_hint(look.slot)

    def why_no_object(self, name: str) -> str:
        """Why no object gives a slot that no rule sets."""
        given = "no input and no rule gives" if self.inputs else "no rule sets"
        for slot in self.model.group(name):
            thing = self.model.owner(slot)
            if thing.kind != "data" and is_solved(slot, thing):
                fixed, terms = self.lacking(thing, self.known)
                words = fixed + ([f"all but one of {', '.join(terms)}"] if terms else [])
                return f"{given} {name}, and {thing.name} ({thing.kind}) cannot solve it without {' and '.join(words)}"
        return f"{given} {name}, and no object solves it"

    def settable_hint(self, name: str) -> str:
        """How a slot may come to be known."""
        return f"a rule that sets {name}, or inputs for it" if self.model.slots[name].settable else ""

    def over_inputs(self) -> Iterator[Finding]:
        """Puts that are denied at every timestep, or wherever an object solves the slot."""
        for rule in self.rules:
            for setting in rule.settings:
                why, hint = self.why_denied(setting.slot)
                if why:
                    says = f"the value set here {why}, and inputs have priority over all rules"
                    yield warn(setting.span, says, hint, rule.called)

    def why_denied(self, name: str) -> tuple[str, str]:
        """Why a rule's put to a slot doesn't count, and what to do; two empty texts where it may count."""
        things = [(slot, self.model.owner(slot)) for slot in self.model.group(name)]
        by_request = next((thing for slot, thing in things if is_request(slot, thing)), None)
        hint = f'supply = "rule" in the model, so that {by_request.name} waits for a rule' if by_request else ""
        if self.first[name] in self.always:
            return f"never applies: the inputs give {name} at every timestep", hint
        if self.first[name] in self.of_inputs:
            return f"never applies: {name} follows from inputs alone", hint
        if by_request:
            unless = f"applies only where {by_request.name}.DiversionRequest is not known"
            return f"{unless}: its diversion follows from that", hint
        for slot, thing in things:
            if thing.kind == "reach" and slot.name == "Outflow" and thing.options["lag"]:
                unless = f"applies only where an earlier inflow of {thing.name} is not known"
                return f"{unless}: its outflow follows from that", ""
            request, outflow = f"{thing.name}.EnergyRequest", f"{thing.name}.Outflow"
            if is_of_plant(slot, thing, "Outflow") and self.first[request] in self.always:
                unless = f"applies only where the previous storage of {thing.name} is not known"
                return f"{unless}: its outflow follows from {request}", ""
            if is_of_plant(slot, thing, "EnergyRequest") and self.first[outflow] in self.of_inputs:
                return f"has no effect: {outflow} follows from inputs alone", ""
        return "", ""

    def never_count(self) -> Iterator[Finding]:
        """Settings of a rule that a higher one always replaces."""
        for place, rule in enumerate(self.rules):
            for slot in rule.slots():
                if self.why_denied(slot)[0]:
                    continue
                higher = next((one for one in self.rules[:place] if self.always_sets(one, slot)), None)
                why = f"never applies: {higher.called} sets {slot} at every timestep" if higher else ""
                why = why or self.in_vain(rule, slot)
                if why:
                    span = next(one.span for one in rule.settings if one.slot == slot)
                    yield warn(span, f"the value set here {why}", "", rule.called)

    def in_vain(self, rule: RuleFacts, name: str) -> str:
        """Why a request for energy asks in vain beside an outflow that rules set, or an empty text."""
        owner, _, slot_name = name.partition(".")
        thing, outflow = self.model.the_object(owner), f"{owner}.Outflow"
        if thing.kind != "power_reservoir" or slot_name != "EnergyRequest":
            return ""
        if self.first[outflow] in (self.first[one] for one in rule.slots(sure=True)):
            return f"has no effect: the rule sets {outflow} with the same priority"
        higher = next((one for one in self.rules[: rule.number - 1] if self.always_sets(one, outflow)), None)
        return f"has no effect: {higher.called} sets {outflow} at every timestep" if higher else ""

    def always_sets(self, rule: RuleFacts, slot: str) -> bool:
        """Whether each firing of a rule sets a slot, and looks at nothing but what inputs give at every timestep."""
        sets = [name for name in rule.slots(sure=True) if self.first[name] == self.first[slot]]
        return bool(sets) and all(
            look.ahead == 0 and self.first[look.slot] in self.of_inputs for look in rule.looks
        )


# ---- numbers of a ruleset that never count


def high_pools(judge: Never, ruleset: Ruleset) -> Iterator[Finding]:
    """Storages and elevations that rules ask for above the end of a table, or of the slot's bounds."""
    model, looking = judge.model, Looking(ruleset, judge.model)
    for rule in judge.rules:
        for setting in rule.settings:
            slot = model.slots[setting.slot]
            is_pool = slot.name in ("Storage", "PoolElevation")
            value = setting.value
            most = most_of(looking, value) if value else None
            end = end_of(model, slot) if is_pool and model.owner(slot).stores else None
            if value and end and most is not None and most > end[0]:
                says = f"the limit {most:,} {slot.unit} never applies: {end[1]}, and a run that reaches more stops there"
                hint = "a limit below that end, with room for what lower rules add"
                yield warn(value.span, says, hint, rule.called)


def end_of(model: Model, slot: Slot) -> tuple[int, str]:
    """The greatest storage or elevation that a reservoir can come to, and why."""
    table, high = model.owner(slot).options.get("table"), model.bounds(slot.full_name)[1]
    end = table[-1][0 if slot.name == "PoolElevation" else 1] if table else high
    if end < high:
        return end, f"the table of {slot.owner} ends at {end:,} {slot.unit}"
    return high, f"{slot.full_name} is at most {amount(high)} {slot.unit} by its bounds"


def most_of(looking: Looking, node: trees.Node) -> int | None:
    """The number that a value is at most, by the form of its expression, or `None`."""
    while isinstance(node, trees.Brackets):
        node = node.parts[0]
    if isinstance(node, trees.Call) and node.name in ("Min", "Clamp"):
        limits = node.parts if node.name == "Min" else node.parts[2:]
        found = [looking.constant(part) for part in limits]
        return min((value for value in found if value is not None), default=None)
    return looking.constant(node)


def zero_quotients(ruleset: Ruleset, model: Model) -> Iterator[Finding]:
    """Quotients of two numbers that are 0, since they are rounded down."""
    looking = Looking(ruleset, model)
    for declaration in ruleset.declarations:
        for node in declaration.nodes():
            if isinstance(node, trees.Two) and node.word == "/":
                above, below = (looking.constant(part) for part in node.parts)
                if above and below and 0 < above < below:
                    text = ruleset.source.words(node.span)
                    says = f"`{text}` is always 0: a quotient is rounded down"
                    hint = f"multiply first: x * {text}, without brackets"
                    yield warn(node.span, says, hint, declaration.called)
