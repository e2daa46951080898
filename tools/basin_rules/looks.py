"""What each rule of a ruleset looks at and sets, as far as its text tells.

An expression is gone through with what is known of its names: which slots a name may stand for, by how many
timesteps a date is away from `t`, and which number it is.
"""

from __future__ import annotations

from collections import ChainMap
from collections.abc import Callable, MutableMapping
from dataclasses import dataclass, field
from typing import Any

from basin_files.dispatch import elevation, volume
from basin_files.firing import FUNCTIONS
from basin_files.model import Model

from . import trees
from .measures import UNITS
from .places import Span
from .rulesets import Ruleset


@dataclass(frozen=True)
class Slots:
    """The slots that a value may be; `every` where a list has them all, so that a loop comes to each."""

    names: tuple[str, ...]
    every: bool = True


@dataclass(frozen=True)
class Known:
    """What is known of a value: a number, or a date by the timesteps from `t` to it."""

    value: int


Found = Known | Slots | None
Scope = MutableMapping[str, Found]  # what is known of variables


@dataclass(frozen=True)
class Look:
    """A look at a slot, so many timesteps from `t` on, or `None` where only a run tells.

    It is `asked` by KNOWN, `guarded` where that was asked before, and `sure` where each firing comes to it.
    """

    slot: str
    ahead: int | None
    asked: bool
    guarded: bool
    sure: bool
    span: Span

    @property
    def time(self) -> str:
        """When it looks, as a ruleset spells it."""
        if self.ahead is None:
            return "[..]"
        return "[t]" if self.ahead == 0 else f'[t {"+" if self.ahead > 0 else "-"} {abs(self.ahead)} "step"]'


@dataclass
class Setting:
    """A slot that a rule sets: whether each whole firing does, where, the expression of its value, and how far ahead."""

    slot: str
    sure: bool
    span: Span
    value: trees.Node | None  # where it is that of a ruleset
    ahead: int = 0

    @property
    def cell(self) -> str:
        """The slot, with how far ahead it is set."""
        return f"{self.slot}[t + {self.ahead}]" if self.ahead else self.slot


@dataclass
class RuleFacts:
    """What a rule looks at and sets, in the order of the text. `called` names it for people."""

    number: int
    called: str
    head: Span
    looks: list[Look] = field(default_factory=list)
    settings: list[Setting] = field(default_factory=list)

    def slots(self, sure: bool = False) -> list[str]:
        """The slots that it sets, each once, or those that each whole firing sets at this timestep."""
        return list(dict.fromkeys(one.slot for one in self.settings if not sure or (one.sure and not one.ahead)))

    def needs(self) -> list[Look]:
        """The looks at which a firing ends unknown where the slot isn't known."""
        return [look for look in self.looks if look.sure and not look.asked and not look.guarded]


@dataclass(frozen=True)
class Way:
    """How a part is come to: whether each firing comes to it, and which slots KNOWN was asked of before."""

    sure: bool = True
    guards: frozenset[str] = frozenset()

    def branch(self, guards: frozenset[str] = frozenset()) -> Way:
        """The way into a branch, behind a condition that asks of these slots."""
        return Way(False, self.guards | guards)


def facts_of(ruleset: Ruleset, model: Model) -> list[RuleFacts]:
    """What each rule of a ruleset looks at and sets."""
    return [Looking(ruleset, model).of_rule(rule) for rule in ruleset.rules]


def calls_of(ruleset: Ruleset) -> set[str]:
    """The names of the functions that a rule calls, by itself or through others."""
    functions, called = ruleset.functions, set[str]()
    waiting = list(ruleset.rules)
    while waiting:
        for node in waiting.pop().nodes():
            if isinstance(node, trees.Call) and node.name in functions and node.name not in called:
                called.add(node.name)
                waiting.append(functions[node.name])
    return called


class Looking:
    """Goes through a rule, or through a single expression."""

    def __init__(self, ruleset: Ruleset, model: Model) -> None:
        self.functions, self.model = ruleset.functions, model
        self.facts: RuleFacts | None = None
        # what came of calls of functions, each by its arguments and the way to it
        self.seen: dict[tuple[str, tuple[Found, ...], Way, bool], Found] = {}
        self.silent = False  # whether looks aren't noted

    def of_rule(self, rule: trees.Declaration) -> RuleFacts:
        """What a rule looks at and sets."""
        facts = self.facts = RuleFacts(rule.rule, rule.called, rule.head)
        self.statements({}, rule.body, Way())
        return facts

    def constant(self, node: trees.Node) -> int | None:
        """The number that an expression always is, or `None`."""
        found = self.quiet({}, node)
        return found.value if isinstance(found, Known) and node.judged.sort == "number" else None

    def statements(self, scope: Scope, statements: list[trees.Node], way: Way) -> None:
        """Goes through statements."""
        for statement in statements:
            value = self.value(scope, statement.parts[0], way)
            if isinstance(statement, trees.With):
                self.statements({**scope, statement.name: value}, statement.parts[1:], way)
            elif isinstance(statement, trees.Branch):
                inner = way.branch(self.asked(scope, statement.parts[0]))
                self.statements(scope, statement.yes, inner)
                self.statements(scope, statement.no, inner)
            elif isinstance(statement, trees.Assign) and self.facts:
                wanted = statement.parts[0]
                setting = Setting(statement.full_name, way.sure, statement.target, wanted, statement.ahead)
                self.facts.settings.append(setting)

    def asked(self, scope: Scope, condition: trees.Node) -> frozenset[str]:
        """The slots of which a condition asks whether they are known."""
        found: set[str] = set()
        for node in condition.nodes():
            if isinstance(node, trees.One) and node.word == "KNOWN":
                slots = self.quiet(scope, node.parts[0].parts[0])
                found |= set(slots.names) if isinstance(slots, Slots) else set()
        return frozenset(found)

    def quiet(self, scope: Scope, node: trees.Node) -> Found:
        """The value of an expression, without its looks being noted."""
        before, self.silent = self.silent, True
        value = self.value(scope, node, Way(False))
        self.silent = before
        return value

    # ---- expressions: what is known of each, and its looks

    def value(self, scope: Scope, node: trees.Node, way: Way) -> Found:
        """Goes through an expression: what is known of its value, or `None`."""
        form = VALUES.get(type(node))
        if form:
            return form(self, scope, node, way)
        for part in node.parts:
            self.value(scope, part, way)
        return None

    def literal(self, scope: Scope, node: trees.Literal, way: Way) -> Known:
        """A number, in base units."""
        return Known(node.value * UNITS[node.unit.text if node.unit else ""][1])

    def list(self, scope: Scope, node: trees.ListOf, way: Way) -> Found:
        """A list: of slots those of its items."""
        return union([self.value(scope, part, way) for part in node.parts], True)

    def choice(self, scope: Scope, node: trees.Choice, way: Way) -> Found:
        """An IF."""
        condition, yes, no = node.parts
        self.value(scope, condition, way)
        inner = way.branch(self.asked(scope, condition))
        values = [self.value(scope, part, inner) for part in (yes, no)]
        return values[0] if values[0] == values[1] else union(values, False)

    def let(self, scope: Scope, node: trees.Let, way: Way) -> Found:
        """A LET."""
        value = self.value(scope, node.parts[0], way)
        names: Scope = {node.name: value}
        return self.value(ChainMap(names, scope), node.parts[1], way)

    def loop(self, scope: Scope, node: trees.For | trees.Map, way: Way) -> None:
        """A FOR or a MAP, whose body is gone through once for all items."""
        items, *start, body = node.parts
        names: Scope = {node.item: self.value(scope, items, way)}
        if isinstance(node, trees.For):
            self.value(scope, start[0], way)
            names[node.total] = None
        self.value(ChainMap(names, scope), body, way)
        return None

    def one(self, scope: Scope, node: trees.One, way: Way) -> Found:
        """A word of one expression."""
        part = node.parts[0]
        if node.word == "KNOWN" and isinstance(part, trees.At):
            self.look(scope, part, way, asked=True)
            return None
        value = self.value(scope, part, way)
        return Known(-value.value) if node.word == "-" and isinstance(value, Known) else None

    def two(self, scope: Scope, node: trees.Two, way: Way) -> Found:
        """A word or an operator of two expressions."""
        left = self.value(scope, node.parts[0], way)
        if node.word in ("AND", "OR"):
            self.value(scope, node.parts[1], way.branch(self.asked(scope, node.parts[0])))
            return None
        right = self.value(scope, node.parts[1], way)
        if node.word == "ITEM":
            return Slots(left.names, len(left.names) == 1) if isinstance(left, Slots) else None
        if node.word == "APPEND":
            return union([left, right], True)
        return reckoned(node.word, left, right)

    def convert(self, scope: Scope, node: trees.Convert, way: Way) -> Found:
        """A look into a reservoir's table."""
        value = self.value(scope, node.parts[0], way)
        table = self.model.the_object(node.owner).table
        if not isinstance(value, Known):
            return None
        found = (elevation if node.word == "StorageToElevation" else volume)(table, value.value)
        return None if found is None else Known(found)

    def look(self, scope: Scope, node: trees.At, way: Way, asked: bool = False) -> None:
        """A look at a slot."""
        slots, date = (self.value(scope, part, way) for part in node.parts)
        if isinstance(slots, Slots) and self.facts and not self.silent:
            for name in slots.names:
                sure = way.sure and slots.every
                ahead = date.value if isinstance(date, Known) else None
                self.facts.looks.append(Look(name, ahead, asked, name in way.guards, sure, node.span))
        return None

    def call(self, scope: Scope, node: trees.Call, way: Way) -> Found:
        """A call: of a function of the ruleset its body is gone through with what is known of the arguments."""
        values = [self.value(scope, part, way) for part in node.parts]
        function = self.functions.get(node.name)
        if not function:
            return predefined(node.name, values)
        key = (node.name, tuple(values), way, self.silent)
        if key not in self.seen:
            names: Scope = {one.name: value for one, value in zip(function.parameters, values)}
            self.seen[key] = self.value(names, function.body[0], way)
        return self.seen[key]


def union(values: list[Found], every: bool) -> Slots | None:
    """All slots of some values, or nothing where one of them isn't known to be slots."""
    slots = [one for one in values if isinstance(one, Slots)]
    if not values or len(slots) < len(values):
        return None
    names = tuple(dict.fromkeys(name for one in slots for name in one.names))
    return Slots(names, every and all(one.every for one in slots))


def reckoned(word: str, left: Found, right: Found) -> Known | None:
    """What is known of a sum, a difference or a product."""
    if not isinstance(left, Known) or not isinstance(right, Known):
        return None
    if word == "/":
        return Known(left.value // right.value) if right.value else None
    found = {"+": int.__add__, "-": int.__sub__, "*": int.__mul__}.get(word)
    return Known(found(left.value, right.value)) if found else None


def predefined(name: str, values: list[Found]) -> Known | None:
    """What is known of a predefined function's result."""
    numbers = [one.value for one in values if isinstance(one, Known)]
    return Known(FUNCTIONS[name][1](*numbers)) if len(numbers) == len(values) else None


# Each takes the nodes of its own form.
VALUES: dict[type[trees.Node], Callable[[Looking, Scope, Any, Way], Found]] = {
    trees.Literal: Looking.literal,
    trees.Now: lambda looking, scope, node, way: Known(0),
    trees.SlotName: lambda looking, scope, node, way: Slots((node.full_name,)),
    trees.Name: lambda looking, scope, node, way: scope.get(node.name),
    trees.Brackets: lambda looking, scope, node, way: looking.value(scope, node.parts[0], way),
    trees.ListOf: Looking.list,
    trees.Choice: Looking.choice,
    trees.Let: Looking.let,
    trees.For: Looking.loop,
    trees.Map: Looking.loop,
    trees.One: Looking.one,
    trees.Two: Looking.two,
    trees.Convert: Looking.convert,
    trees.At: Looking.look,
    trees.Call: Looking.call,
}
