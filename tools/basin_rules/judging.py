"""The types of a ruleset: what each expression is, or the first refusal of a declaration, in `basin`'s words."""

from __future__ import annotations

from collections import ChainMap
from collections.abc import Callable, Iterable, MutableMapping
from dataclasses import dataclass
from typing import Any

from basin_files.firing import PREDEFINED
from basin_files.formats import GREATEST_QUANTITY
from basin_files.model import Model, Slot
from basin_files.reasons import why_unknown

from . import meant, trees
from .grammar import OF_TWO
from .measures import (
    DATE,
    LENGTH,
    NUMBER,
    TIMESTEP,
    TRUTH,
    UNITS,
    VOLUME,
    Measure,
    Type,
    is_measure,
    per,
    times,
    unit_words,
)
from .places import Source, Span
from .verifier import LONGEST

ORDER = (
    "duplicate name",
    "unknown name",
    "not earlier",
    "unknown slot",
    "not settable",
    "target step",
    "unknown unit",
    "literal range",
    "no table",
    "wrong count",
    "wrong type",
    "wrong unit",
    "list too long",
    "too costly",
)
TABLES = {"StorageToElevation": (VOLUME, LENGTH), "ElevationToStorage": (LENGTH, VOLUME)}

Scope = MutableMapping[str, Type]  # the types of variables


class Wrong(Exception):
    """Why a form has no type: `basin`'s word for it, what is told of it, and what may be meant.

    `span` is where it shows, if that isn't the whole form.
    """

    def __init__(self, kind: str, says: str, hint: str = "", span: Span | None = None) -> None:
        super().__init__(kind)
        self.kind, self.says, self.hint, self.span = kind, says, hint, span


class Misfit(Exception):
    """A refusal of a declaration: the number of its node, where that stands, and why."""

    def __init__(self, number: int, span: Span, wrong: Wrong) -> None:
        super().__init__(wrong.kind)
        self.number, self.span, self.wrong = number, wrong.span or span, wrong


@dataclass
class Signature:
    """A function that can be called: its declaration, the types of its parameters, and that of its result."""

    declaration: trees.Declaration
    takes: list[Type]
    result: Type


def soonest(wrongs: Iterable[Wrong | None]) -> None:
    """Raises that of several things that are wrong which stands first in the order, if there are some."""
    found = [wrong for wrong in wrongs if wrong]
    if found:
        raise min(found, key=lambda wrong: ORDER.index(wrong.kind))


def misfit(given: Type, asked: Type, called: str, whose: str) -> Wrong | None:
    """Why a value can't stand where one of another type is asked for, or `None`; `called` is the value."""
    if given.sort != asked.sort:
        says = f"{called} is {given.words()}, but {whose} must be {asked.words()}"
        return Wrong("wrong type", says)
    wrongs = [unit_misfit(given, asked, called, whose)]
    if given.most > asked.most:
        says = f"{called} may have {given.most:,} items, but {whose} has at most {asked.most:,}"
        wrongs.append(Wrong("list too long", says))
    return next((wrong for wrong in wrongs if wrong), None)


def unit_misfit(given: Type, asked: Type, called: str, whose: str) -> Wrong | None:
    """Why it measures something else than what is asked for, or `None`."""
    if given.measure == asked.measure:
        return None
    return Wrong("wrong unit", f"{called} {measured(given)}, and {whose} {measured(asked)}")


def measured(given: Type) -> str:
    """What a value measures, for people to read."""
    unit = unit_words(given.measure)
    return f"measures {unit}" if unit else "is a plain number"


def written_type(written: trees.TypeName) -> Type:
    """The type that a declaration writes. `Wrong` where there is none."""
    if written.word in ("BOOLEAN", "DATETIME"):
        return TRUTH if written.word == "BOOLEAN" else DATE
    unit = written.unit
    assert unit  # all others have one
    if unit.text not in UNITS:
        raise Wrong("unknown unit", *meant.unit(unit.text), unit.span)
    measure = UNITS[unit.text][0]
    of_one = Type("slot" if "SLOT" in (written.word, written.element) else "number", measure)
    if written.word != "LIST":
        return of_one
    if not 1 <= written.most <= LONGEST:
        raise Wrong("list too long", f"a list can have 1 to {LONGEST:,} items, not {written.most:,}")
    return of_one.list_of(written.most)


def type_here(written: trees.TypeName) -> Type:
    """The type that is written, and a plain number where that is none."""
    try:
        return written_type(written)
    except Wrong:
        return NUMBER


def signature_of(function: trees.Declaration) -> Signature:
    """A function as calls see it."""
    return Signature(function, [type_here(one.type) for one in function.parameters], type_here(function.gives))


class Judge:
    """Judges declarations with a model, in their order: `earlier` are the functions that can be called."""

    def __init__(self, model: Model, source: Source, declarations: list[trees.Declaration]) -> None:
        self.model, self.source = model, source
        self.earlier: dict[str, Signature] = {}
        self.later = {one.name for one in declarations if not one.is_rule}

    def text(self, node: trees.Node) -> str:
        """What stands at a node."""
        return f"`{self.source.words(node.span)}`"

    # ---- declarations

    def declaration(self, declaration: trees.Declaration) -> None:
        """Judges a declaration but for what it costs. `Misfit` tells the first thing that is wrong."""
        if declaration.is_rule:
            self.statements({}, declaration.body)
            return
        self.head(declaration)
        scope = {one.name: type_here(one.type) for one in declaration.parameters}
        body = declaration.body[0]
        given = self.expression(scope, body)
        wrong = misfit(given, type_here(declaration.gives), self.text(body), f"the result of {declaration.name}")
        if wrong:
            wrong.hint = meant.of_value(body, given, type_here(declaration.gives), self.source)
            raise Misfit(0, body.span, wrong)

    def declared(self, declaration: trees.Declaration) -> None:
        """What later declarations can call."""
        if not declaration.is_rule:
            self.earlier.setdefault(declaration.name, signature_of(declaration))

    def head(self, function: trees.Declaration) -> None:
        """Judges the head of a function."""
        names = [one.name for one in function.parameters]
        twice = next((one for number, one in enumerate(function.parameters) if one.name in names[:number]), None)
        if function.name in PREDEFINED or function.name in self.earlier:
            raise Misfit(0, function.name_span, taken_name(function.name, self.earlier, self.source))
        if twice:
            raise Misfit(0, twice.span, Wrong("duplicate name", f"an earlier parameter is also named {twice.name}"))
        wrongs = []
        for written in [one.type for one in function.parameters] + [function.gives]:
            try:
                written_type(written)
            except Wrong as wrong:
                wrongs.append(Misfit(0, written.span, wrong))
        if wrongs:
            raise min(wrongs, key=lambda one: ORDER.index(one.wrong.kind))

    # ---- statements

    def statements(self, scope: Scope, statements: list[trees.Node]) -> None:
        """Judges statements in their order."""
        for statement in statements:
            self.statement(scope, statement)

    def statement(self, scope: Scope, statement: trees.Node) -> None:
        """Judges a statement behind its parts."""
        value = self.expression(scope, statement.parts[0])
        if isinstance(statement, trees.With):
            self.statements({**scope, statement.name: value}, statement.parts[1:])
        elif isinstance(statement, trees.Branch):
            self.statements(scope, statement.yes)
            self.statements(scope, statement.no)
            if value != TRUTH:
                condition = statement.parts[0]
                says = f"{self.text(condition)} is {value.words()}, but a condition must be a truth value"
                raise Misfit(statement.number, condition.span, Wrong("wrong type", says))
        elif isinstance(statement, trees.Assign):
            self.target(statement, value)

    def target(self, statement: trees.Assign, given: Type) -> None:
        """Judges what a statement sets."""
        try:
            slot = self.slot(statement.full_name)
            if not slot.settable:
                says = f"{slot.owner} derives {slot.full_name} from its other slots, so a rule cannot set it"
                raise Wrong("not settable", says, meant.settable(self.model, slot))
            if statement.ahead > self.model.ahead:
                raise Wrong("target step", *meant.target_step(self.model.ahead))
            asked = Type("number", UNITS[slot.unit][0])
            wrong = misfit(given, asked, self.text(statement.parts[0]), slot.full_name)
            if wrong:
                wrong.hint = meant.of_value(statement.parts[0], given, asked, self.source)
                raise Misfit(statement.number, statement.parts[0].span, wrong)
        except Wrong as wrong:
            raise Misfit(statement.number, statement.target, wrong) from None

    def slot(self, full_name: str) -> Slot:
        """The slot of a name."""
        slot = self.model.slots.get(full_name)
        if not slot:
            raise Wrong("unknown slot", why_unknown(self.model, full_name).rstrip("."))
        return slot

    # ---- expressions

    def expression(self, scope: Scope, node: trees.Node) -> Type:
        """The type of an expression, which it is given."""
        try:
            given = node.type = FORMS[type(node)](self, scope, node)
        except Wrong as wrong:
            raise Misfit(node.number, node.span, wrong) from None
        return given

    def all(self, scope: Scope, nodes: list[trees.Node]) -> list[Type]:
        """The types of expressions, in their order."""
        return [self.expression(scope, node) for node in nodes]

    def literal(self, scope: Scope, node: trees.Literal) -> Type:
        """A number with its unit."""
        unit = node.unit.text if node.unit else ""
        if node.unit and unit not in UNITS:
            raise Wrong("unknown unit", *meant.unit(unit, self.model.timesteps), node.unit.span)
        measure, factor = UNITS[unit]
        if node.value * factor > GREATEST_QUANTITY:
            says = f"{node.value:,} {unit} are {node.value * factor:,} {unit_words(measure)}"
            raise Wrong("literal range", f"{says}, but the largest number is 10^17")
        return Type("number", measure)

    def slot_name(self, scope: Scope, node: trees.SlotName) -> Type:
        """A slot."""
        return Type("slot", UNITS[self.slot(node.full_name).unit][0])

    def name(self, scope: Scope, node: trees.Name) -> Type:
        """A variable."""
        if node.name not in scope:
            raise Wrong("unknown name", *meant.variable(node.name, scope, self))
        return scope[node.name]

    def call(self, scope: Scope, node: trees.Call) -> Type:
        """A call of a function, behind its arguments."""
        given = self.all(scope, node.parts)
        if node.name in PREDEFINED:
            return self.predefined(node, given)
        known = self.earlier.get(node.name)
        if not known and node.name in self.later:
            raise Wrong("not earlier", *meant.NOT_EARLIER)
        if not known:
            raise Wrong("unknown name", *meant.function(node.name, self))
        self.count(node, len(known.takes))
        names = [one.name for one in known.declaration.parameters]
        soonest(
            self.hinted(misfit(one, asked, self.text(part), f"the parameter {name}"), part, one, asked)
            for part, one, asked, name in zip(node.parts, given, known.takes, names)
        )
        return known.result

    def count(self, node: trees.Call, count: int, hint: str = "") -> None:
        """Judges how many arguments a call has; the hint is for one that has too few."""
        if len(node.parts) != count:
            given = f"{len(node.parts)} argument{'s' * (len(node.parts) != 1)}"
            says = f"{node.name} has {given} here, but needs {count}"
            raise Wrong("wrong count", says, meant.COUNTS.get(node.name, "") if len(node.parts) > count else hint)

    def predefined(self, node: trees.Call, given: list[Type]) -> Type:
        """A call of a predefined function."""
        of_list = meant.OF_LISTS.get(node.name, "") if given and given[0].is_list else ""
        self.count(node, PREDEFINED[node.name], of_list)
        if node.name == "MulDiv":
            return self.product_over(node, *given)
        self.is_number(node.parts[0], given[0], f"an argument of {node.name}")
        self.alike(node.parts, given)
        return NUMBER if node.name == "Sign" else given[0]

    def product_over(self, node: trees.Call, value: Type, by: Type, over: Type) -> Type:
        """A product of two numbers over a third."""
        for part in node.parts:
            self.is_number(part, part.judged, f"an argument of {node.name}")
        return self.measuring(per(times(value.measure, by.measure), over.measure))

    def measuring(self, powers: Measure) -> Type:
        """A number that measures these powers of units, where it can."""
        if not is_measure(powers):
            raise Wrong("wrong unit", f"it would measure {unit_words(powers)}, but powers are from -6 to 6")
        return Type("number", powers)

    def is_number(self, node: trees.Node, given: Type, whose: str) -> None:
        """Judges whether a value is a number."""
        if given.sort != "number":
            says = f"{self.text(node)} is {given.words()}, but {whose} must be a number"
            raise Wrong("wrong type", says, meant.of_value(node, given, NUMBER, self.source))

    def alike(self, nodes: list[trees.Node], given: list[Type]) -> None:
        """Judges whether values are of the type of the first of them."""
        first, asked = nodes[0], given[0]
        soonest(
            self.hinted(misfit(one, asked, self.text(node), self.text(first)), node, one, asked, first)
            for node, one in zip(nodes[1:], given[1:])
        )

    def hinted(
        self, wrong: Wrong | None, node: trees.Node, given: Type, asked: Type, other: trees.Node | None = None
    ) -> Wrong | None:
        """What is wrong, with what may be meant, marked at the value that the hint is for."""
        if wrong:
            of_this = meant.of_value(node, given, asked, self.source)
            wrong.hint = meant.best(of_this, meant.of_value(other, asked, given, self.source) if other else "")
            wrong.span = other.span if other and wrong.hint != of_this else node.span
        return wrong

    def brackets(self, scope: Scope, node: trees.Brackets) -> Type:
        """What stands in brackets."""
        return self.expression(scope, node.parts[0])

    def list(self, scope: Scope, node: trees.ListOf) -> Type:
        """A list of numbers or of slots."""
        given = self.all(scope, node.parts)
        first = given[0]
        if first.sort not in ("number", "slot"):
            says = f"{self.text(node.parts[0])} is {first.words()}, but a list contains numbers or slots"
            raise Wrong("wrong type", says)
        wrongs = []
        if len(given) > LONGEST:
            says = f"the list has {len(given):,} items, but at most {LONGEST:,} are allowed"
            wrongs.append(Wrong("list too long", says))
        try:
            self.alike(node.parts, given)
        except Wrong as wrong:
            wrongs.append(wrong)
        soonest(wrongs)
        return first.list_of(len(given))

    def choice(self, scope: Scope, node: trees.Choice) -> Type:
        """An IF of expressions."""
        condition, yes, no = self.all(scope, node.parts)
        if condition != TRUTH:
            says = f"{self.text(node.parts[0])} is {condition.words()}, but a condition must be a truth value"
            raise Wrong("wrong type", says)
        of_lists = yes.is_list and yes.sort == no.sort
        wrong = (unit_misfit if of_lists else misfit)(no, yes, self.text(node.parts[2]), self.text(node.parts[1]))
        soonest([self.hinted(wrong, node.parts[2], no, yes, node.parts[1])])
        return Type(yes.sort, yes.measure, max(yes.most, no.most))

    def let(self, scope: Scope, node: trees.Let) -> Type:
        """A LET."""
        value = self.expression(scope, node.parts[0])
        return self.expression(inside(scope, {node.name: value}), node.parts[1])

    def items(self, node: trees.For | trees.Map, given: Type) -> Type:
        """The type of the items of the list of a loop."""
        if not given.is_list:
            says = f"{self.text(node.parts[0])} is {given.words()}, but the loop needs a list"
            raise Wrong("wrong type", says)
        return given.item

    def each(self, scope: Scope, node: trees.For) -> Type:
        """A FOR."""
        given, total = self.all(scope, node.parts[:2])
        names = {node.item: self.items(node, given), node.total: total}
        body = self.expression(inside(scope, names), node.parts[2])
        whose = f"{node.total}, which begins as {self.text(node.parts[1])},"
        wrong = misfit(body, total, self.text(node.parts[2]), whose)
        soonest([self.hinted(wrong, node.parts[2], body, total, node.parts[1])])
        return total

    def map(self, scope: Scope, node: trees.Map) -> Type:
        """A MAP."""
        given = self.expression(scope, node.parts[0])
        names = {node.item: self.items(node, given)}
        body = self.expression(inside(scope, names), node.parts[1])
        self.is_number(node.parts[1], body, "the body of MAP")
        return body.list_of(given.most)

    def one(self, scope: Scope, node: trees.One) -> Type:
        """A word of one expression."""
        part = node.parts[0]
        given = self.expression(scope, part)
        if node.word == "-":
            self.is_number(part, given, "the operand of -")
            return given
        if node.word == "KNOWN":
            if not isinstance(part, trees.At):
                raise Wrong("wrong type", *meant.known(part, given, self.source))
            return TRUTH
        if node.word == "LENGTH":
            self.asked(part, given, given.is_list, "a list")
            return NUMBER
        if node.word == "NOT":
            self.asked(part, given, given == TRUTH, "a truth value")
            return TRUTH
        self.asked(part, given, given == DATE, "a date")
        return NUMBER

    def asked(self, node: trees.Node, given: Type, holds: bool, called: str) -> None:
        """Judges what a word asks for."""
        if not holds:
            raise Wrong("wrong type", f"{self.text(node)} is {given.words()}, but {called} is needed")

    def two(self, scope: Scope, node: trees.Two) -> Type:
        """A word or an operator of two expressions."""
        left, right = self.all(scope, node.parts)
        if node.word in OF_TWO:
            return (self.append if node.word == "APPEND" else self.item)(node, left, right)
        if node.word in ("AND", "OR"):
            for part, given in zip(node.parts, (left, right)):
                self.asked(part, given, given == TRUTH, "a truth value")
            return TRUTH
        if node.word in ("*", "/"):
            return self.product(node, left, right)
        if DATE in (left, right):
            return self.of_dates(node, left, right)
        for part, given in zip(node.parts, (left, right)):
            self.is_number(part, given, f"the operand of {node.word}")
        self.same_unit(node, left, right)
        return left if node.word in ("+", "-") else TRUTH

    def same_unit(self, node: trees.Two, left: Type, right: Type) -> None:
        """Judges whether both sides measure the same."""
        if left.measure != right.measure:
            sides = [f"{self.text(part)} {measured(part.judged)}" for part in node.parts]
            says = f"{sides[0]}, and {sides[1]}: both sides of {node.word} must measure the same quantity"
            raise Wrong("wrong unit", says, meant.of_sides(node, left, right, self.source))

    def of_dates(self, node: trees.Two, left: Type, right: Type) -> Type:
        """A sum, a difference or a comparison with a date in it."""
        if left == right and node.word not in ("+", "-"):
            return TRUTH
        if left == right and node.word == "-":
            return Type("number", TIMESTEP)
        if node.word in ("+", "-") and left == DATE and right.sort == "number":
            if right.measure != TIMESTEP:
                says = f"{self.text(node.parts[1])} {measured(right)}, but a date is moved by a number of timesteps"
                raise Wrong("wrong unit", says, meant.steps(node, self.source))
            return DATE
        sides = [f"{self.text(part)} is {part.judged.words()}" for part in node.parts]
        raise Wrong("wrong type", f"{sides[0]}, and {sides[1]}: {meant.DATES[node.word in ('+', '-')]}")

    def product(self, node: trees.Two, left: Type, right: Type) -> Type:
        """A product or a quotient."""
        for part, given in zip(node.parts, (left, right)):
            self.is_number(part, given, f"the operand of {node.word}")
        return self.measuring((times if node.word == "*" else per)(left.measure, right.measure))

    def append(self, node: trees.Two, items: Type, one: Type) -> Type:
        """A list with an item more."""
        self.asked(node.parts[0], items, items.is_list, "a list")
        wrongs: list[Wrong | None] = []
        if items.most >= LONGEST:
            says = f"{self.text(node.parts[0])} may have {items.most:,} items already"
            wrongs.append(Wrong("list too long", says))
        wrongs.append(misfit(one, items.item, self.text(node.parts[1]), "an item of the list"))
        soonest(wrongs)
        return one.list_of(items.most + 1)

    def item(self, node: trees.Two, items: Type, place: Type) -> Type:
        """An item of a list."""
        self.asked(node.parts[0], items, items.is_list, "a list")
        wrong = misfit(place, NUMBER, self.text(node.parts[1]), "an item's place")
        if wrong:
            raise wrong
        return items.item

    def convert(self, scope: Scope, node: trees.Convert) -> Type:
        """A look into a reservoir's table."""
        given = self.expression(scope, node.parts[0])
        thing = self.model.object_named(node.owner)
        if not thing:
            raise Wrong("unknown name", *meant.owner(node.owner, self.model))
        if not thing.looked_up:
            says = f"{node.owner} ({thing.kind}) has no table that a rule can read"
            raise Wrong("no table", says, meant.with_table(thing, self.model))
        asked, answered = (Type("number", measure) for measure in TABLES[node.word])
        wrong = misfit(given, asked, self.text(node.parts[0]), f"what {node.word} takes")
        soonest([self.hinted(wrong, node.parts[0], given, asked)])
        return answered

    def look(self, scope: Scope, node: trees.At) -> Type:
        """The value of a slot at a date."""
        slot, date = self.all(scope, node.parts)
        if slot.sort != "slot":
            says = f"{self.text(node.parts[0])} is {slot.words()}, but only a slot can be before [ ]"
            raise Wrong("wrong type", says, meant.item(node, slot, self.source))
        if date != DATE:
            raise Wrong("wrong type", *meant.date(node, date, self.source))
        return Type("number", slot.measure)


def inside(scope: Scope, names: dict[str, Type]) -> Scope:
    """A scope with names more."""
    return ChainMap(names, scope)


def taken_name(name: str, earlier: dict[str, Signature], source: Source) -> Wrong:
    """Why a function can't have a name."""
    if name in PREDEFINED:
        return Wrong("duplicate name", f"{name} is a predefined function")
    line = source.line(earlier[name].declaration.name_span.begin)
    return Wrong("duplicate name", f"the function in line {line} already has the name {name}")


# Each takes the nodes of its own form.
FORMS: dict[type[trees.Node], Callable[[Judge, Scope, Any], Type]] = {
    trees.Literal: Judge.literal,
    trees.Truth: lambda judge, scope, node: TRUTH,
    trees.Now: lambda judge, scope, node: DATE,
    trees.SlotName: Judge.slot_name,
    trees.Name: Judge.name,
    trees.Call: Judge.call,
    trees.Brackets: Judge.brackets,
    trees.ListOf: Judge.list,
    trees.Choice: Judge.choice,
    trees.Let: Judge.let,
    trees.For: Judge.each,
    trees.Map: Judge.map,
    trees.One: Judge.one,
    trees.Two: Judge.two,
    trees.Convert: Judge.convert,
    trees.At: Judge.look,
}
