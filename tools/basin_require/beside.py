"""Requirements as rules beside a policy: a model with data objects more, and code with rules more, which nobody looks at.

Each requirement is one rule, which puts its margin to a slot of its own: by how much it holds, below 0 where it fails;
where it isn't asked (WHEN), `NOT_ASKED`; nothing where it looks at what isn't known. The rules stand where the agenda
comes to them last, so each fires once in a timestep, when all else is at rest, and looks at what the timestep ends
with. They are compiled apart from the policy: neither sees a name of the other.
"""

import re
from collections.abc import Callable, Iterator
from dataclasses import dataclass
from typing import Any

from basin_files.judging import read_model
from basin_files.lines import lines_of, values_of
from basin_files.model import Model
from basin_rules import trees
from basin_rules.codefile import is_code
from basin_rules.findings import Finding
from basin_rules.measures import UNITS
from basin_rules.places import Source, Span
from basin_rules.rulesets import Ruleset, read_ruleset

from .measures import NOT_ASKED
from .reading import Requirement, Requirements

SLOTS_OF_AN_OBJECT = 8
MOST_RULES = 200
BASE = {measure: unit for unit, (measure, factor) in UNITS.items() if factor == 1}
MARGINS = {
    "<=": "({1}) - ({0})",
    ">=": "({0}) - ({1})",
    "<": "({1}) - ({0}) - {one}",
    ">": "({0}) - ({1}) - {one}",
    "=": "-Abs(({0}) - ({1}))",
    "<>": "Abs(({0}) - ({1})) - {one}",
}
INVOKE = re.compile(r"^invoke ([0-9]+)$", re.MULTILINE)
BLOCK = re.compile(r"^(?:RULE|FUNCTION .*)$", re.MULTILINE)
RULE = re.compile(r"^RULE$", re.MULTILINE)
ARRAY = re.compile(r"[ \t]*\[\[")
OF_RULE = re.compile(r"\brule ([0-9]+)")

Answered = Callable[..., str]  # the program's answer to a command and the texts of its files


@dataclass
class Asked:
    """A requirement or measure as it is asked: the slot of its margin, what that measures, and at which slots it looks.

    `is_amount` is whether the margin says by how much: else it is 0 or -1. `sides` are the texts of a comparison.
    """

    item: Requirement
    slot: str
    unit: str
    is_amount: bool
    looks: list[str]
    word: str = ""
    sides: tuple[str, ...] = ()


class Wrong(Exception):
    """What is wrong with requirements, by the tools' own reading, with places of their file."""

    def __init__(self, findings: list[Finding]):
        super().__init__(findings[0].says)
        self.findings = findings


class Beside:
    """The texts that are run: the model and the code with requirements beside the policy."""

    def __init__(self, found: Requirements, model: bytes, policy: bytes, answered: Answered):
        if not found.items:
            raise Wrong([Finding("", Span(0, 0), "there is no requirement and no measure")])
        model = model.removeprefix(b"\xef\xbb\xbf")
        plain = read_model(model)
        text = model if has_tables(model) else answered("migrate", model).encode()
        judged, (slot,) = extended(plain, text, [""])
        shapes = list(shapes_of(found, read_model(judged), slot))
        self.model, slots = extended(plain, text, [unit for _, unit, *_ in shapes])
        self.asked = [Asked(item, slot, *more) for slot, (item, *more) in zip(slots, shapes, strict=True)]
        self.rules = rules_of(found, self.asked)
        mine = answered("compile", self.model, self.rules.encode("latin-1"))
        theirs = policy.decode("latin-1") if is_code(policy) else answered("compile", model, policy)
        self.policy_rules = len(RULE.findall(theirs))
        if self.policy_rules + len(self.asked) > MOST_RULES:
            most = MOST_RULES - self.policy_rules
            says = f"the policy has {self.policy_rules} rules, so it can have at most {most} requirements and measures"
            raise Wrong([Finding("", found.items[max(most, 0)].head, says)])
        run = values_of(model.decode()).get("run")
        agenda = run.get("agenda", "321") if isinstance(run, dict) else "321"
        self.before = len(self.asked) if agenda == "321" else 0
        self.code = joined(mine, theirs) if self.before else joined(theirs, mine)

    def of_fault(self, words: str) -> tuple[str, Asked | None]:
        """The words of a fault with the policy's own number of a rule; and the requirement, where it is of one."""
        found = OF_RULE.search(words)
        if not found:
            return words, None
        number = int(found[1])
        mine = number if self.before else number - self.policy_rules
        if 1 <= mine <= len(self.asked):
            return words, self.asked[mine - 1]
        return f"{words[: found.start()]}rule {number - self.before}{words[found.end() :]}", None


def has_tables(model: bytes) -> bool:
    """Whether a model's objects are tables of their own, and not one array."""
    text = model.decode()
    return bool(ARRAY.match(text.split("\n")[lines_of(text)["object[1]"] - 1]))


def extended(model: Model, content: bytes, units: list[str]) -> tuple[bytes, list[str]]:
    """The model with a slot more for each unit, in data objects that stand before all others, and the slots' names.

    They stand in front, so that a reader of tables finds them there. The others keep their order, and a data object
    solves nothing.
    """
    text = content.decode()
    taken, names, tables = {thing.name for thing in model.objects}, [], []
    for begin in range(0, len(units), SLOTS_OF_AN_OBJECT):
        some = units[begin : begin + SLOTS_OF_AN_OBJECT]
        owner = next(name for n in range(1, 10_000) if (name := f"Required{n}") not in taken)
        taken.add(owner)
        slots = ", ".join(f'{{ name = "R{begin + k}", unit = "{unit}" }}' for k, unit in enumerate(some, 1))
        tables.append(f'[[object]]\nname = "{owner}"\nkind = "data"\nslots = [{slots}]\n\n')
        names += [f"{owner}.R{begin + k}" for k in range(1, len(some) + 1)]
    held = text.split("\n")
    place = lines_of(text)["object[1]"] - 1
    return "\n".join([*held[:place], "".join(tables), *held[place:]]).encode(), names


class Pieces:
    """A text that is put together, and which part of it stands where in the file that it is of."""

    def __init__(self, source: Source) -> None:
        self.source, self.text = source, ""
        self.parts: list[tuple[int, Span]] = []

    def add(self, text: str) -> None:
        """Adds a text of its own."""
        self.text += text

    def take(self, span: Span) -> None:
        """Adds what stands in a span of the file, with a line end, since a comment may be the last of it."""
        self.parts.append((len(self.text), span))
        self.text += text_of(self.source, span)

    def in_file(self, span: Span, instead: Span) -> Span:
        """Where a span of the text stands in the file; `instead` where it isn't of it."""
        for begin, held in self.parts:
            length = held.end - held.begin
            if begin <= span.begin <= begin + length:
                return Span(held.begin + span.begin - begin, held.begin + min(span.end - begin, length))
        return instead


def text_of(source: Source, span: Span) -> str:
    """What stands in a span, with a line end."""
    return source.text[span.begin : span.end] + "\n"


def shapes_of(found: Requirements, model: Model, slot: str) -> Iterator[tuple[Any, ...]]:
    """What is asked, by the tools' own reading: the item, and what else an `Asked` has. `Wrong` tells what is wrong."""
    pieces, heads = Pieces(found.source), []
    for span in found.functions:
        pieces.take(span)
    for one in found.items:
        heads.append((len(pieces.text), one))
        pieces.add('RULE "":\n')
        if one.when:
            pieces.add("IF\n")
            pieces.take(one.when)
            pieces.add("THEN\n")
        pieces.add(f"{slot}[t] := Sign(\n" if one.how else "IF\n")
        pieces.take(one.expression)
        pieces.add(");\n" if one.how else f"THEN {slot}[t] := 0; ENDIF\n")
        pieces.add("ENDIF\n" * bool(one.when) + "ENDRULE\n")
    ruleset = read_ruleset(Source(found.source.path, pieces.text.encode("latin-1")), model)
    if ruleset.findings:
        raise Wrong([of_file(finding, pieces, heads) for finding in ruleset.findings])
    for one, rule in zip(found.items, ruleset.rules, strict=True):
        yield one, *shape_of(one, rule, ruleset)


def of_file(finding: Finding, pieces: Pieces, heads: list[tuple[int, Requirement]]) -> Finding:
    """What is wrong, told of the file of requirements."""
    whose = next((one for begin, one in reversed(heads) if begin <= finding.span.begin), None)
    span = pieces.in_file(finding.span, whose.head if whose else Span(0, 0))
    says = finding.says.replace("an argument of Sign", "a measure")
    if whose and not whose.how:
        says = says.replace("but a condition must be", "but what is required must be")
    return Finding(finding.refusal, span, says, finding.hint, finding.more, f'"{whose.name}"' if whose else finding.whose)


def shape_of(one: Requirement, rule: trees.Declaration, ruleset: Ruleset) -> tuple[Any, ...]:
    """The unit of a margin, whether it is an amount, at which slots it looks, and the comparison that it is."""
    first = rule.body[0]
    statement = first.yes[0] if one.when and isinstance(first, trees.Branch) else first
    node = statement.parts[0].parts[0] if one.how else bare(statement.parts[0])
    looks = list(dict.fromkeys(slots_of(rule, ruleset)))
    if one.how:
        if node.judged.measure not in BASE:
            raise Wrong([Finding("", one.head, "what it measures has no unit of one word", whose=f'"{one.name}"')])
        return BASE[node.judged.measure], True, looks
    if isinstance(node, trees.Two) and node.word in MARGINS:
        kinds = [part.judged for part in node.parts]
        if kinds[0].sort == "number" and kinds[0].measure in BASE:
            sides = tuple(text_of(ruleset.source, part.span) for part in node.parts)
            return BASE[kinds[0].measure], True, looks, node.word, sides
    return "", False, looks


def bare(node: trees.Node) -> trees.Node:
    """What stands in brackets, without them."""
    while isinstance(node, trees.Brackets):
        node = node.parts[0]
    return node


def slots_of(declaration: trees.Declaration, ruleset: Ruleset) -> Iterator[str]:
    """The slots at which a declaration looks, with those of the functions that it calls."""
    for node in declaration.nodes():
        if isinstance(node, trees.SlotName):
            yield node.full_name
        elif isinstance(node, trees.Call) and node.name in ruleset.functions:
            yield from slots_of(ruleset.functions[node.name], ruleset)


def rules_of(found: Requirements, asked: list[Asked]) -> str:
    """The ruleset that asks: a rule for each requirement and measure."""
    texts = [text_of(found.source, span) for span in found.functions]
    texts += [f'RULE {one.item.spelt}:\n{one.slot}[t] :=\n{value_of(found.source, one)};\nENDRULE\n' for one in asked]
    return "".join(texts)


def value_of(source: Source, one: Asked) -> str:
    """The expression of a margin, or of a measure."""
    unit = f' "{one.unit}"' if one.unit else ""
    value = text_of(source, one.item.expression)
    if one.sides:
        value = MARGINS[one.word].format(*one.sides, one=f"1{unit}")
    elif not one.item.how:
        value = f"IF\n{value}THEN 0 ELSE -1 ENDIF"
    if not one.item.when:
        return value
    when = text_of(source, one.item.when)
    return f"IF\n{when}THEN\nMin({value}, {NOT_ASKED - 1}{unit})\nELSE {NOT_ASKED}{unit} ENDIF"


def joined(first: str, second: str) -> str:
    """The code of both, one behind the other: what the second invokes is counted on."""
    behind = len(BLOCK.findall(first))
    return first + INVOKE.sub(lambda found: f"invoke {int(found[1]) + behind}", second.split("\n", 1)[1])
