"""A file of code as the tools read it: its blocks and budgets, or the first thing that is wrong with it."""

from __future__ import annotations

from collections.abc import Callable
from dataclasses import dataclass, field
from typing import Any

from basin_files.firing import PREDEFINED
from basin_files.model import Model
from basin_files.reasons import nearest, shown, why_unknown

from . import meant, verifier
from .costs import Budget, words_above
from .findings import Finding
from .places import Source, Span
from .verifier import Basin, Before, Block, Line, Misfit, Refused, Scope

STAGES = {
    "top": "the first line is `CODE 1`",
    "between": "a block begins with `RULE` or `FUNCTION R P`",
    "headed": "the line after a block's first line is `LOCALS K`",
    "inside": "an instruction or `END` is expected here",
}
BEHIND: dict[Callable[[str], object], str] = {
    verifier.quantity_in: "a whole number from -10^17 to 10^17, without zeros in front",
    verifier.truth_in: "true or false",
    verifier.slot_in: "a slot, Object.Slot",
    verifier.count_in: "a number from 0 to 4,294,967,295, without zeros in front",
    verifier.name_in: "a name of at most 32 letters",
    verifier.length_in: "a length from 1 to 4,096",
    verifier.ahead_in: "a number from 0 to 255",
    verifier.kind_in: "a kind: N, B, D, S, N*m or S*m",
    verifier.kinds_in: "kinds with commas and no blanks between them, or - for none",
    verifier.heading_in: "1",
}
LIST_TAKES = {
    "list": "{0} numbers or {0} slots",
    "append": "a list with room for less than 4,096, and an item of its kind",
    "widen": "a list of at most {0}",
    "item": "a list and N",
    "length": "a list",
    "foreach": "a list",
    "map": "a list",
}


@dataclass
class CodeFile:
    """A file of code: its text, its blocks with their budgets, and what is wrong."""

    source: Source
    blocks: list[Block] = field(default_factory=list)
    budgets: list[list[int]] = field(default_factory=list)
    findings: list[Finding] = field(default_factory=list)


def is_code(content: bytes) -> bool:
    """Whether a policy is code: its first line is `CODE 1`."""
    return content.startswith(b"CODE 1\n") or content == b"CODE 1"


def basin_of(model: Model) -> Basin:
    """A model as the verifier sees it: of each object its slots, each with whether it can be set, and its table."""
    return {
        thing.name: {
            "slots": {slot.name: slot.settable for slot in thing.slots},
            "table": bool(thing.looked_up),
        }
        for thing in model.objects
    }


def read_code(source: Source, model: Model) -> CodeFile:
    """The code that a text spells, judged with a model with which nothing is wrong."""
    code = CodeFile(source)
    try:
        code.blocks = verifier.blocks_of(source.text)
        code.budgets = verifier.ruling(basin_of(model), code.blocks, model.ahead)
    except verifier.Refused as refused:
        code.findings.append(finding_of(refused, source, model))
    return code


def finding_of(refused: Refused, source: Source, model: Model) -> Finding:
    """What is told of code that is refused."""
    if refused.scope:
        return of_place(refused, source, model)
    if refused.line:
        return Finding(str(refused), line_span(source, refused.line), *of_line(refused.line, source))
    end = len(source.content)
    last = not source.text.endswith("\n")
    says = "the last line has no line feed" if last and end else "the text ends here, and an `END` is missing"
    return Finding(str(refused), Span(end, end), says if end else "there is no line, but the first one must be `CODE 1`")


def line_span(source: Source, number: int) -> Span:
    """Where a line stands."""
    end = source.begins[number] - 1 if number < len(source.begins) else len(source.content)
    return Span(source.begins[number - 1], end)


# ---- lines


def of_line(number: int, source: Source) -> tuple[str, str]:
    """What is told of a line that isn't allowed where it stands, and what may be meant."""
    span = line_span(source, number)
    word, *texts = source.text[span.begin : span.end].split(" ")
    stage = stage_at(number, source)
    if word not in verifier.LINES:
        near = nearest(word, verifier.ALLOWED[stage])
        hint = "no blank before the line" if not word else near or ""
        return f"{shown(word)} does not begin a line of code: {STAGES[stage]}", hint
    asked = verifier.LINES[word]
    if len(texts) != len(asked):
        return f"`{word}` needs {many(len(asked))} after it, and has {many(len(texts))}", ""
    for text, read in zip(texts, asked):
        if read(text) is None:
            return f"{shown(text)} is not {BEHIND[read]}", ""
    return f"`{word}` is not allowed here: {STAGES[stage]}", ""


def many(count: int) -> str:
    """How many words."""
    return "nothing" if count == 0 else "one word" if count == 1 else f"{count} words"


def stage_at(number: int, source: Source) -> str:
    """The stage of the text at a line, all lines before which are allowed."""
    stage = "top"
    for line in source.text.split("\n")[: number - 1]:
        stage = verifier.BEHIND.get(line.split(" ")[0], "inside")
    return stage


# ---- places of a block


def of_place(refused: Refused, source: Source, model: Model) -> Finding:
    """What is told of a misfit at a place of a block."""
    scope, place, misfit = refused.scope, refused.place, refused.misfit
    assert scope and misfit  # what is refused at a place has both
    block = scope.block
    at_end = place == len(block.lines)
    span = line_span(source, block.line + 2 + place if place or block.lines else block.line)
    if str(misfit) == "too many" or misfit.budget:
        span = line_span(source, block.line)
    word, *things = ("END",) if at_end else block.lines[place]
    before = before_of(scope, place)
    says, hint = MISFITS[str(misfit)](Site(scope, place, word, things, before, model, misfit))
    whose = f"block {scope.number}, place {place}"
    return Finding(str(refused), span, says, hint, whose=whose)


def before_of(scope: Scope, place: int) -> Before | None:
    """What is before a place, all places before which are allowed; `None` where that isn't known."""
    before = verifier.Before([], [])
    try:
        for earlier in range(place):
            before = verifier.behind(scope, earlier, before)
    except verifier.Misfit:
        return None
    return before


@dataclass
class Site:
    """A place of a block: its instruction, what is before it, and the misfit there."""

    scope: Scope
    place: int
    word: str
    things: list[Any]  # what the readers of its word make of the texts behind it
    before: Before | None
    model: Model
    misfit: Misfit

    @property
    def operands(self) -> str:
        """The operands that are there, the last one behind."""
        kinds = " ".join(self.before.kinds[::-1]) if self.before else ""
        return f"the operands are {kinds}" if kinds else "there are no operands"

    @property
    def block(self) -> Block:
        """The block."""
        return self.scope.block


def no_name(site: Site) -> tuple[str, str]:
    """A name that isn't there."""
    if site.word in ("slot", "put"):
        return why_unknown(site.model, ".".join(site.things[0])).rstrip("."), ""
    if site.word == "call":
        near = nearest(site.things[0], PREDEFINED)
        return f"there is no predefined function {site.things[0]}", near or ""
    if site.word == "invoke":
        number, blocks = site.things[0], site.scope.blocks
        is_rule = 1 <= number <= len(blocks)
        return f"block {number} is {'a rule, and no function' if is_rule else 'not there'}", ""
    thing = site.model.object_named(site.things[0])
    names = [one.name for one in site.model.objects if one.looked_up]
    why = f"{thing.name} ({thing.kind}) has no table" if thing else f"there is no object {site.things[0]}"
    return why, ", ".join(names)


def not_settable(site: Site) -> tuple[str, str]:
    """A slot that its object derives."""
    owner, name = site.things[0]
    names = [slot.full_name for slot in site.model.the_object(owner).slots if slot.settable]
    return f"{owner} derives {owner}.{name} from its other slots, so a rule cannot set it", f"one of {', '.join(names)}"


def target_step(site: Site) -> tuple[str, str]:
    """A put for another timestep."""
    says, hint = meant.target_step(site.model.ahead)
    return f"{says}, which is the 0 after the slot" if not site.model.ahead else says, hint


def jumped(site: Site) -> tuple[str, str]:
    """A jump that leads to no place where it may."""
    to, lines = site.things[0], site.block.lines
    if to <= site.place:
        return f"place {to} is not after this one, and a jump only goes forward", ""
    targets = [place for place, line in enumerate(lines) if line[0] == "target" and place > site.place]
    hint = f"{targets[0]}, the next target" if targets else ""
    if to >= len(lines):
        return f"the block has the places 0 to {len(lines) - 1}, and no place {to}", hint
    if lines[to][0] != "target":
        return f"place {to} is `{spelt(lines[to])}`, but a jump goes to a `target`", hint
    return f"the target at place {to} is in another loop", ""


def later_call(site: Site) -> tuple[str, str]:
    """A function that stands here or later."""
    return f"block {site.things[0]} is this one or a later one, but a block can only call earlier ones", ""


def operands(site: Site) -> tuple[str, str]:
    """Operands that are too few, or of other kinds than the instruction takes."""
    return f"`{spelt((site.word, *site.things))}` takes {taken(site)}, and {site.operands}", ""


def taken(site: Site) -> str:
    """What an instruction takes, the last operand behind."""
    word, things = site.word, site.things
    if word in LIST_TAKES:
        return LIST_TAKES[word].format(*things)
    if word == "call":
        return " ".join("N" * PREDEFINED[things[0]])
    if word == "invoke":
        return " ".join(site.scope.blocks[things[0] - 1].parameters) or "nothing"
    if word == "store":
        kind: str = site.block.locals[things[0]]
        return kind
    return " ".join(verifier.PLAIN[word][0][::-1])


def shape(site: Site) -> tuple[str, str]:
    """What else is wrong with a place."""
    word, things, block = site.word, site.things, site.block
    loops = site.before.loops if site.before else []
    if word in ("load", "store", "foreach", "map"):
        count = len(block.locals)
        if things[0] >= count:
            return f"there is no local {things[0]}: the block has {count}, of which the first is 0", ""
        return f"local {things[0]} is of the kind {block.locals[things[0]]}, and {site.operands}", ""
    if word == "target":
        return f"the target declares {kinds_of(things[0])}, and {site.operands}", ""
    if word == "jump":
        behind = verifier.declared_at(block.lines, site.place + 1)
        if behind is None:
            return "a `target` must follow a `jump`, since only a jump can reach the next place", ""
    if word in ("jump", "branch"):
        declared = verifier.declared_at(block.lines, things[0]) or []
        return f"the target at place {things[0]} declares {kinds_of(declared[::-1])}, and {site.operands}", ""
    if word in verifier.LOOP_ENDS:
        if not loops:
            return f"`{word}` ends a loop, and none is open", ""
        loop = loops[-1]
        began = block.lines[loop.start][0]
        return f"the loop that `{began}` begins at place {loop.start} is open, and {site.operands}", ""
    if loops:
        return f"the block ends, and the loop of place {loops[-1].start} is open", ""
    due = "a rule ends with none" if block.is_rule else f"a function ends with its result, {block.result}"
    return f"the block ends, and {site.operands}: {due}", ""


def kinds_of(kinds: list[str]) -> str:
    """Kinds for people to read."""
    return " ".join(kinds) or "no operands"


def spelt(line: Line) -> str:
    """An instruction as its line spells it."""
    words = []
    for thing in line[1:]:
        if isinstance(thing, bool):
            words.append("true" if thing else "false")
        elif isinstance(thing, (list, tuple)):
            words.append((".".join if isinstance(thing, tuple) else ",".join)(thing) or "-")
        else:
            words.append(str(thing))
    return " ".join([line[0], *words])


def above(site: Site) -> tuple[str, str]:
    """Budgets that are above their limits."""
    return words_above(Budget(*site.misfit.budget)), ""


MISFITS: dict[str, Callable[[Site], tuple[str, str]]] = {
    "too many": lambda site: (f"there are at most {verifier.MOST_ALIKE} rules, and as many functions", ""),
    "no such name": no_name,
    "not settable": not_settable,
    "put in function": lambda site: ("a function cannot set slots: only a rule can", ""),
    "target step": target_step,
    "backward jump": jumped,
    "jump outside": jumped,
    "later call": later_call,
    "missing operand": operands,
    "wrong operand": operands,
    "wrong shape": shape,
    "too costly": above,
    "too many reads": above,
    "too many puts": above,
    "too deep": above,
}
