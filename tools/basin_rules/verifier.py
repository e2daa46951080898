"""A slow, plain verifier of code files. It follows docs/CODE.md, docs/FORMATS.md ("Budgets") and the definitions of
rpl_code (Reading, Words) and rpl_verify (Table, Names, Places, Fits, Budget), and shares nothing with the program,
which tests/mutated compares with it.

A kind is its spelling, such as `N` or `S*12`, and an instruction a tuple of its word and what stands behind it.
Operands are listed last one first, as in the definitions. A basin has for each object its slots, each with
whether it can be set, and whether there is a table.
"""

from __future__ import annotations

import re
from collections.abc import Callable, Sequence
from dataclasses import dataclass, field
from functools import cached_property
from typing import Any, NoReturn, ParamSpec, TypeVar, TypedDict

from basin_files.firing import PREDEFINED

# The word of a line, and what the readers in LINES make of what stands behind it: the word says of which types.
Line = tuple[Any, ...]
Readers = tuple[Callable[[str], object], ...]
Leaves = Callable[[list[str]], "list[str] | None"]  # what operands of these kinds leave, if they are right
Things = ParamSpec("Things")
Judged = TypeVar("Judged")
Q = 10**17
LONGEST = 4096  # a list
MOST_ALIKE = 200  # rules, and functions
LIMITS = [
    (1_000_000, "too costly"),
    (20_000, "too many reads"),
    (2_000, "too many puts"),
    (1_000_000, "too deep"),
]


class Seen(TypedDict):
    """An object as code sees it: its slots, each with whether it can be set, and whether there is a table."""

    slots: dict[str, bool]
    table: bool


Basin = dict[str, Seen]


class Refused(Exception):
    """Why a text is refused, in the words of the error line: at a line, at its end, or at a place of a block."""

    def __init__(
        self, says: str, line: int = 0, scope: Scope | None = None, place: int = 0, misfit: Misfit | None = None
    ) -> None:
        super().__init__(says)
        self.line, self.scope, self.place, self.misfit = line, scope, place, misfit


class Misfit(Exception):
    """Why a place is refused, in the words of the error line; `budget` is one that is above a limit."""

    def __init__(self, says: str, budget: Sequence[int] = ()) -> None:
        super().__init__(says)
        self.budget = budget


# ---- words of a line


def number_in(least: int, most: int) -> Callable[[str], int | None]:
    """What reads a number from least to most, without zeros in front."""

    def read(text: str) -> int | None:
        return int(text) if re.fullmatch("0|[1-9][0-9]{0,17}", text) and least <= int(text) <= most else None

    return read


def quantity_in(text: str) -> int | None:
    """The quantity that a word spells, if it spells one."""
    if not text.startswith("-"):
        return number_in(0, Q)(text)
    number = number_in(1, Q)(text[1:])
    return None if number is None else -number


def truth_in(text: str) -> bool | None:
    """The truth value that a word spells, if it spells one."""
    return {"true": True, "false": False}.get(text)


def name_in(text: str) -> str | None:
    """The name that a word spells, if it is one."""
    return text if re.fullmatch("[A-Za-z_][A-Za-z0-9_]{0,31}", text) else None


def slot_in(text: str) -> tuple[str, str] | None:
    """The names of an object and of a slot, with a point between them."""
    names = [name for part in text.split(".") if (name := name_in(part))]
    return (names[0], names[1]) if len(names) == 2 and text.count(".") == 1 else None


def kind_in(text: str) -> str | None:
    """The kind that a word spells, if it spells one."""
    if text in ("N", "B", "D", "S"):
        return text
    letter, _, length = text.partition("*")
    return text if letter in ("N", "S") and length_in(length) is not None else None


def kinds_in(text: str) -> list[str] | None:
    """The kinds that a word spells, with commas between them, and `-` for none."""
    parts = [] if text == "-" else text.split(",")
    kinds = [kind for part in parts if (kind := kind_in(part)) is not None]
    return kinds if len(kinds) == len(parts) else None


def heading_in(text: str) -> str | None:
    """What stands behind `CODE`."""
    return text if text == "1" else None


count_in = number_in(0, 2**32 - 1)
length_in = number_in(1, LONGEST)
ahead_in = number_in(0, 255)

# ---- lines of a text

ALONE = (
    "now add sub mul div neg shift back between eq lt le deq dlt dle not read known month day year append item"
    " length next yield"
).split()
INSTRUCTIONS: dict[str, Readers] = {word: () for word in ALONE} | {
    "num": (quantity_in,),
    "bool": (truth_in,),
    "slot": (slot_in,),
    "load": (count_in,),
    "store": (count_in,),
    "foreach": (count_in,),
    "map": (count_in,),
    "jump": (count_in,),
    "branch": (count_in,),
    "invoke": (count_in,),
    "toelevation": (name_in,),
    "tostorage": (name_in,),
    "call": (name_in,),
    "list": (length_in,),
    "widen": (length_in,),
    "target": (kinds_in,),
    "put": (slot_in, ahead_in),
}
OTHERS: dict[str, Readers] = {
    "CODE": (heading_in,),
    "RULE": (),
    "FUNCTION": (kind_in, kinds_in),
    "LOCALS": (kinds_in,),
    "END": (),
}
LINES = INSTRUCTIONS | OTHERS

# which words may begin a line at a stage of the text, and the stage behind a word
ALLOWED = {
    "top": ["CODE"],
    "between": ["RULE", "FUNCTION"],
    "headed": ["LOCALS"],
    "inside": ["END", *INSTRUCTIONS],
}
BEHIND = {"CODE": "between", "RULE": "headed", "FUNCTION": "headed", "LOCALS": "inside", "END": "between"}


def said_by(line: str) -> Line | None:
    """What a line says, its word and what is read behind that, if it is a line."""
    word, *texts = line.split(" ")
    if len(LINES.get(word, ())) != len(texts) or word not in LINES:
        return None
    things = [read(text) for read, text in zip(LINES[word], texts)]
    return None if any(thing is None for thing in things) else (word, *things)


def all_said(text: str) -> list[Line]:
    """What the lines of a text say; the first that isn't allowed where it stands is refused."""
    *lines, last = text.split("\n")
    stage = "top"
    says: list[Line] = []
    for number, line in enumerate(lines, 1):
        said = said_by(line)
        if said is None or said[0] not in ALLOWED[stage]:
            raise Refused(f"line {number}: bad line", line=number)
        says.append(said)
        stage = BEHIND.get(said[0], "inside")
    if stage != "between" or last:
        raise Refused("truncated")
    return says


@dataclass
class Block:
    """A rule, or a function with the kinds of its result and of its parameters; `line` is where it begins."""

    is_rule: bool
    line: int
    result: str = ""
    parameters: list[str] = field(default_factory=list)
    further: list[str] = field(default_factory=list)
    lines: list[Line] = field(default_factory=list)

    @property
    def locals(self) -> list[str]:
        """The kinds of its locals, which begin with its parameters."""
        return self.parameters + self.further

    @cached_property
    def loops(self) -> tuple[list[int | None], dict[int, int]]:
        """Where the innermost loop begins that is open at each place, or `None`, and the place behind each loop."""
        starts: list[int | None] = []
        behind: dict[int, int] = {}
        opened: list[tuple[int, str]] = []
        for place, (word, *_) in enumerate(self.lines):
            starts.append(opened[-1][0] if opened else None)
            if word in LOOPS:
                opened.append((place, LOOPS[word]))
            elif word in LOOP_ENDS and opened and opened[-1][1] == LOOP_ENDS[word]:
                behind[opened.pop()[0]] = place + 1
        return starts, behind


def blocks_of(text: str) -> list[Block]:
    """The blocks of a text."""
    blocks: list[Block] = []
    for line, (word, *things) in enumerate(all_said(text), 1):
        if word in ("RULE", "FUNCTION"):
            blocks.append(Block(word == "RULE", line, *things))
        elif word == "LOCALS":
            blocks[-1].further = things[0]
        elif word in INSTRUCTIONS:
            blocks[-1].lines.append((word, *things))
    return blocks


# ---- kinds


def room_of(kind: str) -> int:
    """For how many elements a list of the kind has room."""
    return int(kind[2:]) if "*" in kind else 0


def words_of(kinds: list[str]) -> int:
    """How many words values of these kinds take."""
    return sum(room_of(kind) + 1 for kind in kinds)


def element_of(kind: str) -> str | None:
    """The kind of a list's elements."""
    return kind[0] if "*" in kind else None


def room_on_top(kinds: list[str]) -> int:
    """For how many elements the list on top has room."""
    return room_of(kinds[0]) if kinds else 0


# ---- what each instruction takes, and what it leaves in its place, last one first

PLAIN: dict[str, tuple[list[str], list[str]]] = {
    "num": ([], ["N"]),
    "bool": ([], ["B"]),
    "now": ([], ["D"]),
    "slot": ([], ["S"]),
    "neg": (["N"], ["N"]),
    "shift": (["N", "D"], ["D"]),
    "back": (["N", "D"], ["D"]),
    "between": (["D", "D"], ["N"]),
    "not": (["B"], ["B"]),
    "read": (["D", "S"], ["N"]),
    "known": (["D", "S"], ["B"]),
    "toelevation": (["N"], ["N"]),
    "tostorage": (["N"], ["N"]),
    "branch": (["B"], []),
    "next": ([], []),
    "yield": (["N"], []),
    "put": (["N"], []),
}
PLAIN |= {word: (["N", "N"], ["N"]) for word in ("add", "sub", "mul", "div")}
PLAIN |= {word: (["N", "N"], ["B"]) for word in ("eq", "lt", "le")}
PLAIN |= {word: (["D", "D"], ["B"]) for word in ("deq", "dlt", "dle")}
PLAIN |= {word: (["D"], ["N"]) for word in ("month", "day", "year")}


def taken_by(scope: Scope, word: str, *things: Any) -> tuple[int, Leaves]:
    """How many operands an instruction takes, and what gives those in their place, or None for a wrong one."""
    if word in PLAIN:
        return plain(*PLAIN[word])
    if word == "call":
        return plain(["N"] * PREDEFINED[things[0]], ["N"])
    if word == "invoke":
        called = scope.blocks[things[0] - 1]
        return plain(called.parameters[::-1], [called.result])
    if word in ("load", "store"):
        return of_local(scope, word, things[0])
    return of_list(word, *things)


def plain(takes: list[str], leaves: list[str]) -> tuple[int, Leaves]:
    """Operands of these kinds, and what is left in their place."""
    return len(takes), lambda kinds: leaves if kinds == takes else None


def of_local(scope: Scope, word: str, local: int) -> tuple[int, Leaves]:
    """The same of an instruction on a local. Where there is none, the shape is wrong."""
    if local < len(scope.block.locals):
        kind = scope.block.locals[local]
        return plain([], [kind]) if word == "load" else plain([kind], [])

    def missing(kinds: list[str]) -> NoReturn:
        raise Misfit("wrong shape")

    return (0 if word == "load" else 1), missing


def of_list(word: str, *things: Any) -> tuple[int, Leaves]:
    """The same of an instruction that makes a list or takes one."""
    if word == "list":
        return things[0], lambda kinds: listed(things[0], kinds)
    if word == "append":
        return 2, appended
    if word == "widen":
        return 1, lambda kinds: widened(things[0], kinds[0])
    if word == "item":
        return 2, picked
    left = ["N"] if word == "length" else []  # `foreach` and `map` leave nothing
    return 1, lambda kinds: left if element_of(kinds[0]) else None


def listed(length: int, kinds: list[str]) -> list[str] | None:
    """A list of elements of one kind."""
    return [f"{kinds[0]}*{length}"] if kinds[0] in ("N", "S") and set(kinds) == {kinds[0]} else None


def appended(kinds: list[str]) -> list[str] | None:
    """A list with room for one more, of an element on top of a list."""
    item, items = kinds
    if element_of(items) != item or room_of(items) == LONGEST:
        return None
    return [f"{item}*{room_of(items) + 1}"]


def widened(room: int, kind: str) -> list[str] | None:
    """A list with room for so many, of one that has no more."""
    return [f"{kind[0]}*{room}"] if element_of(kind) and room_of(kind) <= room else None


def picked(kinds: list[str]) -> list[str] | None:
    """An item, of a place on top of a list."""
    place, items = kinds
    element = element_of(items)
    return [element] if place == "N" and element else None


# ---- names


@dataclass
class Scope:
    """What a block is judged against: the basin, all blocks, its number, counted from 1, and how far ahead it puts."""

    basin: Basin
    blocks: list[Block]
    number: int
    ahead: int = 0

    @property
    def block(self) -> Block:
        """The block itself."""
        return self.blocks[self.number - 1]


def judge_names(scope: Scope, word: str, *things: Any) -> None:
    """Refuses what is wrong with the names of an instruction."""
    if word == "slot":
        slot_named(scope, *things)
    elif word == "put":
        judge_put(scope, *things)
    elif word in ("toelevation", "tostorage"):
        if things[0] not in scope.basin or not scope.basin[things[0]]["table"]:
            raise Misfit("no such name")
    elif word == "call":
        if things[0] not in PREDEFINED:
            raise Misfit("no such name")
    elif word == "invoke":
        judge_invoke(scope, *things)


def slot_named(scope: Scope, slot: tuple[str, str]) -> bool:
    """Whether a slot can be set, by its names."""
    slots = scope.basin[slot[0]]["slots"] if slot[0] in scope.basin else {}
    if slot[1] not in slots:
        raise Misfit("no such name")
    return slots[slot[1]]


def judge_put(scope: Scope, slot: tuple[str, str], ahead: int) -> None:
    """Refuses a put by its slot, its block and its timestep."""
    if not slot_named(scope, slot):
        raise Misfit("not settable")
    if not scope.block.is_rule:
        raise Misfit("put in function")
    if ahead > scope.ahead:
        raise Misfit("target step")


def judge_invoke(scope: Scope, number: int) -> None:
    """Refuses a call of what is no function, or no earlier one."""
    if not 1 <= number <= len(scope.blocks) or scope.blocks[number - 1].is_rule:
        raise Misfit("no such name")
    if number >= scope.number:
        raise Misfit("later call")


# ---- the places of a block

LOOPS = {"foreach": "visiting", "map": "mapping"}
LOOP_ENDS = {"next": "visiting", "yield": "mapping"}


def declared_at(lines: list[Line], place: int) -> list[str] | None:
    """What the target at a place declares, last one first, if there is one."""
    if place < len(lines) and lines[place][0] == "target":
        kinds: list[str] = lines[place][1]
        return kinds[::-1]
    return None


# ---- what fits


@dataclass
class Loop:
    """An open loop: where it begins, its sort, the room of its list, and the operands under that."""

    start: int
    sort: str
    room: int
    under: list[str]


@dataclass
class Before:
    """What is before a place: the operands' kinds, last one first, and the open loops, outermost first."""

    kinds: list[str]
    loops: list[Loop]


def behind(scope: Scope, place: int, before: Before) -> Before:
    """What is behind the instruction at a place, or its misfit."""
    word, *things = scope.block.lines[place]
    judge_names(scope, word, *things)
    if word == "jump":
        return jumped(scope, place, before, *things)
    if word == "branch":
        return branched(scope, place, before, *things)
    if word == "target":
        return carried(things[0][::-1], before)
    if word in LOOPS:
        return opened(scope, place, before, *things)
    if word in LOOP_ENDS:
        return closed(scope, place, before)
    return taken(scope, place, before)


def taken(scope: Scope, place: int, before: Before) -> Before:
    """The instruction takes its operands and leaves others: first they are counted, then their kinds count."""
    count, left_for = taken_by(scope, *scope.block.lines[place])
    if len(before.kinds) < count:
        raise Misfit("missing operand")
    left = left_for(before.kinds[:count])
    if left is None:
        raise Misfit("wrong operand")
    return Before(left + before.kinds[count:], before.loops)


def carried(declared: list[str], before: Before) -> Before:
    """The operands are those that are declared where they are carried to."""
    if before.kinds != declared:
        raise Misfit("wrong shape")
    return before


def found(scope: Scope, place: int, before: Before, to: int) -> list[str]:
    """What is declared where a jump lands."""
    if to <= place:
        raise Misfit("backward jump")
    declared = declared_at(scope.block.lines, to)
    here = before.loops[-1].start if before.loops else None
    if declared is None or scope.block.loops[0][to] != here:
        raise Misfit("jump outside")
    return declared


def jumped(scope: Scope, place: int, before: Before, to: int) -> Before:
    """A jump carries the operands; what is behind it is what the target there declares."""
    carried(found(scope, place, before, to), before)
    declared = declared_at(scope.block.lines, place + 1)
    if declared is None:
        raise Misfit("wrong shape")
    return Before(declared, before.loops)


def branched(scope: Scope, place: int, before: Before, to: int) -> Before:
    """A branch takes its truth value, and carries the others."""
    declared = found(scope, place, before, to)
    return carried(declared, taken(scope, place, before))


def opened(scope: Scope, place: int, before: Before, local: int) -> Before:
    """A loop over the list on top, whose element a local of its kind holds."""
    after = taken(scope, place, before)
    kinds = scope.block.locals
    if local >= len(kinds) or kinds[local] != element_of(before.kinds[0]):
        raise Misfit("wrong shape")
    loop = Loop(place, LOOPS[scope.block.lines[place][0]], room_on_top(before.kinds), after.kinds)
    return Before(after.kinds, before.loops + [loop])


def closed(scope: Scope, place: int, before: Before) -> Before:
    """The end of the innermost loop, with the operands under its list; a mapping leaves its list on them."""
    after = taken(scope, place, before)
    sort = LOOP_ENDS[scope.block.lines[place][0]]
    if not after.loops or after.loops[-1].sort != sort or after.loops[-1].under != after.kinds:
        raise Misfit("wrong shape")
    made = [f"N*{after.loops[-1].room}"] if sort == "mapping" else []
    return Before(made + after.kinds, after.loops[:-1])


def ended(scope: Scope, before: Before) -> Before:
    """At the end no loop is open, and there are no operands but a function's result."""
    if before.loops:
        raise Misfit("wrong shape")
    return carried([] if scope.block.is_rule else [scope.block.result], before)


def refused_at(
    scope: Scope, at: int, judge: Callable[Things, Judged], *things: Things.args, **named: Things.kwargs
) -> Judged:
    """What is judged of a place of the block; its misfit is refused there."""
    try:
        return judge(*things, **named)
    except Misfit as misfit:
        says = f"block {scope.number} place {at}: {misfit}"
        raise Refused(says, scope=scope, place=at, misfit=misfit) from None


def judge_alike(scope: Scope) -> None:
    """Refuses a rule or a function too many."""
    alike = [block for block in scope.blocks[: scope.number - 1] if block.is_rule == scope.block.is_rule]
    if len(alike) >= MOST_ALIKE:
        raise Misfit("too many")


def befores_of(scope: Scope) -> list[Before]:
    """What is before each place of a block, and at its end."""
    befores = [Before([], [])]
    for place in range(len(scope.block.lines)):
        befores.append(refused_at(scope, place, behind, scope, place, befores[-1]))
    refused_at(scope, len(scope.block.lines), ended, scope, befores[-1])
    return befores


# ---- budgets: what an instruction comes to by itself, with the function that it calls


def count_of(scope: Scope, budgets: list[list[int]], before: Before, word: str, *things: Any) -> int:
    """How much an instruction counts."""
    if word in ("load", "store"):
        return words_of([scope.block.locals[things[0]]])
    if word == "append":
        return room_on_top(before.kinds[1:]) + 2
    if word in ("list", "widen"):
        length: int = things[0]
        return length + 1
    if word == "invoke":
        block: Block = scope.blocks[things[0] - 1]
        return 1 + words_of(block.parameters) + of_called(budgets, things[0])[0]
    return 1


def of_called(budgets: list[list[int]], number: int) -> list[int]:
    """The budgets of a block by its number."""
    return budgets[number - 1]


def looks_of(scope: Scope, budgets: list[list[int]], before: Before, word: str, *things: Any) -> int:
    """How often an instruction looks."""
    return of_called(budgets, things[0])[1] if word == "invoke" else int(word in ("read", "known"))


def puts_of(scope: Scope, budgets: list[list[int]], before: Before, word: str, *things: Any) -> int:
    """How often an instruction puts."""
    return of_called(budgets, things[0])[2] if word == "invoke" else int(word == "put")


def words_before(scope: Scope, before: Before) -> int:
    """The words that are kept before a place: those of the locals, the operands and the open loops."""
    loops = sum(loop.room + 3 if loop.sort == "visiting" else 2 * loop.room + 4 for loop in before.loops)
    return words_of(scope.block.locals) + words_of(before.kinds) + loops


def words_at(scope: Scope, budgets: list[list[int]], before: Before, word: str, *things: Any) -> int:
    """The words that are kept at an instruction."""
    return words_before(scope, before) + (of_called(budgets, things[0])[3] if word == "invoke" else 0)


# ---- budgets: the most of all ways through a block


def most_of(
    scope: Scope,
    befores: list[Before],
    price: Callable[..., int],
    at_end: int,
    joined: Callable[[int, int], int],
    repeated: Callable[[int, int], int],
) -> int:
    """The most that there is from the first place on; it is found for the last place first."""
    lines, most = scope.block.lines, {len(scope.block.lines): at_end}
    for place in reversed(range(len(lines))):
        word, *things = lines[place]
        mine = price(befores[place], word, *things)
        if word == "jump":
            most[place] = joined(mine, most[things[0]])
        elif word == "branch":
            most[place] = joined(mine, max(most[place + 1], most[things[0]]))
        elif word in LOOPS:
            turns = repeated(room_on_top(befores[place].kinds), most[place + 1])
            most[place] = joined(mine, joined(turns, most[scope.block.loops[1][place]]))
        elif word in LOOP_ENDS:
            most[place] = mine
        else:
            most[place] = joined(mine, most[place + 1])
    return most[0]


def summed(scope: Scope, befores: list[Before], budgets: list[list[int]], price: Callable[..., int]) -> int:
    """The most of a way, where what its instructions come to is added up."""

    def mine(before: Before, *instruction: Any) -> int:
        return price(scope, budgets, before, *instruction)

    return most_of(scope, befores, mine, 0, lambda a, b: a + b, lambda room, a: room * a)


def at_a_time(scope: Scope, befores: list[Before], budgets: list[list[int]]) -> int:
    """The most words that are kept at one time."""

    def mine(before: Before, *instruction: Any) -> int:
        return words_at(scope, budgets, before, *instruction)

    at_end = words_before(scope, befores[-1])
    return most_of(scope, befores, mine, at_end, lambda a, b: max(a, b), lambda room, a: a)


def budget_of(scope: Scope, befores: list[Before], budgets: list[list[int]]) -> list[int]:
    """The four budgets of a block, by those of the blocks before it; the first above its limit is refused."""
    budget = [summed(scope, befores, budgets, price) for price in (count_of, looks_of, puts_of)]
    budget.append(at_a_time(scope, befores, budgets))
    for part, (limit, misfit) in zip(budget, LIMITS):
        if part > limit:
            raise Misfit(misfit, budget)
    return budget


# ---- code


def ruling(basin: Basin, blocks: list[Block], ahead: int = 0) -> list[list[int]]:
    """The budgets of all blocks, or the first refusal: a block is judged whole before the next one is."""
    budgets: list[list[int]] = []
    for number, block in enumerate(blocks, 1):
        scope = Scope(basin, blocks, number, ahead)
        refused_at(scope, 0, judge_alike, scope)
        befores = befores_of(scope)
        budgets.append(refused_at(scope, len(block.lines), budget_of, scope, befores, budgets))
    return budgets


def check_text(blocks: list[Block], budgets: list[list[int]]) -> str:
    """The lines that `check` writes of accepted code."""
    rules = [budget for block, budget in zip(blocks, budgets) if block.is_rule]
    lines = [f"ok {len(rules)} rules {len(blocks) - len(rules)} functions"]
    for rule, (count, looks, puts, words) in enumerate(rules, 1):
        lines.append(f"rule {rule} instructions {count} reads {looks} puts {puts} words {words}")
    return "".join(line + "\n" for line in lines)


def answer(basin: Basin, text: str) -> tuple[int, str, str]:
    """What `check` answers of a text whose first line is `CODE 1`: status, output and error stream."""
    try:
        blocks = blocks_of(text)
        return 0, check_text(blocks, ruling(basin, blocks)), ""
    except Refused as refused:
        return 9, "", f"basin: code: {refused}\n"
