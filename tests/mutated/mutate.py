#!/usr/bin/env python3
"""Mutated code files. `mutate.py NUMBER` writes the text of that number, which is the same each time.

Seeds are the code texts of tests/tables/code-files.txt and of seeds.txt, which has longer ones, some of them
at a limit and some right above it. In both ` | ` is an end of line, and `«3 x »` stands for `x x x `. A text is
a seed with one to three changes, of lines, of numbers, of kinds, of names, of places of jumps, and seldom of
any word or byte. Its first line stays: where that isn't `CODE 1`, a text is a ruleset.
"""

import random
import re
import sys
from collections.abc import Iterator, Sequence
from pathlib import Path
from typing import TypeVar

HERE = Path(__file__).resolve().parent
TABLE = HERE.parent / "tables" / "code-files.txt"

KINDS = "N B D S N*1 N*2 N*3 N*9 N*12 S*1 S*2 S*3 N*4096".split()
ODD_KINDS = "- B*2 N*0 N*4097 n".split()
ODD_NUMBERS = [0, 255, 256, 4095, 4096, 4097, 2**32 - 1, 2**32, 10**17, 10**17 + 1]
SLOTS = (
    "Dam.Inflow Dam.Outflow Dam.Storage Dam.Release Dam.Spill Dam.PoolElevation Lake.PoolElevation Lake.Inflow"
    " Lake.Spill Plan.Count Plan.Level Plan.Nothing Sea.Inflow Dam.9"
).split() + ["Dam." + "x" * 32, "x" * 33 + ".Inflow"]
NAMES = "Min Max Abs Clamp RoundDown Sign MulDiv Twice Dam Lake Plan Sea _ 9".split() + ["x" * 32, "x" * 33]

# lines that leave the operands as they are, the last two only where there are none; `@` is a local of its own
# for a number, and `+4` the place of the line that is the fourth behind the piece's first one
PIECES = [
    ["num 3", "put Plan.Count 0"],
    ["slot Dam.Inflow", "now", "read", "put Dam.Outflow 0"],
    ["slot Lake.Storage", "now", "num 1", "back", "read", "put Plan.Target 0"],
    ["load @", "store @"],
    ["num 4", "num 5", "list 2", "foreach @", "load @", "put Plan.Count 0", "next"],
    ["num 4", "list 1", "widen 9", "map @", "load @", "load @", "mul", "yield", "length", "store @"],
    ["num 4", "list 1", "num 5", "append", "foreach @", "next"],
    ["num 6", "invoke 1", "store @"],
    ["num 6", "tostorage Lake", "store @"],
    ["now", "month", "now", "day", "call Max", "store @"],
    ["slot Dam.Inflow", "now", "known", "branch +6", "num 1", "store @", "target -"],
    "load @|num 1|le|branch +7|num 1|store @|jump +10|target -|num 2|store @|target -".split("|"),
]


# ---- seeds


def repeated(text: str) -> str:
    """A text with its ends of lines and its repetitions written out."""
    text = text.replace(" | ", "\n")
    return re.sub("«([0-9]+) ([^»]*)»", lambda found: int(found[1]) * found[2], text) + "\n"


def table_cases() -> Iterator[tuple[str, str]]:
    """The texts of the table of code files, each with what has to be said of it."""
    model, cases = TABLE.read_text().split("--- code\n")
    for case in cases.splitlines():
        text, _, said = case.rpartition("=> ")
        yield repeated(text.removesuffix(" ")), said.replace(" | ", "\n")


def seeds() -> tuple[list[str], list[str]]:
    """The seeds: all of them, and those that are accepted or nearly so, with the longer ones four times."""
    cases = list(table_cases())
    longer = [repeated(line) for line in (HERE / "seeds.txt").read_text().splitlines()]
    accepted = [text for text, said in cases if said.startswith("ok")]
    return [text for text, _ in cases] + longer, accepted + 4 * longer


# ---- draws


Thing = TypeVar("Thing")


class Draw(random.Random):
    """Draws by `random` alone, whose sequence is the same in each version of Python."""

    def below(self, limit: int) -> int:
        """A number from 0 to below a limit."""
        return int(self.random() * limit)

    def one(self, things: Sequence[Thing]) -> Thing:
        """One of some things."""
        return things[self.below(len(things))]


# ---- places in the lines behind the first one


def block_start(lines: list[str], at: int) -> int:
    """Where the first instruction of the block stands in which a line is."""
    return max([k for k in range(at) if lines[k].startswith("LOCALS")], default=0) + 1


def inside(draw: Draw, lines: list[str], with_end: bool) -> int:
    """A line of an instruction or, for what is put before it, of an end."""
    found = [k for k, line in enumerate(lines) if line[:1].islower() or (with_end and line == "END")]
    return draw.one(found) if found else 0


def places_shifted(lines: list[str], at: int, by: int) -> None:
    """Moves the places from a line on by so much in the jumps of its block."""
    first = block_start(lines, at)
    last = next((k for k in range(at, len(lines)) if lines[k] == "END"), len(lines))
    for k in range(first, last):
        found = re.fullmatch("(jump|branch) ([0-9]{1,9})", lines[k])
        if found and int(found[2]) >= at - first:
            lines[k] = f"{found[1]} {int(found[2]) + by}"


def put_before(draw: Draw, lines: list[str], at: int, piece: list[str]) -> None:
    """Lines more before a line, mostly with the places of jumps moved along."""
    if draw.below(6):
        places_shifted(lines, at, len(piece))
    place = at - block_start(lines, at)
    lines[at:at] = [re.sub("[+]([0-9]+)", lambda found: str(place + int(found[1])), line) for line in piece]


def local_of_its_own(lines: list[str], at: int) -> int:
    """The number of a local more, for a number, of the block in which a line is."""
    k = block_start(lines, at) - 1
    head, locals_ = lines[k - 1].split(" "), lines[k].removeprefix("LOCALS ")
    lines[k] = "LOCALS N" if locals_ == "-" else f"LOCALS {locals_},N"
    return sum(len(kinds.split(",")) for kinds in (locals_, *head[2:]) if kinds != "-")


# ---- changes that keep lines what they are


def drop_line(draw: Draw, lines: list[str]) -> None:
    """One instruction less."""
    at = inside(draw, lines, False)
    if draw.below(2):
        places_shifted(lines, at + 1, -1)
    del lines[at]


def double_line(draw: Draw, lines: list[str]) -> None:
    """One instruction twice."""
    at = inside(draw, lines, False)
    put_before(draw, lines, at, [lines[at]])


def swap_lines(draw: Draw, lines: list[str]) -> None:
    """Two instructions exchanged, mostly neighbours."""
    a = inside(draw, lines, False)
    b = inside(draw, lines, False) if draw.below(3) == 0 else min(a + 1, len(lines) - 1)
    lines[a], lines[b] = lines[b], lines[a]


def instruction(draw: Draw) -> str:
    """An instruction of a seed."""
    lines = draw.one(ALL).splitlines()
    return lines[inside(draw, lines, False)]


def other_line(draw: Draw, lines: list[str]) -> None:
    """An instruction of a seed in the place of another."""
    lines[inside(draw, lines, False)] = instruction(draw)


def more_line(draw: Draw, lines: list[str]) -> None:
    """An instruction of a seed more."""
    put_before(draw, lines, inside(draw, lines, True), [instruction(draw)])


def more_piece(draw: Draw, lines: list[str]) -> None:
    """A piece more that leaves the operands as they are."""
    piece, at = draw.one(PIECES), inside(draw, lines, True)
    if "@" in "".join(piece):
        number = local_of_its_own(lines, at)
        piece = [line.replace("@", str(number)) for line in piece]
    put_before(draw, lines, at, piece)


def more_blocks(draw: Draw, lines: list[str]) -> None:
    """The blocks of another seed before these, mostly with their calls moved along."""
    blocks = draw.one(ACCEPTED).splitlines()[1:]
    count = blocks.count("END") if draw.below(4) else 0
    for k, line in enumerate(lines):
        found = re.fullmatch("invoke ([0-9]{1,9})", line)
        lines[k] = f"invoke {int(found[1]) + count}" if found else line
    lines[:0] = blocks


def in_loop(draw: Draw, lines: list[str]) -> None:
    """A loop around some instructions of a block."""
    start = inside(draw, lines, True)
    end = start
    while lines[end] != "END" and end + 1 < len(lines) and draw.below(6):
        end += 1
    loop, loop_end = draw.one([("foreach", "next"), ("foreach", "next"), ("map", "yield"), ("map", "next")])
    number = local_of_its_own(lines, start)
    closing = [loop_end] if loop_end == "next" else ["num 3", loop_end, "length", f"store {number}"]
    put_before(draw, lines, end, closing)
    put_before(draw, lines, start, ["num 1", "list 1", f"widen {1 + draw.below(40)}", f"{loop} {number}"])


def matching(draw: Draw, lines: list[str], pattern: str) -> tuple[int, re.Match[str] | None]:
    """A line in which a pattern is found, and one place where it is; nothing where none is."""
    found = [at for at, line in enumerate(lines) if re.search(pattern, line)]
    if not found:
        return 0, None
    at = draw.one(found)
    return at, draw.one(list(re.finditer(pattern, lines[at])))


def replaced(lines: list[str], at: int, found: re.Match[str], text: str) -> None:
    """Puts a text where a pattern was found."""
    lines[at] = lines[at][: found.start()] + text + lines[at][found.end() :]


def number_by_one(draw: Draw, lines: list[str]) -> None:
    """A number that is one more or less, or seldom another."""
    at, found = matching(draw, lines, "[0-9]+")
    if found:
        near = max(0, int(found[0]) + draw.one([-1, 1]))
        replaced(lines, at, found, str(near if draw.below(12) else draw.one(ODD_NUMBERS)))


def other_kind(draw: Draw, lines: list[str]) -> None:
    """Another kind in a line of kinds."""
    at, found = matching(draw, lines, "(?<=[ ,])[NBDS]([*][0-9]+)?(?=,|$| )")
    if found:
        replaced(lines, at, found, draw.one(KINDS if draw.below(12) else ODD_KINDS))


def more_kind(draw: Draw, lines: list[str]) -> None:
    """A kind more in a line of kinds, at the end."""
    at, found = matching(draw, lines, "(?<=^LOCALS ).*|(?<=^target ).*|(?<=^FUNCTION N ).*")
    if found:
        replaced(lines, at, found, ",".join([found[0]] * (found[0] != "-") + [draw.one(KINDS)]))


def other_name(draw: Draw, lines: list[str]) -> None:
    """Another slot, object or predefined function."""
    names = "(?<= )[A-Z][a-z]+[.][A-Za-z]+|(?<=^call ).*|(?<=^toelevation ).*|(?<=^tostorage ).*"
    at, found = matching(draw, lines, names)
    if found:
        replaced(lines, at, found, draw.one(SLOTS if "." in found[0] else NAMES))


def other_place(draw: Draw, lines: list[str]) -> None:
    """Another place to jump to: that of a target, or any."""
    at, found = matching(draw, lines, "(?<=^jump )[0-9]+|(?<=^branch )[0-9]+")
    if found:
        first = block_start(lines, at)
        targets = [k - first for k in range(at, len(lines)) if lines[k].startswith("target")]
        place = draw.one(targets or [0]) if draw.below(3) else draw.below(len(lines) + 2)
        replaced(lines, at, found, str(place))


# ---- changes that may spoil lines


def any_line(draw: Draw, lines: list[str]) -> None:
    """A line dropped, doubled, or exchanged with another or with one of a seed."""
    at, how = draw.below(len(lines)), draw.below(4)
    if how == 0:
        del lines[at]
    elif how == 1:
        lines.insert(at, lines[at])
    elif how == 2:
        other = draw.below(len(lines))
        lines[at], lines[other] = lines[other], lines[at]
    else:
        lines[at] = draw.one(draw.one(ALL).splitlines())


def any_word(draw: Draw, lines: list[str]) -> None:
    """A word of a line dropped, doubled, exchanged with another, or another one."""
    at = draw.below(len(lines))
    words = lines[at].split(" ")
    k, how = draw.below(len(words)), draw.below(4)
    if how == 0:
        del words[k]
    elif how == 1:
        words.insert(k, words[k])
    elif how == 2:
        words[0], words[k] = words[k], words[0]
    else:
        words[k] = draw.one(draw.one(draw.one(ALL).splitlines()).split(" "))
    lines[at] = " ".join(words)


def any_byte(draw: Draw, text: str) -> str:
    """A byte dropped, doubled or exchanged, or the text cut off there."""
    at, how = draw.below(len(text)), draw.below(4)
    behind = text[at + 1 :]
    return text[:at] + [behind, 2 * text[at] + behind, draw.one("\n N0-,*.\t\xff\r\0") + behind, ""][how]


KEEPING = (
    [drop_line, double_line, swap_lines, other_line, more_line, other_kind, more_kind, other_name]
    + 2 * [in_loop, more_blocks, other_place]
    + 4 * [number_by_one, more_piece]
)
SPOILING = [any_line, any_word]

# ---- texts

ALL, ACCEPTED = seeds()


def text_of(number: int) -> str:
    """The mutated text of a number."""
    draw = Draw(number)
    first, *lines = draw.one(ACCEPTED if draw.below(4) else ALL).splitlines()
    for _ in range(1 + draw.below(3)):
        if "END" in lines and lines[0].isupper():
            draw.one(KEEPING)(draw, lines)
    if lines and draw.below(10) == 0:
        draw.one(SPOILING)(draw, lines)
    text = "".join(line + "\n" for line in lines)
    if text and draw.below(20) == 0:
        text = any_byte(draw, text)
    return first + "\n" + text


def texts(count: int) -> dict[str, int]:
    """The first so many texts that aren't the same, each with its number."""
    numbers: dict[str, int] = {}
    number = 0
    while len(numbers) < count:
        number += 1
        numbers.setdefault(text_of(number), number)
    return numbers


if __name__ == "__main__":
    if len(sys.argv) != 2 or not sys.argv[1].isdecimal():
        sys.exit(__doc__)
    sys.stdout.buffer.write(text_of(int(sys.argv[1])).encode("latin-1"))
