#!/usr/bin/env python3
"""Mutated rulesets. `rulesets.py NUMBER` writes the text of that number, which is the same each time.

Seeds are the rulesets of tests/tables/rules-*.txt, which have one model, those that are accepted seven times. A text
is one to three seeds in a row with one to three changes: of a token, of a few tokens, of a number, a unit, a slot or
a name, and seldom of any byte.
"""

import random
import re
import sys
from collections.abc import Iterator, Sequence
from pathlib import Path
from typing import TypeVar

HERE = Path(__file__).resolve().parent
TABLES = sorted((HERE.parent / "tables").glob("rules-*.txt"))
LONGEST = 3_000  # a seed, in bytes: the longer ones of the tables are at limits, and are tried there

TOKEN = re.compile(r'"[^"\n]*"|#[^\n]*|[A-Za-z_][A-Za-z0-9_]*|[0-9]+|:=|<>|<=|>=|\s+|.', re.DOTALL)
UNITS = "m3 dam3 Mm3 mm m step m3/step dam3/step mm/step m3/mm kWh".split() + ["", "m3/s"]
SLOTS = (
    "Dam.Inflow Dam.Outflow Dam.Storage Dam.Release Dam.Spill Lake.PoolElevation Lake.Inflow Lake.Storage Plan.Count"
    " Plan.Level Plan.Target Plan.Least Plan.Days Plan.Nothing Sea.Inflow"
).split()
NAMES = "Min Max Abs Clamp RoundDown Sign MulDiv Twice f g x y a t Dam Lake Plan Sea".split()
NUMBERS = "0 1 2 3 4095 4096 4097 100000000000000000 100000000000000001".split()
WORDS = (
    "IF THEN ELSE ENDIF WITH DO ENDWITH LET IN ENDLET FOR ENDFOR MAP ENDMAP AND OR NOT TRUE FALSE KNOWN APPEND ITEM"
    " LENGTH MONTH DAY YEAR ENDRULE RULE FUNCTION ENDFUNCTION IS NUMERIC BOOLEAN DATETIME SLOT LIST OF t := ; , . ( ) {"
    " } [ ] + - * / = <> < <= > >="
).split()


Thing = TypeVar("Thing")


class Draw(random.Random):
    """Draws by `random` alone, whose sequence is the same in each version of Python."""

    def below(self, limit: int) -> int:
        """A number from 0 to below a limit."""
        return int(self.random() * limit)

    def one(self, things: Sequence[Thing]) -> Thing:
        """One of some things."""
        return things[self.below(len(things))]


# ---- seeds


def bytes_of(text: str) -> bytes:
    """The bytes of a text."""
    return text.encode("utf-8", "surrogateescape")


def table_cases() -> Iterator[tuple[str, str]]:
    """The rulesets of the tables, each with what has to be said of it."""
    for table in TABLES:
        _, cases = table.read_bytes().decode("utf-8", "surrogateescape").split("--- rules\n")
        for case in cases.split("\n")[:-1]:
            text, _, said = case.rpartition("=> ")
            text = text.removesuffix(" ").replace(" | ", "\n")
            yield re.sub("«([0-9]+) ([^»]*)»", lambda found: int(found[1]) * found[2], text) + "\n", said


def model_text() -> bytes:
    """The model of the tables."""
    return TABLES[0].read_bytes().split(b"--- rules\n")[0]


def seeds() -> list[str]:
    """The seeds, those that are accepted four times."""
    cases = [(text, said) for text, said in table_cases() if len(text) <= LONGEST]
    accepted = [text for text, said in cases if said.startswith("ok")]
    return [text for text, _ in cases] + 6 * accepted


SEEDS = seeds()

# ---- changes of a list of tokens


def place(draw: Draw, tokens: list[str], pattern: str) -> int | None:
    """The place of a token that a pattern matches, or `None`."""
    found = [at for at, token in enumerate(tokens) if re.fullmatch(pattern, token)]
    return draw.one(found) if found else None


def exchange(draw: Draw, tokens: list[str], pattern: str, others: list[str]) -> None:
    """A token that a pattern matches becomes another one."""
    at = place(draw, tokens, pattern)
    if at is not None:
        tokens[at] = draw.one(others)


def other_number(draw: Draw, tokens: list[str]) -> None:
    """Another number: one more or less, or an odd one."""
    at = place(draw, tokens, "[0-9]+")
    if at is not None:
        near = max(0, int(tokens[at]) + draw.one([-1, 1]))
        tokens[at] = str(near) if draw.below(3) else draw.one(NUMBERS)


def other_unit(draw: Draw, tokens: list[str]) -> None:
    """Another unit, one more, or one less."""
    at = place(draw, tokens, '"[^"]*"' if draw.below(3) else "[0-9]+")
    if at is None:
        return
    unit = f'"{draw.one(UNITS)}"'
    tokens[at] = unit if tokens[at].startswith('"') else f"{tokens[at]} {unit}"
    if not draw.below(6):
        tokens[at] = " "


def other_slot(draw: Draw, tokens: list[str]) -> None:
    """Another slot."""
    at = place(draw, tokens, "[.]")
    if at is not None and 0 < at < len(tokens) - 1:
        tokens[at - 1 : at + 2] = [draw.one(SLOTS)]


def other_name(draw: Draw, tokens: list[str]) -> None:
    """Another name."""
    exchange(draw, tokens, "[A-Za-z_][A-Za-z0-9_]*", NAMES)


def other_word(draw: Draw, tokens: list[str]) -> None:
    """Another word or sign."""
    exchange(draw, tokens, r"[A-Z]+|[^\sA-Za-z0-9]+", WORDS)


def operator(draw: Draw, tokens: list[str]) -> None:
    """Another operator."""
    exchange(draw, tokens, r"[-+*/=<>]+|AND|OR", "+ - * / = <> < <= > >= AND OR".split())


def drop(draw: Draw, tokens: list[str]) -> None:
    """A token less."""
    del tokens[draw.below(len(tokens))]


def double(draw: Draw, tokens: list[str]) -> None:
    """A token twice."""
    at = draw.below(len(tokens))
    tokens.insert(at, f"{tokens[at]} ")


def swap(draw: Draw, tokens: list[str]) -> None:
    """Two tokens exchanged."""
    a, b = draw.below(len(tokens)), draw.below(len(tokens))
    tokens[a], tokens[b] = tokens[b], tokens[a]


def more(draw: Draw, tokens: list[str]) -> None:
    """A word, a sign or a name more."""
    tokens.insert(draw.below(len(tokens) + 1), f" {draw.one(draw.one([WORDS, NAMES, SLOTS, NUMBERS]))} ")


def wrapped(draw: Draw, tokens: list[str]) -> None:
    """A form around a number or a name."""
    at = place(draw, tokens, "[0-9]+|[a-z_]+")
    if at is not None:
        forms = ["(_)", "-_", "NOT _", "_ + 1", "{_}", "Abs(_)", "Sign(_)", "LENGTH(_)", "ITEM({_}, 1)", "MONTH(_)"]
        forms += ["LET z := _ IN z ENDLET", "IF TRUE THEN _ ELSE _ ENDIF", "FOR z IN {_} WITH s := _ DO s + z ENDFOR"]
        forms += ["ITEM(MAP z IN {_} DO z ENDMAP, 1)", "APPEND({_}, _)", "_[t]", "_ * _", "_ = _", "_ AND _"]
        tokens[at] = draw.one(forms).replace("_", tokens[at])


CHANGES = [drop, double, swap, more, other_word] + 3 * [other_number, other_unit, other_slot, other_name, operator]
CHANGES += 8 * [wrapped] + 3 * [other_number, operator]

# ---- texts


def any_byte(draw: Draw, text: str) -> str:
    """A byte dropped, doubled or exchanged, or the text cut off there."""
    at, how = draw.below(len(text)), draw.below(4)
    behind = text[at + 1 :]
    return text[:at] + [behind, 2 * text[at] + behind, draw.one('\n"#@;\t\xff\r\0') + behind, ""][how]


def text_of(number: int) -> str:
    """The mutated text of a number."""
    draw = Draw(number)
    text = "".join(draw.one(SEEDS) for _ in range(draw.one([1, 1, 1, 2, 2, 3])))
    tokens = TOKEN.findall(text)
    for _ in range(draw.one([1, 1, 2, 3])):
        if tokens:
            draw.one(CHANGES)(draw, tokens)
    text = "".join(tokens)
    return any_byte(draw, text) if text and draw.below(20) == 0 else text


def texts(count: int) -> dict[str, int]:
    """The first so many texts that aren't the same, each with its number."""
    numbers: dict[str, int] = {}
    number = 0
    while len(numbers) < count:
        number += 1
        numbers.setdefault(text_of(number), number)
    return numbers


if __name__ == "__main__":
    if len(sys.argv) != 2 or not sys.argv[1].isdecimal():
        sys.exit(__doc__)
    sys.stdout.buffer.write(bytes_of(text_of(int(sys.argv[1]))))
