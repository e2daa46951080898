"""The tokens of a ruleset: words, names, numbers, strings and signs."""

import re
from dataclasses import dataclass

from basin_files.formats import GREATEST_QUANTITY, RESERVED_WORDS

from .places import Span

DIGITS = 18  # of a number, at most
GAP = re.compile(r"(?:[ \t\r\n]+|#[^\n]*)*")
TOKEN = re.compile(
    r"(?P<word>[A-Za-z_][A-Za-z0-9_]*)|(?P<number>[0-9]+)|(?P<string>\"[^\"\n]*\")"
    r"|(?P<sign>:=|<>|<=|>=|[:;,.(){}\[\]+\-*/=<>])"
)
RESERVED = frozenset(RESERVED_WORDS)


@dataclass(frozen=True)
class Token:
    """A token: a `mark` (a reserved word or a sign), a `name`, a `number`, a `string`, or the `end` of the text."""

    kind: str
    text: str  # of a string what stands between its quotes
    begin: int
    end: int

    @property
    def span(self) -> Span:
        """Where it stands."""
        return Span(self.begin, self.end)

    def is_mark(self, *texts: str) -> bool:
        """Whether it is one of these marks."""
        return self.kind == "mark" and self.text in texts


class BadToken(Exception):
    """A place that has no token: `byte`, `string` (it isn't closed in its line) or `number` (it is too great)."""

    def __init__(self, sort: str, span: Span) -> None:
        super().__init__(sort)
        self.sort, self.span = sort, span


def tokens_of(text: str) -> list[Token]:
    """The tokens of a text, with a letter for each byte. `BadToken` tells the first place that has none."""
    tokens: list[Token] = []
    place = behind_gap(text, 0)
    while place < len(text):
        tokens.append(token_at(text, place))
        place = behind_gap(text, tokens[-1].end)
    return tokens


def behind_gap(text: str, place: int) -> int:
    """The place behind blanks and comments."""
    found = GAP.match(text, place)
    return found.end() if found else place


def token_at(text: str, place: int) -> Token:
    """The token at a place."""
    found = TOKEN.match(text, place)
    if not found:
        end = text.find("\n", place)
        is_string = text[place] == '"'
        raise BadToken(
            "string" if is_string else "byte",
            Span(place, (end if end >= 0 else len(text)) if is_string else place + 1),
        )
    kind, spelt = found.lastgroup or "", found.group()
    if kind == "number" and (len(spelt) > DIGITS or int(spelt) > GREATEST_QUANTITY):
        raise BadToken("number", Span(place, found.end()))
    if kind == "string":
        spelt = spelt[1:-1]
    if kind == "word":
        kind = "mark" if spelt in RESERVED else "name"
    return Token("mark" if kind == "sign" else kind, spelt, place, found.end())
