"""At which line of a TOML file each key and item stands. `tomllib` gives the values.

`basin` reads TOML 1.1, in which an inline table may go over several lines and end with a comma. `tomllib`
reads TOML 1.0, so such tables are given to it on one line. What `basin` refuses and `tomllib` accepts is refused
before `tomllib` sees it: for a key of many parts it needs memory that grows with the square of their number.
"""

import math
import re
import tomllib

BLANK = re.compile(r"(?:[ \t\r\n]+|#[^\n]*)*")
SPACE = re.compile(r"[ \t]*")
KEY = re.compile(r"""[A-Za-z0-9_-]+|"(?:[^"\\\n]|\\.)*"|'[^'\n]*'""")
TEXT = re.compile(
    r'"""(?:[^\\]|\\.)*?"""(?:"{0,2})' r"|'''.*?'''(?:'{0,2})" r'|"(?:[^"\\\n]|\\.)*"' r"|'[^'\n]*'",
    re.DOTALL,
)
PLAIN = re.compile(r"[^,\]}#\n]+")
FLOAT = re.compile(r"[+-]?[0-9][0-9_]*(?:[.eE][0-9_.eE+-]*)")
MOST_PARTS = MOST_LEVELS = 80  # of a key; of arrays and inline tables in one another


class NotBasins(ValueError):
    """The text is TOML for Python's reader, and not for `basin`."""


def lines_of(text: str) -> dict[str, int]:
    """The line of each path of a TOML text. Paths are written as `run.steps` and `object[2].table[3]`."""
    return LineReader(text).read()


def with_values(text: str, values: dict[str, str]) -> str:
    """The same text with other values at some paths, each as TOML spells it."""
    reader = LineReader(text)
    reader.read()
    pieces, behind = [], 0
    for (begin, end), value in sorted((reader.spans[path], value) for path, value in values.items()):
        pieces += [text[behind:begin], value]
        behind = end
    return "".join(pieces) + text[behind:]


def values_of(text: str) -> dict[str, object]:
    """The table that a TOML text spells. `ValueError` where `basin` or Python's reader refuses it."""
    return values_by(LineReader(text))[0]


def values_and_lines(text: str) -> tuple[dict[str, object], dict[str, int]]:
    """The table that a TOML text spells, and the line of each path. `ValueError` as of `values_of`."""
    reader = LineReader(text)
    values, wrong = values_by(reader)
    if wrong:
        raise wrong
    return values, reader.lines


def values_by(reader: "LineReader") -> tuple[dict[str, object], ValueError | None]:
    """The table of the text of a new reader, and where that can't go through the text, why."""
    wrong: ValueError | None = None
    try:
        reader.read()
    except NotBasins:
        raise
    except ValueError as error:
        wrong = error
    try:
        return tomllib.loads(reader.text), wrong
    except tomllib.TOMLDecodeError as refusal:
        try:
            return tomllib.loads(reader.text if wrong else reader.on_one_line()), wrong
        except ValueError:
            raise refusal from None


class LineReader:
    """Goes through a TOML text once and notes where each table, key and item begins."""

    def __init__(self, text: str) -> None:
        self.text = text
        self.place = 0
        self.line = 1  # of the place up to which lines were counted
        self.counted = 0
        self.lines: dict[str, int] = {}
        self.spans: dict[str, tuple[int, int]] = {}  # from where to where the value of each path stands
        self.gaps: list[tuple[int, int]] = []  # between the words of inline tables, with a comma that stands at their end
        self.counts: dict[str, int] = {}  # of arrays of tables: how many tables there were so far
        self.levels = 0  # arrays and inline tables around this place

    def read(self) -> dict[str, int]:
        """The line of each path."""
        table = ""
        self.take(BLANK)
        while self.place < len(self.text):
            if self.text[self.place] == "[":
                table = self.header()
            else:
                self.pair(table)
            self.take(BLANK)
        return self.lines

    def on_one_line(self) -> str:
        """The text that was gone through, with each inline table on one line and without a comma at its end."""
        pieces, behind = [], 0
        for begin, end in sorted(self.gaps):
            pieces += [self.text[behind:begin], " "]
            behind = max(behind, end)
        return "".join(pieces) + self.text[behind:]

    def take(self, pattern: re.Pattern[str]) -> str:
        """What the pattern matches here, and goes behind it."""
        found = pattern.match(self.text, self.place)
        if found:
            self.place = found.end()
        return found.group() if found else ""

    def skip(self, mark: str) -> bool:
        """Goes behind the mark if it stands here, and says whether it does."""
        found = self.text.startswith(mark, self.place)
        self.place += len(mark) if found else 0
        return found

    def note(self, path: str) -> None:
        """The path begins here, unless it has begun before."""
        self.lines.setdefault(path, self.line_here())

    def here(self) -> str:
        """This place, as Python's reader says it."""
        return f"at line {self.line_here()}, column {self.place - self.text.rfind(chr(10), 0, self.place)}"

    def line_here(self) -> int:
        """The line of this place."""
        self.line += self.text.count("\n", self.counted, self.place)
        self.counted = max(self.counted, self.place)
        return self.line

    def keys(self) -> list[str]:
        """A dotted key as its parts."""
        parts = []
        while True:
            self.take(SPACE)
            part = self.take(KEY)
            if not part:
                raise ValueError(
                    "a key was expected"
                )  # so that no text that isn't TOML is gone through for ever
            parts.append(next(iter(tomllib.loads(f"{part} = 0"))) if part[0] in "\"'" else part)
            if len(parts) > MOST_PARTS:
                raise NotBasins(f"a key has more than {MOST_PARTS} parts ({self.here()})")
            self.take(SPACE)
            if not self.skip("."):
                return parts

    def inside(self, table: str, parts: list[str]) -> str:
        """The path of these keys below a table: in an array of tables below its last table."""
        path = table
        for part in parts:
            path = f"{path}.{part}" if path else part
            if path in self.counts:
                path = f"{path}[{self.counts[path]}]"
        return path

    def header(self) -> str:
        """`[table]` or `[[array of tables]]`: the path of the table."""
        begin = self.place
        many = self.skip("[[")
        if not many:
            self.skip("[")
        *outer, last = self.keys()
        self.skip("]]" if many else "]")
        self.place, behind = begin, self.place
        if many:
            array = self.array_of(outer, last)
            self.note(array)
            self.counts[array] = self.counts.get(array, 0) + 1
            path = f"{array}[{self.counts[array]}]"
        else:
            path = self.inside("", [*outer, last])
        self.note(path)
        self.place = behind
        return path

    def array_of(self, outer: list[str], last: str) -> str:
        """The path of an array of tables, without a number at its end."""
        table = self.inside("", outer)
        return f"{table}.{last}" if table else last

    def pair(self, table: str) -> None:
        """`key = value`."""
        begin = self.place
        path = self.inside(table, self.keys())
        behind, self.place = self.place, begin
        self.note(path)
        self.place = behind
        self.skip("=")
        self.take(SPACE)
        self.value(path)

    def value(self, path: str) -> None:
        """A value at a path, with all that is in it."""
        begin = self.place
        self.levels += 1
        if self.text.startswith(("[", "{"), begin) and self.levels > MOST_LEVELS:
            raise NotBasins(f"more than {MOST_LEVELS} brackets are nested ({self.here()})")
        if self.skip("["):
            self.items(path)
        elif self.skip("{"):
            self.inline_table(path)
        elif not self.take(TEXT) and (
            self.text[self.place : self.place + 1] in ('"', "'") or not self.plain_value()
        ):
            raise ValueError("a value was expected")
        self.levels -= 1
        self.spans[path] = begin, begin + len(self.text[begin : self.place].rstrip())

    def plain_value(self) -> str:
        """A number, a date or a word."""
        word = self.take(PLAIN)
        number = word.strip()
        if FLOAT.fullmatch(number):
            try:
                is_beyond = math.isinf(float(number.replace("_", "")))
            except ValueError:
                is_beyond = False  # a date, or no TOML
            if is_beyond:
                raise NotBasins(f"a number needs more than 64 bits ({self.here()})")
        return word

    def items(self, path: str) -> None:
        """The items of an array, up to its end."""
        number = 0
        while True:
            self.take(BLANK)
            if self.skip("]"):
                return
            number += 1
            self.note(f"{path}[{number}]")
            self.value(f"{path}[{number}]")
            self.take(BLANK)
            self.skip(",")

    def inline_table(self, path: str) -> None:
        """The keys of an inline table, up to its end."""
        self.gap()
        while not self.skip("}"):
            self.pair(path)
            self.gap()
            comma = self.place
            if self.skip(","):
                self.gap()
            if self.text.startswith("}", self.place):
                self.gaps.append((comma, self.place))

    def gap(self) -> None:
        """Goes on to the next word of an inline table."""
        begin = self.place
        self.take(BLANK)
        self.gaps.append((begin, self.place))
