"""Places of a text: line and column, and the line itself with a mark below what is told of."""

from bisect import bisect_right
from dataclasses import dataclass

SHOWN_LETTERS = 100  # of a line


@dataclass(frozen=True)
class Span:
    """A stretch of a text, by its bytes: from `begin` up to before `end`."""

    begin: int
    end: int


def readable(content: bytes) -> str:
    """Bytes as letters of one line: a tab is a blank, and what can't be shown a question mark."""
    text = content.decode("utf-8", "replace").replace("\t", " ")
    return text if text.isprintable() else "".join(one if one.isprintable() else "?" for one in text)


class Source:
    """The bytes of a file, and where its lines begin. `text` has a letter for each byte, as `basin` reads them."""

    def __init__(self, path: str, content: bytes) -> None:
        self.path, self.content = path, content
        self.text = content.decode("latin-1")
        self.begins = [0] + [place + 1 for place, byte in enumerate(content) if byte == 10]

    def line(self, offset: int) -> int:
        """The number of the line in which a byte stands, counted from 1."""
        return bisect_right(self.begins, offset)

    def column(self, offset: int) -> int:
        """The letter of its line that the byte is part of, counted from 1."""
        return len(readable(self.content[self.begins[self.line(offset) - 1] : offset])) + 1

    def place(self, offset: int) -> str:
        """Line and column, for people to read."""
        return f"line {self.line(offset)}, column {self.column(offset)}"

    def where(self, offset: int) -> dict[str, int | str]:
        """The file, the line and the column, for programs."""
        return {"file": self.path, "line": self.line(offset), "column": self.column(offset)}

    def words(self, span: Span, most: int = 50) -> str:
        """What stands in a span, on one line, cut to so many letters."""
        piece = self.content[span.begin : min(span.end, span.begin + 10 * most)]
        text = readable(b" ".join(piece.split()))
        return text if len(text) <= most else f"{text[: most - 3]} .."

    def marked(self, span: Span) -> list[str]:
        """The line in which a span begins, and a line with a mark below that part of it."""
        number = self.line(span.begin)
        begin = self.begins[number - 1]
        end = self.begins[number] - 1 if number < len(self.begins) else len(self.content)
        before = readable(self.content[begin : span.begin])
        text = before + readable(self.content[span.begin : end].rstrip(b" \t\r"))
        width = max(1, len(readable(self.content[span.begin : min(span.end, end)].rstrip(b" \t\r"))))
        cut = max(0, len(before) - SHOWN_LETTERS // 2) if len(text) > SHOWN_LETTERS else 0
        width = min(width, SHOWN_LETTERS - (len(before) - cut))
        mark = " " * (len(before) - cut) + "^" * width
        shown = f"    {number} | {text[cut : cut + SHOWN_LETTERS]}"
        return [shown.rstrip(), f"    {' ' * len(str(number))} | {mark}"]
