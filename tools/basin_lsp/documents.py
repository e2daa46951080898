"""Open texts, and places in them: a byte for the tools, and a line with a letter in units of UTF-16 for editors.

The protocol ends a line at a line feed, at a carriage return, or at both in a row; `basin` at a line feed alone.
"""

import re
from bisect import bisect_right
from pathlib import Path
from urllib.parse import quote, unquote, urlsplit

from basin_rules.places import Source

LINE_END = re.compile(r"\r\n|\n|\r")
LONE = re.compile("[\ud800-\udfff]")


def path_of(uri):
    """The path of a file's address, or `None` of another one."""
    parts = urlsplit(uri)
    return Path(unquote(parts.path)) if parts.scheme == "file" else None


def uri_of(path):
    """The address of a file."""
    return "file://" + quote(str(Path(path).absolute()))


def units(text):
    """How many units of UTF-16 a text has."""
    return len(text) if text.isascii() else len(text) + sum(one > "\uffff" for one in text)


class Document:
    """A text with its address, its version, and what has been found out about this version."""

    def __init__(self, uri, text, version=None, language=""):
        self.uri, self.version, self.language = uri, version, language
        self.path = path_of(uri)
        self.kept, self.earlier = {}, None
        self.become(text)

    def become(self, text):
        """Has another text."""
        self.text = LONE.sub("\ufffd", text)
        self.earlier = self.kept.pop("last reading", None) or self.earlier
        self.kept = {}
        self.begins = [0] + [found.end() for found in LINE_END.finditer(self.text)]
        self.content = self.text.encode()
        self.is_ascii = len(self.content) == len(self.text)
        self.byte_begins = self.begins
        if not self.is_ascii:
            self.byte_begins = [0]
            for begin, end in zip(self.begins, self.begins[1:]):
                self.byte_begins.append(self.byte_begins[-1] + len(self.text[begin:end].encode()))

    def keep(self, what, make):
        """What is made once for this text."""
        if what not in self.kept:
            self.kept[what] = make()
        return self.kept[what]

    @property
    def source(self):
        """The text as the tools have it."""
        return self.keep("source", lambda: Source(self.path.name if self.path else self.uri, self.content))

    # ---- places

    def letter(self, position):
        """The letter at a position; one behind a line's end is that end, and one within a pair is the pair's begin."""
        line, unit = max(0, int(position["line"])), max(0, int(position["character"]))
        if line >= len(self.begins):
            return len(self.text)
        begin = self.begins[line]
        end = self.begins[line + 1] if line + 1 < len(self.begins) else len(self.text)
        row = self.text[begin:end].rstrip("\r\n")
        if self.is_ascii or row.isascii():
            return begin + min(unit, len(row))
        for at, one in enumerate(row):
            unit -= 2 if one > "\uffff" else 1
            if unit < 0:
                return begin + at
        return begin + len(row)

    def byte(self, position):
        """The byte at a position."""
        letter = self.letter(position)
        if self.is_ascii:
            return letter
        line = bisect_right(self.begins, letter) - 1
        return self.byte_begins[line] + len(self.text[self.begins[line] : letter].encode())

    def position(self, byte):
        """The position of a byte. One within a letter has that letter's position."""
        byte = max(0, min(byte, len(self.content)))
        line = bisect_right(self.byte_begins, byte) - 1
        if self.is_ascii:
            return {"line": line, "character": byte - self.begins[line]}
        return {"line": line, "character": units(self.content[self.byte_begins[line] : byte].decode("utf-8", "ignore"))}

    def range(self, begin, end):
        """The range of a stretch of bytes; it never has half a letter."""
        while not self.is_ascii and end < len(self.content) and self.content[end] & 0xC0 == 0x80:
            end += 1
        return {"start": self.position(begin), "end": self.position(max(begin, end))}

    def whole(self):
        """The range of all of it."""
        return self.range(0, len(self.content))

    # ---- changes

    def changed(self, changes, version):
        """Makes changes, one after another, each in the text that the one before left."""
        for change in changes:
            if change.get("range") is None:
                self.become(change["text"])
                continue
            begin, end = self.letter(change["range"]["start"]), self.letter(change["range"]["end"])
            self.become(self.text[: min(begin, end)] + change["text"] + self.text[max(begin, end) :])
        self.version = version
