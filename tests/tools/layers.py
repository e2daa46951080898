#!/usr/bin/env python3
"""tests/tools/layers.py: writes the table of crates in docs/ARCHITECTURE.md anew. The group `layers` of tests/tools/run holds
that table to the sources, and the picture above it to crates.txt.

A row has the first sentence of `src/lib.rt`, or of `src/main.rt`, without what follows a colon once it has five words.
"""

import re
from collections.abc import Iterator
from pathlib import Path

TOP = Path(__file__).resolve().parents[2]
PAGE = TOP / "docs/ARCHITECTURE.md"
PICTURE = re.compile(r"```text\nthe program .*?```", re.DOTALL)
TABLE = re.compile(r"(?<=<!-- made by tests/tools/layers.py -->\n).*?(?=<!-- end -->)", re.DOTALL)
SENTENCE = re.compile(r".*?\.(?=\s|$)", re.DOTALL)


def uses_of(lines: list[str]) -> dict[str, list[str]]:
    """Returns the crates of crates.txt, lowest first, each with those that it names."""
    return {line.split(":")[0]: line.split()[1:] for line in lines if line and not line.startswith("#")}


def comment_of(crate: Path) -> str:
    """Returns the first comment of a crate as one line."""
    file = next(path for name in ("lib.rt", "main.rt") if (path := crate / "src" / name).exists())
    lines = file.read_text(encoding="utf-8").split("\n")
    count = next(number for number, line in enumerate([*lines, ""]) if not line.startswith("//!"))
    return " ".join(line.removeprefix("//!").strip() for line in lines[:count])


def purpose_of(comment: str) -> str:
    """Returns the first sentence of a comment, or two if the first has fewer than three words, up to its colon."""
    sentences: list[str] = SENTENCE.findall(comment)
    said = sentences[0] if len(sentences[0].split()) > 2 else "".join(sentences[:2])
    for colon in re.finditer(":", said):
        if len(said[: colon.start()].split()) >= 5:
            return said[: colon.start()] + "."
    return said


def table_of(names: list[str]) -> str:
    """Returns the table that the sources give for these crates."""
    rows = [f"| `{name}` | {purpose_of(comment_of(TOP / 'crates' / name))} |\n" for name in names]
    return "".join(["\n| Crate | What it does |\n", "|---|---|\n", *rows, "\n"])


def of_map(page: str, uses: dict[str, list[str]]) -> Iterator[tuple[str, str | None]]:
    """In the picture each crate stands once, above all those that it names; the table is that of the sources."""
    picture = PICTURE.search(page)
    drawn = [(name, at) for at, line in enumerate(picture[0].split("\n")[3:-1]) for name in line.split()] if picture else []
    line_of, names = dict(drawn), sorted(name for name, _ in drawn)
    yield "crates in the picture", None if names == sorted(uses) else f"{set(names) ^ set(uses)} are due, or twice"
    for name in names:
        wrong = [below for below in uses.get(name, ()) if line_of.get(below, 100) <= line_of[name]]
        yield f"{name} in the picture", f"{wrong} stand no lower" if wrong else None
    table = TABLE.search(page)
    same = table is not None and table[0] == table_of(list(uses))
    yield "table of crates", None if same else "it isn't that of the sources; tests/tools/layers.py writes it"


def of_layers() -> Iterator[tuple[str, str | None]]:
    """Judges docs/ARCHITECTURE.md."""
    lines = (TOP / "crates.txt").read_text(encoding="utf-8").splitlines()
    yield from of_map(PAGE.read_text(encoding="utf-8"), uses_of(lines))


if __name__ == "__main__":
    table = table_of(list(uses_of((TOP / "crates.txt").read_text(encoding="utf-8").splitlines())))
    PAGE.write_text(TABLE.sub(lambda _: table, PAGE.read_text(encoding="utf-8")), encoding="utf-8")
