"""Joins the page basin.html of the module, the scripts and the examples: one file, which asks for nothing."""

from __future__ import annotations

import base64
import gzip
import json
import re
from pathlib import Path

TOP = Path(__file__).resolve().parents[2]
PAGE = TOP / "web/page"
# Scripts of the page in the order in which they need one another, each a job.
SCRIPTS = ("engine.js", "text.js", "table.js", "chart.js", "why.js", "main.js")
FILES = ("model.toml", "policy.rpl", "inputs.csv")
# Examples that a newcomer meets first; the others follow by name.
FIRST = ("lake-levels", "lake-rules", "one-reservoir", "valley-rules")
TITLE = re.compile(r"^# (.+)$", re.MULTILINE)


def examples() -> list[dict[str, object]]:
    """The examples: a name, the title of its page, and its files."""
    folders = [folder for folder in sorted((TOP / "examples").iterdir()) if (folder / "model.toml").exists()]
    folders.sort(key=lambda folder: FIRST.index(folder.name) if folder.name in FIRST else len(FIRST))
    return [example(folder) for folder in folders]


def example(folder: Path) -> dict[str, object]:
    """An example."""
    title = TITLE.search((folder / "README.md").read_text(encoding="utf-8"))
    files = {name: (folder / name).read_text(encoding="utf-8") for name in FILES if (folder / name).exists()}
    return {"name": folder.name, "title": title[1] if title else folder.name, "files": files}


def plain_script(text: str) -> str:
    """A module as a plain script, since a page from a disk may load no modules."""
    return re.sub(r"^export ", "", text, flags=re.MULTILINE)


def data(value: object) -> str:
    """A value inside of a page: no text in it can end the element that it stands in."""
    return json.dumps(value, ensure_ascii=False).replace("<", "\\u003c")


def joined(module: bytes, is_proved: bool) -> str:
    """The page."""
    engine = base64.b64encode(gzip.compress(module, mtime=0)).decode()
    worker = plain_script((TOP / "web/basin.js").read_text(encoding="utf-8")) + (PAGE / "worker.js").read_text(encoding="utf-8")
    parts = {
        "STYLE": (PAGE / "page.css").read_text(encoding="utf-8"),
        "ENGINE": engine,
        "WORKER": data(worker),
        "EXAMPLES": data(examples()),
        "PROVED": "" if is_proved else "This page was made without proofs, for tests.",
        "SCRIPTS": "\n".join((PAGE / name).read_text(encoding="utf-8") for name in SCRIPTS),
    }
    text = (PAGE / "page.html").read_text(encoding="utf-8")
    return re.sub(r"@([A-Z]+)@", lambda place: parts[place[1]], text)
