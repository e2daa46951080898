"""The page: its head, its map, and what its script reads, put into its frame."""

import json
import re
import shutil
from collections.abc import Mapping
from html import escape
from pathlib import Path

from basin_files.model import Model
from basin_files.moments import stamp_of
from basin_files.network import drawn, text_of
from basin_files.reasons import LONG, plain

from .gather import Gathered
from .stills import stills

HERE = Path(__file__).resolve().parent
SCRIPTS = ("look.js", "charts.js", "why.js", "tables.js", "required.js", "page.js")
MARK = re.compile("@(TITLE|STYLE|HEAD|MAP|POLICY|STILLS|DATA|RUNS|SCRIPT)@")
PROVED = (
    "What the program wrote is exactly what the definitions give for this model, these rules and these inputs, each timestep"
    " up to the last one or up to the fault that ended the run.",
    "In it the balance of each object whose terms are known adds up, linked slots hold the same, no input was changed, and no"
    " value gave way to a lower priority.",
    "That is proved of a program that was built with its proofs; this page, with its pictures, units, sums and words, is only"
    " tested.",
)


def page_of(known: Gathered) -> str:
    """The page. Within its scripts no text of others has a `<`, so none ends one or begins another."""
    data = known.data()
    runs = [script(f"series{number}", safe(known.series(number))) for number in range(len(known.runs))]
    runs += [script(f"why{number}", told.story.text.replace("<", "\\u003c")) for number, told in enumerate(known.runs)]
    parts = {
        "TITLE": escape(known.title),
        "STYLE": (HERE / "page.css").read_text(),
        "HEAD": head_of(known),
        "MAP": map_of(known.model),
        "POLICY": "\n".join(escape(plain(line.expandtabs(4), LONG)) for line in known.remarked["lines"]),
        "STILLS": "\n".join(part for told in known.runs[:1] for part in stills(known.model, told.section)),
        "DATA": safe(data),
        "RUNS": "\n".join(runs),
        "SCRIPT": "\n".join((HERE / name).read_text() for name in SCRIPTS),
    }
    return MARK.sub(lambda found: parts[found[1]], (HERE / "page.html").read_text())


def safe(value: Mapping[str, object]) -> str:
    """A value as a script of JSON."""
    return json.dumps(value, separators=(",", ":")).replace("<", "\\u003c")


def script(name: str, text: str) -> str:
    """A part that the page's script reads."""
    return f'<script type="application/json" id="{name}">{text}</script>'


def head_of(known: Gathered) -> str:
    """What stands below the title: how the first run ended, of what files it is, and what is proved of it."""
    told, timesteps = known.runs[0] if known.runs else None, known.model.run
    ending = told.section.ending if told else known.policy.refusal
    sort = "" if told and not told.section.fault else ' class="fault"'
    lines = "".join(f"<li>{escape(line.strip())}</li>" for line in (told.lines if told else known.refusal))
    size = f"{timesteps.count:,} timesteps of {timesteps.step}, {len(known.model.objects):,} objects, {len(known.model.slots):,} slots"
    begin, end = stamp_of(timesteps.begin(1)), stamp_of(timesteps.end(timesteps.count))
    return "\n".join(
        (
            f'<p id="ending"{sort}>{escape(ending)}</p>',
            f'<ul id="doctor">{lines}</ul>',
            f"<p>From {begin} to {end}: {size}. Made of {escape(', '.join(known.files.names))}.</p>",
            f'<p class="note" id="proved">{" ".join(PROVED)}</p>' if told else "",
        )
    )


def map_of(model: Model) -> str:
    """The picture of the network as a part of a page; without Graphviz a list of its objects."""
    if shutil.which("dot"):
        picture = drawn(text_of(model), ".svg").decode()
        return picture[picture.index("<svg") :]
    rows = "".join(f'<li><button type="button">{escape(thing.name)}</button></li>' for thing in model.objects)
    return f'<p class="note">The map needs Graphviz (Debian\'s package graphviz).</p><ul>{rows}</ul>'
