"""Names and texts of others that a shell, gnuplot, Graphviz, a spreadsheet, a browser or a terminal might obey.

Each tool under tools/ is run on files whose paths, rules, headings, keys and words are such texts. Nothing may be run
by them, and nothing that a terminal obeys may be written; fields of CSV begin no formula, a page has no other tags
than with plain names, and pictures show the text.
"""

import csv
import io
import os
import re
import shutil
import subprocess
import tempfile
from collections.abc import Iterator
from dataclasses import dataclass, field
from html.parser import HTMLParser
from pathlib import Path
from xml.etree import ElementTree

from basin_files.reasons import LONG, plain
from common import Run
from packages import may_lack

PIECES = (
    "`touch pwned`", "$(touch pwned)", "';touch pwned;'", '";touch pwned;"', "\x1b[31m", "\x07", "\x9b2J", "<script>x",
    "<", "&amp;", "%n", "\\N\\", "_^{x}", "\u202eevil", "\ttab", "\rback", "line\nfeed",
)
WORST = "".join(PIECES)
FORMULAS = ("=1+1", "@SUM(1)", "+1+1", "-1+1")
TAGS = "</script><img src=x onerror=y>"
MODEL = """format = 1
run = {{ start = "2024-03-30T00:00", step = "24h", steps = 3 }}
[[object]]
name = "Dam"
kind = "reservoir"
initial_storage = 1000
[[object]]
name = "River"
kind = "reach"
[[link]]
slots = ["Dam.Outflow", "River.Inflow"]
# {name}
"""
POLICY = """RULE "{name}": IF Dam.Storage[t] > 1020 "m3" THEN Dam.Storage[t] := 1020 "m3"; ENDIF ENDRULE
RULE "2{name}": Dam.Outflow[t] := 50 "m3/step"; ENDRULE
"""
FILES = {
    "model": MODEL,
    "policy": POLICY,
    "inputs": "slot,step,value\nDam.Inflow,1-3,100\n",
    "edits": "batch,slot,step,value\n1,Dam.Inflow,2,130\n",
    "traces": "trace,slot,step,value\n1,Dam.Inflow,2,130\n2,Dam.Outflow,2,9000\n3,Dam.Inflow,2,\n",
    "wide": "step,Dam.Inflow,{name}\n1,5,{name}\n2,6,7\n",
    "required": 'REQUIRE "{name}": Dam.Outflow[t] >= 60 "m3/step";\n',
}
# The same files, with which something is wrong.
BAD = {
    "model": 'format = 1\nrun = {{ start = "{name}", step = "24h", steps = 3 }}\n"{name}" = "{name}"\n'
    '[[object]]\nname = "{name}"\nkind = "{name}"\n[[link]]\nslots = ["{name}", "Dam.{name}"]\n',
    "policy": 'RULE "{name}": Dam.Outflow[t] := {name}(1) / 0; ENDRULE\n',
    "inputs": "slot,step,value\n{name},1,5\nDam.Inflow,{name},5\nDam.Inflow,1,{name}\n",
    "edits": "batch,slot,step,value\n{name},Dam.Inflow,1,5\n1,{name},1,5\n1,Dam.Inflow,1,{name}\n",
    "traces": "trace,slot,step,value\n{name},Dam.Inflow,1,5\n1,{name},1,5\n1,Dam.Inflow,1,{name}\n",
    "wide": "{name},Dam.Inflow [{name}],Dam.{name}\n{name},{name},5\n",
    "required": 'REQUIRE "{name}": Dam.Outflow[t] >= {name} "m3/step";\n',
    "table": "# batch 0 settled\nstep,stamp,{name}\n1,2024-03-31T00:00,1\n2,2024-04-01T00:00,3\n",
}
# How each tool is called; words in braces name files, and {name} is the text itself.
CALLS = {
    "compare": ["{table} {table}", "{table} --batch 0 1", "{table} --batches 0 1 --csv"],
    "doctor": [
        "{model}",
        "{model} {inputs}",
        "{model} {inputs} --policy {policy} --edits {edits}",
        "{model} {inputs} --policy {policy} --traces {traces}",
        "{model} {inputs} --policy {policy} --traces {traces} --json",
    ],
    "effect": ["{model} {policy} {inputs}", "{model} {policy} {inputs} --edits {edits} --batch 1 --csv"],
    "inputs": ["{wide} --model {model}", "{table} --model {model} --only {name} --unknown {name}"],
    "lsp": ["--check {policy}", "--check {model} {policy}"],
    "map": ["{model} --text"],
    "plot": ["{table} --flags --text", "{table} {name} --text --with {table} --from {name}"],
    "report": ["{model} {policy} {inputs}", "{model} {policy} {inputs} --edits {edits}", "{model} {policy} {inputs} --why {name}"],
    "require": [
        "{model} {policy} {inputs} {required}",
        "{model} {policy} {inputs} {required} --edits {edits}",
        "{model} {policy} {inputs} {required} --show",
    ],
    "restart": ["{model} {table} --policy {policy}", "{model} {table} --step 1 --inputs {inputs} --edits {edits} --batch 1"],
    "rules": ["{model} {policy}", "{model} {policy} --csv", "{model} {policy} --code", "--format --check {policy}"],
    "slots": ["{model} {inputs}", "{model} --csv"],
    "table": ["{table} --model {model} --long", "{table} --model {model} --unit {name} --wanted {name}={name}"],
    "why": ["{model} {policy} {inputs} Dam.Outflow 1", "{model} {policy} {inputs} {name} 1"],
}
OF_CSV = ("inputs", "table")  # tools that write CSV without --csv
ELSEWHERE = {"recheck", "release", "unproved", "web", "workbench"}  # tools of the repository itself, and a server, which has its own tests


@dataclass
class Tags(HTMLParser):
    """The tags of a page with the names of their attributes, and the text of its scripts."""

    tags: list[tuple[str, list[str]]] = field(default_factory=list)

    def __post_init__(self) -> None:
        super().__init__()

    def handle_starttag(self, tag: str, attrs: list[tuple[str, str | None]]) -> None:
        """Notes a tag."""
        self.tags.append((tag, [name for name, _ in attrs]))


def tags_of(page: str) -> list[tuple[str, list[str]]]:
    """The tags of a page, in their order."""
    parser = Tags()
    parser.feed(page)
    return parser.tags


def within(sort: str, name: str) -> str:
    """A name as it may stand in a file: no control characters in a model's remark, no quotes in a rule's name, no commas
    in a table's headings."""
    if sort == "model":
        return re.sub(r"[\x00-\x1f\x7f]", "", name)
    if sort == "table":
        return re.sub("[,\n\r]", " ", name)
    if sort == "required":  # a name has at most 100 letters, all printable
        name = "".join(one for one in name.replace('"', "'") if one.isprintable())
        return '": Dam.Outflow[t] >= 60 "m3/step";\nREQUIRE "'.join(name[at : at + 40] for at in range(0, len(name), 40))
    return re.sub('["\n]', "'", name) if sort == "policy" else '"' + name.replace('"', '""') + '"'


class Room:
    """A folder with files of one name, in which tools are run."""

    def __init__(self, folder: Path, name: str, run: Run, bad: str = ""):
        self.folder, self.name, self.run = folder, name, run
        self.files: dict[str, str] = {}
        for sort, text in FILES.items():
            self.write(sort, (BAD if bad == sort else FILES)[sort].format(name=within(sort, name)))
        self.write("table", BAD["table"].format(name=within("table", name)) if bad == "table" else self.table())

    def write(self, sort: str, text: str) -> None:
        """Makes a file, whose name is the hostile one where that can be a file's."""
        whose = self.name.replace("/", "|")
        path = Path(f"{whose}.{sort}")
        (self.folder / path).write_bytes(text.encode())
        self.files[sort] = f"./{path}" if whose.startswith("-") else str(path)

    def table(self) -> str:
        """What the program writes for the files."""
        words = [os.environ["BASIN"], "run", *(self.files[sort] for sort in ("model", "policy", "inputs"))]
        words += [f"--edits={self.files['edits']}", "--flags"]
        return subprocess.run(words, cwd=self.folder, capture_output=True, check=False).stdout.decode()

    def words(self, call: str) -> list[str]:
        """The words of a call."""
        return [word.format(**self.files, name=self.name) for word in call.split()]

    def call(self, tool: str, call: str, *more: str, refused: tuple[int, ...] = ()) -> tuple[str | None, str]:
        """What is wrong with what a tool does, and its output. A status that is no answer here may be named."""
        before = {path.name for path in self.folder.iterdir()}
        status, output, errors = self.run(tool, *self.words(call), *more, folder=self.folder)
        made = {path.name for path in self.folder.iterdir()} - before
        is_csv = "--csv" in call or tool in OF_CSV
        wrong = wrong_with(status, output.decode(), errors.decode(), made, is_csv)
        return wrong or (f"refuses it: {errors.decode()}" if status in refused else None), output.decode()


def wrong_with(status: int, output: str, errors: str, made: set[str], is_csv: bool) -> str | None:
    """What is wrong with what a tool wrote or made."""
    if status not in (0, 1, 2) or "Traceback" in errors:
        return f"status {status}: {errors[-300:]!r}"
    if made:
        return f"makes {made}"
    obeyed = [one for one in output + errors if one != "\n" and not one.isprintable()]
    if obeyed:
        return f"writes {obeyed[0]!r} in {output + errors!r}"
    fields = [cell for row in csv.reader(io.StringIO(output)) for cell in row] if is_csv and not status else []
    formula = next((cell for cell in fields if is_formula(cell)), None)
    return f"the field {formula!r} begins a formula" if formula else None


def is_formula(cell: str) -> bool:
    """Whether a spreadsheet takes a field for more than a text or a number."""
    return cell[:1] in tuple("=+-@\t\r") and cell != "-" and not re.fullmatch(r"-?[0-9.]+", cell)


def of_hostile_names(run: Run, tools: Path) -> Iterator[tuple[str, str | None]]:
    """All tools on hostile names: good files, bad ones, files that aren't there, and words that are none."""
    there = {path.name for path in tools.iterdir() if path.is_file() and os.access(path, os.X_OK)}
    yield "hostile names: each tool", None if there - ELSEWHERE == set(CALLS) else f"{(there - ELSEWHERE) ^ set(CALLS)} are due, or not"
    rooms = [(name, "") for name in (WORST, *FORMULAS)] + [(WORST, bad) for bad in BAD]
    for name, bad in rooms:
        yield from of_room(name, bad, run)
    yield "hostile names: a page", of_page(run)
    yield "hostile names: a plot's title", of_title(run)


def of_room(name: str, bad: str, run: Run) -> Iterator[tuple[str, str | None]]:
    """The calls on files of one name: all, or those that read the bad file, or those of which a formula is asked."""
    with tempfile.TemporaryDirectory() as folder:
        room = Room(Path(folder), name, run, bad)
        what = f"hostile names: bad {bad}" if bad else f"hostile names: {name!r}"
        for tool, calls in CALLS.items():
            for call in calls:
                if f"{{{bad}}}" in call if bad else name == WORST or "--csv" in call or tool in OF_CSV:
                    refused = () if bad or "{name}" in call else (2,)
                    yield f"{what}: {tool} {call}", room.call(tool, call, refused=refused)[0]
        if bad == "table":
            yield f"{what}: plot, drawn", room.call("plot", "{table}")[0]
        for tool, calls in CALLS.items() if name == WORST and not bad else ():
            yield f"{what}: {tool}, no such option", room.call(tool, calls[0], f"--{name}")[0]
            yield f"{what}: {tool}, no such file", room.call(tool, re.sub(r"\}", "}none", calls[0]))[0]


def of_page(run: Run) -> str | None:
    """The report has the same tags as with plain names, and no text within its script begins one."""
    pages = []
    for name in ("plain", TAGS, WORST):
        with tempfile.TemporaryDirectory() as folder:
            wrong, page = Room(Path(folder), name, run).call("report", CALLS["report"][0], f"--title=@DATA@{name}")
        if wrong:
            return wrong
        pages.append(re.sub(r"<svg.*?</svg>", "", page, flags=re.DOTALL))
    data = [one for page in pages for one in re.findall('<script type="application/json" id="\\w+">(.*?)</script>', page, re.DOTALL)]
    if len(data) != 3 * len(pages) or any("<" in one for one in data):
        return "what the script knows has a <"
    return None if len({str(tags_of(page)) for page in pages}) == 1 else "the page has other tags"


def of_title(run: Run) -> str | None:
    """A title of any letters is drawn as it is."""
    with tempfile.TemporaryDirectory() as folder:
        room = Room(Path(folder), WORST, run)
        wrong, text = room.call("plot", "{table} --text", f"--title={WORST}")
        title = plain(WORST, LONG)
        if wrong or f"title '{title.replace(chr(39), chr(39) * 2)}" not in text:
            return wrong or "the title isn't in the text"
        if not shutil.which("gnuplot"):
            return None if may_lack("gnuplot") else "Debian's package gnuplot is missing"
        _, picture, errors = run("plot", room.files["table"], f"--title={WORST}", folder=room.folder)
        if (room.folder / "pwned").exists():
            return "the title is run"
    shown = ["".join(one.itertext()) for one in ElementTree.fromstring(picture).iter()]
    return None if any(title in text for text in shown) else f"the picture has no {title}: {errors.decode()}"
