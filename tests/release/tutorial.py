"""The tutorial docs/FIRST-BASIN.md of an unpacked release, typed as its page shows it, in a copy of the release elsewhere.

The page has at most `MOST_COMMANDS` commands and `MOST_EDITS` commands that write or change a text. Each command prints what the
page shows below it, and at its end the copy has the table of the page.
"""

import re
import shutil
import subprocess
from collections.abc import Iterator
from pathlib import Path

from packages import may_lack

MOST_COMMANDS, MOST_EDITS = 35, 10
PROGRESS = re.compile(r"^[a-z]+: \.\. .*\n", re.MULTILINE)  # what a busy machine adds to the error stream
EDITS = ("printf ", "sed 's")  # a text that is written or changed
DRAWS = {"tools/plot": "gnuplot", "tools/map": "dot"}
PACKAGES = {"gnuplot": "gnuplot", "dot": "graphviz"}  # of Debian, by their programs
TABLE, ROWS = "result.csv", 61


def typed(page: str) -> list[tuple[str, str]]:
    """Returns the commands of a page, each with what is shown below it."""
    blocks = re.findall(r"```console\n(.*?)```", page, re.DOTALL)
    return [pair for block in blocks for pair in re.findall(r"^\$ (.*)\n((?:(?!\$ ).*\n)*)", block, re.MULTILINE)]


def is_left_out(command: str) -> bool:
    """Returns whether a command draws with a program that is not there and that may be missing."""
    drawn = DRAWS.get(command.split(" ")[0])
    return drawn is not None and not shutil.which(drawn) and may_lack(PACKAGES[drawn])


def size_of(commands: list[str]) -> str | None:
    """Returns how the page is too long for a quarter of an hour, or nothing."""
    edits = [command for command in commands if command.startswith(EDITS)]
    if not commands or len(commands) > MOST_COMMANDS or len(edits) > MOST_EDITS:
        return f"{len(commands)} commands and {len(edits)} edits, and at most {MOST_COMMANDS} and {MOST_EDITS}"
    return None


def table_of(page: str, table: str) -> str | None:
    """Returns how the table that is left differs from the one that the page shows, or nothing."""
    shown = next((below for command, below in typed(page) if command.startswith("sed -n") and command.endswith(TABLE)), "")
    rows, left = shown.splitlines(), table.splitlines()
    if len(rows) < 5 or len(left) != ROWS + 1:
        return f"{len(rows)} rows are shown, and {len(left)} lines are left"
    return next((f"no row {row}" for row in rows if row not in left), None)


def of_tutorial(home: Path, bare: dict[str, str]) -> Iterator[tuple[str, str | None]]:
    """Types the page of the release in `home` in a copy of it, with the environment `bare`."""
    place = home.parent / "tutorial elsewhere"
    shutil.copytree(home, place, symlinks=True)
    page = (home / "docs/FIRST-BASIN.md").read_text()
    yield "FIRST-BASIN: its length", size_of([command for command, _ in typed(page)])
    for command, shown in typed(page):
        if not is_left_out(command):
            done = subprocess.run(["bash", "-c", command], cwd=place, env=bare, capture_output=True, check=False)
            printed = PROGRESS.sub("", done.stderr.decode()) + done.stdout.decode()
            yield f"FIRST-BASIN: {command}", None if printed == shown else f"prints\n{printed}"
    yield "FIRST-BASIN: its table", table_of(page, (place / TABLE).read_text())
    shutil.rmtree(place)
