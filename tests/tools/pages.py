"""The commands of the pages, as a reader types them, in a folder with the examples, the pages, the tools and the program.

A `console` block has commands after `$`, and below each what it prints, which is compared word for word. An indented command has
to end with 0, or with 1 where requirements are not held. If a block of text or CSV comes next, before another command or a
heading, its output has each of these lines, in order, with `..` for anything. Commands that install, build or prove are left out.
"""

import re
import shutil
import subprocess
import tempfile
from collections.abc import Iterator
from pathlib import Path

from packages import may_lack

TOP = Path(__file__).resolve().parents[2]
PROGRESS = re.compile(rb"^[a-z]+: \.\. .*\n", re.MULTILINE)  # what a busy machine adds to the error stream
TYPED = re.compile(r"^    ((?:\./basin (?!--)|tools/|sed |echo |tail ).*)$", re.MULTILINE)
ASIDE = re.compile(r"NAME|^rt |^\.ci/|^tools/web ")
DRAWS = (("tools/map", "dot", "graphviz"), ("tools/plot", "gnuplot", "gnuplot"))  # a tool, its program, and the package of that


def blocks_of(page: str) -> Iterator[list[tuple[str, str]]]:
    """Each block of commands of a page: pairs of a command and what is shown below it."""
    for block in re.findall(r"```console\n(.*?)```", page, re.DOTALL):
        yield [
            (command, shown)
            for command, shown in re.findall(r"^\$ (.*)\n((?:(?!\$ ).*\n)*)", block, re.MULTILINE)
        ]


def typed_of(page: str) -> Iterator[tuple[str, list[str]]]:
    """Each indented command of a page, and the lines that the next block shows of its output."""
    found = [match for match in TYPED.finditer(page) if not ASIDE.search(match[1])]
    for match, after in zip(found, [*found[1:], None]):
        below = page[match.end() : after.start() if after else len(page)]
        block = re.search(r"```(\w*)\n(.*?)```", re.split(r"\n##+ ", below, maxsplit=1)[0], re.DOTALL)
        yield match[1], block[2].splitlines() if block and block[1] in ("text", "csv") else []


def missing(printed: list[str], shown: list[str]) -> str | None:
    """The first line that is shown and isn't printed, behind those before it."""
    rest = iter(printed)
    for line in shown:
        wanted = re.compile(".*".join(re.escape(part) for part in line.split("..")))
        if line != ".." and not any(wanted.fullmatch(one) for one in rest):
            return line
    return None


def as_unpacked(folder: Path, program: str) -> None:
    """Makes the folder in which a reader types commands."""
    for name in ("examples", "docs"):
        shutil.copytree(TOP / name, folder / name)
    (folder / "tools").symlink_to(TOP / "tools")
    (folder / "basin").symlink_to(program)


def times_in(folder: Path) -> dict[str, int]:
    """When each file of a release was last written, by its path."""
    files = (path for top in ("examples", "docs") for path in (folder / top).rglob("*") if path.is_file())
    return {str(path.relative_to(folder)): path.stat().st_mtime_ns for path in files}


def of_page(page: Path, program: str) -> Iterator[tuple[str, str | None]]:
    """The commands of a page print what is shown there, and change no file that was there: a release keeps its sums."""
    text, name = page.read_text(), page.relative_to(TOP)
    lacking = [tool for tool, draws, package in DRAWS if not shutil.which(draws) and may_lack(package)]
    with tempfile.TemporaryDirectory() as place:
        as_unpacked(Path(place), program)
        before = times_in(Path(place))

        def done(command: str) -> subprocess.CompletedProcess[bytes]:
            return subprocess.run(["bash", "-c", command], cwd=place, capture_output=True, check=False)

        for command, shown in sum(blocks_of(text), []):
            if not any(tool in command for tool in lacking):
                ended = done(command)
                printed = (PROGRESS.sub(b"", ended.stderr) + ended.stdout).decode()
                yield f"{name}: {command}", None if printed == shown else f"prints\n{printed}"
        for command, lines in typed_of(text):
            if not any(tool in command for tool in lacking):
                ended = done(command)
                lost = missing(ended.stdout.decode().splitlines(), lines)
                due = 1 if command.startswith("tools/require") else 0
                wrong = f"status {ended.returncode}, {ended.stderr.decode()}" if ended.returncode != due else None
                yield f"{name}: {command}", wrong or (lost and f"does not print\n{lost}")
        changed = sorted(path for path, _ in before.items() - times_in(Path(place)).items())
        yield f"{name}: what was there", f"is written over: {', '.join(changed)}" if changed else None


def of_commands(program: str) -> Iterator[tuple[str, str | None]]:
    """The commands of each page."""
    for page in [TOP / "README.md", *sorted(TOP.glob("docs/*.md")), *sorted(TOP.glob("examples/*/README.md"))]:
        yield from of_page(page, program)
