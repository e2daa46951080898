"""What a check of one crate is given: its words, and the libraries of the crates below that are built already."""

from __future__ import annotations

import functools
import importlib
import re
import shutil
import subprocess
import sys
from collections.abc import Container, Iterable, Mapping
from pathlib import Path
from types import ModuleType
from typing import NoReturn, Protocol

from .hollow import hollow

# What a check says where a goal is open or something is refused.
REFUSED = re.compile(r"\berror\b|is not admitted|not proved|: no proof|: depends on a hole|: goal ")


class Crate(Protocol):
    """A crate as the toolchain's module knows it."""

    name: str
    folder: str
    is_program: bool
    of_kit: list[str]
    deps: list[Crate]

    def below(self) -> list[Crate]:
        """The crates below it, each behind those that are below itself."""
        ...

    def stamp(self) -> str:
        """What its sources, and those of all crates below it, come to."""
        ...


def unable(why: str) -> NoReturn:
    """Ends with a line on why nothing can be checked."""
    print(f"{Path(sys.argv[0]).name}: {why}", file=sys.stderr)
    sys.exit(2)


def toolchain() -> tuple[Path, ModuleType]:
    """The folder of the toolchain, and its module on crates."""
    if not shutil.which("rt"):
        unable("it needs the toolchain, whose command rt is missing")
    page = subprocess.run(["rt", "doc"], capture_output=True, text=True, check=True).stdout
    kit = Path(page.strip()).parent
    sys.path.insert(0, str(kit / "bin"))
    rtlib = importlib.import_module("rtlib")
    # A stamp is made of those of all crates below: each once, where that of a high crate took a minute.
    rtlib.Crate.stamp = functools.cache(rtlib.Crate.stamp)
    return kit, rtlib


def crates_in(root: Path, rtlib: ModuleType) -> dict[str, Crate]:
    """The crates of a checkout by name."""
    names = re.findall(r"^(\w+)\b.*:", (root / "crates.txt").read_text(), re.MULTILINE)
    known: dict[str, Crate] = {}
    for name in names:
        folder = str(root / "crates" / name)
        if folder not in known:
            known[folder] = rtlib.Crate(folder, str(root), known)
    return {Path(folder).name: crate for folder, crate in known.items()}


def is_built(crate: Crate, library: Path) -> bool:
    """Whether a library is there and is made of just these sources."""
    stamp = library / "stamp"
    return stamp.is_file() and stamp.read_text() == crate.stamp()


def libraries_of(crate: Crate, checkouts: Iterable[Path]) -> dict[str, Path]:
    """The folders of the libraries below a crate that can be taken as they are, by name: all of one checkout."""
    found = []
    for checkout in checkouts:
        there: dict[str, Path] = {}
        for below in crate.below():
            library = checkout / "crates" / below.name / "out/rlib"
            if all(it.name in there for it in below.below()) and is_built(below, library):
                there[below.name] = library
        found.append(there)
    return max(found, key=len)


def hollow_below(crate: Crate, libraries: Container[str], scratch: Path) -> list[str]:
    """Puts copies without bodies of the crates below that have no library into a folder. Answers their names."""
    names = [below for below in crate.below() if below.name not in libraries]
    for below in names:
        hollow(Path(below.folder), scratch / below.name)
    return [below.name for below in names]


def words_for(crate: Crate, kit: Path, libraries: Mapping[str, Path], scratch: Path) -> list[str]:
    """What `rattle check` is told of the crates and libraries that stand below a crate."""
    kits = {"core", *(name for it in [crate, *crate.below()] for name in it.of_kit)}
    words = [f"--extern={name}={kit}/rlibs/{name}.rlib" for name in sorted(kits)] + ["-L", f"dependency={kit}/rlibs"]
    for below in crate.below():
        if below.name in libraries:
            library = libraries[below.name]
            words += [f"--extern={below.name}={library}/{below.name}.rlib", "-L", f"dependency={library}"]
        else:
            uses = dict.fromkeys(["core", *below.of_kit, *[it.name for it in below.deps]])
            words += ["--lib", f"{below.name}:{','.join(uses)}={scratch / below.name}/src/lib.rt"]
    return [*words, "--antt-project", f"{kit}/rattle/logic/antt-project.json", "--logic-built", f"{kit}/logic_built"]


def check_of(crate: Crate, kit: Path, below: Iterable[str], only: Iterable[str]) -> list[str]:
    """The words of a check of these functions of a crate, by their paths, with holes allowed: what `words_for` answers is `below`."""
    words = [str(kit / "bin/rattle"), "check", "--crate-name", crate.name, "src/main.rt" if crate.is_program else "src/lib.rt"]
    return [*words, *below, "--jobs", "1", "--allow-holes", *(word for path in only for word in ("--only", path))]


class Said:
    """What a check says of what was asked for, apart from what it says of the holes that stand for all other proofs."""

    def __init__(self, crate: str, scratch: Path, hollowed: list[str], functions: list[str]) -> None:
        below = "|".join(hollowed) or "(?!)"
        others = rf"(?!(?:{'|'.join(name.split('::')[-1] for name in functions)})\b)\w+" if functions else "(?!)"
        copies = "|".join(re.escape(f"{scratch / name}/") for name in hollowed) or "(?!)"
        self.hole = re.compile(rf"(?:{copies}|(?:\./)?proofs/(?:[^\s:]+/)?{others}/Proof\.antt:)")
        holes = rf"(?:`Rattle\.(?:(?:{below})\.|{crate}\.proofs\.(?:\w+\.)*{others}\.Proof\.)|the same \d+ declarations as )"
        self.leans = re.compile(rf"^fn (?:(?:{below})::|.*: depends on a hole in {holes})")
        self.in_hole = self.has_holes = self.refused = False

    def is_of_asked(self, line: str) -> bool:
        """Whether a line is of what was asked for. Notes where that is refused."""
        self.in_hole = self.in_hole and line.startswith(" ") or bool(self.hole.match(line))
        leans = self.in_hole or bool(self.leans.match(line))
        self.has_holes = self.has_holes or leans
        self.refused = self.refused or not leans and bool(REFUSED.search(line))
        return not self.in_hole
