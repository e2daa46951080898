"""Makes the module of a library over the top call: proved in a copy of the crates, over the libraries that the gate has left, or without
proofs."""

from __future__ import annotations

import os
import shutil
import subprocess
from pathlib import Path

from basin_proofs.checking import Crate, crates_in, toolchain

TOP = Path(__file__).resolve().parents[2]
ENGINE = TOP / "web/engine"
OURS = ("page_ends", "page_call", "page")
KEPT_MODULE = TOP / "tools/basin_proofs/kept_module"
# Where the texts of a crate stand, and how they are called there. In the repository they end in .txt, since the gate refuses a
# crate of this sort.
PARTS = {"src": ".rt", "specs": ".antt", "proofs": ".antt"}


class Unmade(Exception):
    """Why no module was made."""


def kit() -> Path:
    """The folder of the toolchain."""
    return toolchain()[0]


def link_or_copy(source: str, copy: str) -> str:
    """Gives a file of a library a second name, since nothing writes into it."""
    try:
        os.link(source, copy)
    except OSError:
        shutil.copyfile(source, copy)
    return copy


def copy_crates(copy: Path, is_proved: bool) -> None:
    """Puts the crates into a folder, with those of a page, and with the libraries that the gate left."""
    shutil.copytree(TOP / "crates", copy / "crates", ignore=shutil.ignore_patterns("out", "must-fail", "more-edits"))
    shutil.copy(TOP / "HANDLES", copy)
    for name in OURS:
        for part, suffix in PARTS.items():
            for text in sorted((ENGINE / name / part).rglob("*.txt")):
                there = copy / "crates" / name / text.relative_to(ENGINE / name).with_suffix(suffix)
                there.parent.mkdir(parents=True, exist_ok=True)
                shutil.copy(text, there)
    rows = (ENGINE / "rows.txt").read_text()
    if not is_proved:
        rows = rows.replace(" staticlib:", ":")
        root = copy / "crates/page/src/lib.rt"
        root.with_name("main.rt").write_text(root.read_text() + (ENGINE / "page/main.txt").read_text())
        root.unlink()
    (copy / "crates.txt").write_text((TOP / "crates.txt").read_text() + rows)


def is_of_these_sources(crate: Path, library: Path) -> bool:
    """Whether a library is there and no file of the crate was changed since the gate left it."""
    texts = [text for part in PARTS for text in (crate / part).rglob("*") if text.is_file()]
    return library.is_dir() and all(text.stat().st_mtime <= library.stat().st_mtime for text in texts)


def take_libraries(copy: Path) -> None:
    """Takes the libraries that the gate left as built. Such libraries have no mark of their sources, which `rt lib` looks for."""
    _, rtlib = toolchain()
    crates = crates_in(copy, rtlib)
    below: list[Crate] = [crate for crate in crates["page"].below() if crate.name not in OURS]
    for crate in below:
        library = TOP / "crates" / crate.name / f"out/rlib/{crate.name}.rlib"
        if not is_of_these_sources(TOP / "crates" / crate.name, library):
            raise Unmade(f"the gate has not proved {crate.name} as it is: rt ci does, before this")
        there = copy / "crates" / crate.name / "out/rlib"
        shutil.copytree(library, there / library.name, copy_function=link_or_copy)
        (there / "stamp").write_text(crate.stamp())


def module_of(copy: Path, kept: Path, is_proved: bool) -> Path:
    """The module of the page's library, which is proved first, or of a program with the same call, without proofs."""
    copy_crates(copy, is_proved)
    if is_proved:
        take_libraries(copy)
    made = subprocess.run([KEPT_MODULE, "lib" if is_proved else "try", copy / "crates/page", kept], check=False)
    if made.returncode:
        raise Unmade("the page's library is not proved" if is_proved else "the page's library is refused")
    return kept / "module.bc"


def verdict(kept: Path) -> str:
    """The verdict on the library that has the export."""
    lines = (kept / "log").read_text(errors="replace").splitlines()
    return next((line for line in reversed(lines) if line.startswith("logic=")), "")
