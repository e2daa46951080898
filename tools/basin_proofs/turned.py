"""Edits that must fail: which functions they turn, and what a check of a copy says of each of these functions."""

import re
from dataclasses import dataclass
from pathlib import Path

from .hollow import functions_of, homes_of, module_of

CYCLE = re.compile(r" *#\[cycle\((\w+)\)\]")
OWN = re.compile(r"(?:note: )?(?:\./)?((?:src|proofs)/[^\s:]+):(\d+):\d+: (.*)")
REFUSED, PASSED, HIDDEN, UNKNOWN = "refused", "passed", "hidden", "unknown"


@dataclass(frozen=True)
class Function:
    """A function of a crate: its file, its path as a check says it, its name, its cycle, and its lines, counted from 1."""

    file: str
    path: str
    name: str
    cycle: str
    head: int
    body: int
    last: int

    def has(self, file: str, line: int) -> bool:
        """Whether a line of a file is of its head or its body."""
        return self.file == file and self.head <= line <= self.last


@dataclass(frozen=True)
class Edit:
    """An edit: its name, and for each pair of lines the file, the old text and the new one."""

    name: str
    pairs: tuple[tuple[str, str, str], ...]


def cycle_above(lines: list[str], head: int) -> str:
    """The cycle that stands above a function's head; empty where none does."""
    for at in range(head - 1, -1, -1):
        if not lines[at].lstrip().startswith(("#[", "///")):
            return ""
        if found := CYCLE.match(lines[at]):
            return found[1]
    return ""


def functions_in(crate: Path) -> list[Function]:
    """The functions of a crate that have bodies."""
    homes, found = homes_of(crate), []
    for file in sorted(crate.glob("src/**/*.rt")):
        lines = file.read_text(encoding="utf-8").split("\n")
        for at, owner, name, body in functions_of(lines):
            if body:
                module = homes.get(owner.type if owner else "", module_of(crate, file))
                parts = [crate.name, *module, *([owner.type + owner.trait] if owner else []), name]
                where = str(file.relative_to(crate))
                cycle = cycle_above(lines, at)
                found.append(Function(where, "::".join(parts), name, cycle, at + 1, body.first + 1, body.last + 1))
    return found


def edits_of(crate: Path, *folders: str) -> list[Edit]:
    """The edits that a crate has in these folders."""
    found = []
    for path in sorted(it for folder in folders for it in crate.glob(f"{folder}/*.edit")):
        file, old, pairs = "", "", []
        for line in path.read_text(encoding="utf-8").split("\n"):
            if line.startswith("file: "):
                file = line.removeprefix("file: ").strip()
            elif line.startswith("old: "):
                old = line.removeprefix("old: ")
            elif line.startswith("new:"):
                pairs.append((file, old, line.removeprefix("new:").removeprefix(" ")))
        found.append(Edit(path.stem, tuple(pairs)))
    return found


def turned_by(crate: Path, edit: Edit, functions: list[Function]) -> Function | None:
    """The one function whose body an edit turns; `None` where it turns something else."""
    found = set()
    for file, old, _ in edit.pairs:
        line = (crate / file).read_text(encoding="utf-8").partition(old)[0].count("\n") + 1
        found.add(next((it for it in functions if it.file == file and it.body <= line <= it.last), None))
    return found.pop() if len(found) == 1 else None


def with_cycles(chosen: list[Function], functions: list[Function]) -> list[Function]:
    """These functions, and those that stand in one cycle with one of them."""
    cycles = {it.cycle for it in chosen} - {""}
    return [it for it in functions if it in chosen or it.cycle in cycles]


def apply(copy: Path, edit: Edit) -> None:
    """Makes an edit in a copy of its crate."""
    for file, old, new in edit.pairs:
        text = (copy / file).read_text(encoding="utf-8")
        (copy / file).write_text(text.replace(old, new), encoding="utf-8")


def own_of(said: str, of: list[Function]) -> str:
    """What a check says against the own proofs of functions, first; empty where it says nothing. Their lines are those of what was checked."""
    proofs = tuple(f"proofs/{'/'.join(it.path.split('::')[1:])}/" for it in of)
    cycles = {f"+{it.cycle}" for it in of if it.cycle}
    for line in said.split("\n"):
        if not (found := OWN.match(line)):
            continue
        file, at, what = found[1], int(found[2]), found[3]
        is_own_proof = file.startswith(proofs) or not cycles.isdisjoint(file.split("/"))
        if is_own_proof and what.startswith("error") or "it is not proved" in what and any(it.has(file, at) for it in of):
            return line
    return ""


def judged(said: str, of: list[Function]) -> tuple[str, str]:
    """What a check came to for functions that were turned, with the line that says so."""
    if own := own_of(said, of):
        return REFUSED, own
    paths = {it.path for it in of}
    lines = [line for line in said.split("\n") if line.startswith("fn ") and line[3:].partition(": ")[0] in paths]
    if refused := [line for line in lines if "did not prove" in line]:
        return REFUSED, refused[0]
    if any("not proved" in line and "it calls" in line for line in lines):
        return HIDDEN, "; ".join(lines)
    is_proved = len(lines) == len(paths) and all(": no holes" in line or ": depends on a hole" in line for line in lines)
    return (PASSED if is_proved else UNKNOWN), "; ".join(lines)
