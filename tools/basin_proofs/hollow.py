"""Copies of crates in which functions have no body, and a hole for a proof: a check of what stands above them goes by their
contracts alone, and needs none of their proofs."""

import re
import shutil
from collections.abc import Collection, Set
from dataclasses import dataclass
from pathlib import Path

LEFT_OUT = shutil.ignore_patterns("out", "must-fail", "more-edits")
HEAD_OF_IMPL = re.compile(r"impl(?:<(.*?)>)? (.*?)(?: \{| where|$)")
HEAD_OF_TRAIT = re.compile(r"(?:pub(?:\([a-z]+\))? )?trait ")
DECLARED = re.compile(r"^(?:pub(?:\([a-z]+\))? )?(?:struct|enum) (\w+)", re.MULTILINE)
HEAD_OF_FUNCTION = re.compile(r"( *)(?:pub(?:\([a-z]+\))? )?fn (\w+)")
CLAUSE = re.compile(r" *(requires|ensures|ghost)\b")
OF_A_PROOF = re.compile(r" *#\[(cycle|tactic)")
HOLE = """use Rattle.{crate}.proofs.{path}.Statement.{{statement}}

pub {name}_spec : {{M : Type 1}} → statement M
{name}_spec = ?
"""


@dataclass(frozen=True)
class Body:
    """Where a function's body stands in a file: the line that opens it and the one that closes it, both at this indent."""

    first: int
    last: int
    indent: str


@dataclass(frozen=True)
class Owner:
    """What an `impl` is of: its type, and behind that the trait's name with what it is of, as proofs spell them."""

    type: str
    trait: str


def owner_of(parameters: str | None, head: str) -> Owner:
    """What the head of an `impl` with such parameters says that it is of."""
    trait, _, owner = head.rpartition(" for ")
    free = re.findall(r"\w+", parameters or "")
    return Owner(re.sub(r"<.*", "", owner).strip("& "), "".join(w for w in re.findall(r"\w+", trait) if w not in free))


def body_of(lines: list[str], at: int, indent: str) -> Body | None:
    """The body of the function whose head begins at this line; None where it has none, or an empty one.

    Behind clauses a body's bracket stands in a line of its own."""
    has_clauses = False
    for first in range(at, len(lines)):
        line = lines[first]
        has_clauses = has_clauses or bool(CLAUSE.match(line))
        if line == f"{indent}{{}}" or not has_clauses and line.endswith((" {}", ";")):
            return None
        if line == f"{indent}{{" or not has_clauses and line.endswith(" {"):
            return Body(first, lines.index(f"{indent}}}", first), indent)
    return None


def functions_of(lines: list[str]) -> list[tuple[int, Owner | None, str, Body | None]]:
    """The functions of a file but those of traits: the line of each head, what owns it, its name and its body."""
    owner: Owner | None = None
    found: list[tuple[int, Owner | None, str, Body | None]] = []
    in_trait = False
    for at, line in enumerate(lines):
        if head := HEAD_OF_IMPL.match(line):
            owner = owner_of(head[1], head[2])
        elif HEAD_OF_TRAIT.match(line):
            in_trait = True
        elif line == "}":
            owner, in_trait = None, False
        elif (head := HEAD_OF_FUNCTION.match(line)) and not in_trait:
            found.append((at, owner if head[1] else None, head[2], body_of(lines, at, head[1])))
    return found


def module_of(crate: Path, file: Path) -> list[str]:
    """The parts of the path of a file's module."""
    return [part for part in file.relative_to(crate / "src").with_suffix("").parts if part not in ("lib", "main")]


def homes_of(crate: Path) -> dict[str, list[str]]:
    """The module of each type of a crate: proofs name its functions by that, wherever their `impl` stands."""
    return {
        name: module_of(crate, file)
        for file in sorted(crate.glob("src/**/*.rt"))
        for name in DECLARED.findall(file.read_text(encoding="utf-8"))
    }


def write_hole(crate: Path, parts: list[str], name: str) -> None:
    """Puts a hole in the place of what a function's proof was."""
    folder = crate.joinpath("proofs", *parts)
    shutil.rmtree(folder, ignore_errors=True)
    folder.mkdir(parents=True)
    text = HOLE.format(crate=crate.name, path=".".join(parts), name=name)
    (folder / "Proof.antt").write_text(text, encoding="utf-8")


def hollow_file(crate: Path, file: Path, homes: dict[str, list[str]], kept: Collection[str]) -> None:
    """Takes the bodies out of a file of a copied crate, but for the functions whose names or paths are kept."""
    lines = file.read_text(encoding="utf-8").split("\n")
    gone: set[int] = set()
    for at, owner, name, body in functions_of(lines):
        module = homes.get(owner.type if owner else "", module_of(crate, file))
        parts = [*module, *([owner.type + owner.trait] if owner else []), name]
        if name in kept or "::".join([crate.name, *parts]) in kept:
            continue
        write_hole(crate, parts, name)
        if body:
            gone |= {*range(body.first + 1, body.last)}
            lines[body.first] += f"\n{body.indent}    unreachable!()"
        above = at - 1
        while above >= 0 and lines[above].lstrip().startswith(("#[", "///")):
            if OF_A_PROOF.match(lines[above]):
                gone.add(above)
            above -= 1
    file.write_text("\n".join(line for at, line in enumerate(lines) if at not in gone), encoding="utf-8")


def paths_in(crate: Path) -> list[str]:
    """The functions of a crate, by the paths under which a check knows them."""
    homes, found = homes_of(crate), []
    for file in sorted(crate.glob("src/**/*.rt")):
        for _, owner, name, _ in functions_of(file.read_text(encoding="utf-8").split("\n")):
            module = homes.get(owner.type if owner else "", module_of(crate, file))
            found.append("::".join([crate.name, *module, *([owner.type + owner.trait] if owner else []), name]))
    return found


def hollow(source: Path, copy: Path, kept: Set[str] = frozenset()) -> None:
    """Copies a crate without its bodies and proofs, but for those of the functions whose names are kept, or whose paths, as
    `paths_in` has them, beside `+NAME` for each cycle of theirs. The copy's folder has the crate's name."""
    shutil.rmtree(copy, ignore_errors=True)
    shutil.copytree(source, copy, ignore=LEFT_OUT)
    for cycle in copy.glob("proofs/**/+*"):
        if kept.isdisjoint((cycle.name, cycle.name[1:])):
            shutil.rmtree(cycle)
    homes = homes_of(copy)
    for file in sorted(copy.glob("src/**/*.rt")):
        hollow_file(copy, file, homes, kept)
