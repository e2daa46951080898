"""Whether what is to be released is what the last gate passed: its note, the version, the commit, the program."""

import hashlib
import re
import subprocess
from dataclasses import dataclass
from pathlib import Path

from basin_files.program import Unable

PROGRAM = Path("crates/basin/out/basin")
NOTE = Path("crates/basin/out/gate.txt")
SEMANTIC = r"(0|[1-9][0-9]*)\.(0|[1-9][0-9]*)\.(0|[1-9][0-9]*)"
FORM = re.compile(r"commit ([0-9a-f]{40})\ntoolchain (.+)\nprogram ([0-9a-f]{64})\nlines\n(.+)", re.DOTALL)


@dataclass(frozen=True)
class Gate:
    """What `.ci/run --release` noted when all of it had passed."""

    commit: str
    toolchain: str
    checksum: str  # of the program, SHA-256
    lines: str  # the last ones of the gate and of the tests behind it


def checksum(content: bytes) -> str:
    """The SHA-256 of a file's bytes."""
    return hashlib.sha256(content).hexdigest()


def git(top: Path, *words: str) -> str:
    """What git answers in the repository."""
    try:
        done = subprocess.run(["git", "-C", str(top), *words], capture_output=True, text=True, check=False)
    except OSError:
        raise Unable("git isn't there") from None
    if done.returncode:
        raise Unable(f"git {words[0]} failed: {done.stderr.strip()}")
    return done.stdout


def noted(top: Path) -> Gate:
    """The note of the gate."""
    try:
        found = FORM.fullmatch((top / NOTE).read_text())
    except OSError:
        raise Unable(f"the gate left no note {NOTE}: run .ci/run --release") from None
    if not found:
        raise Unable(f"{NOTE} is no note of the gate: run .ci/run --release")
    return Gate(*found.groups())


def judge_version(top: Path, version: str) -> None:
    """The version is the one that stands in VERSION, and CHANGELOG.md tells of it."""
    stands = (top / "VERSION").read_text().strip()
    if not re.fullmatch(SEMANTIC, version):
        raise Unable("a version is MAJOR.MINOR.PATCH, as 0.1.0")
    if version != stands:
        raise Unable(f"VERSION has {stands}, and not {version}")
    if f"\n## {version}\n" not in (top / "CHANGELOG.md").read_text():
        raise Unable(f"CHANGELOG.md has no section {version}")


def passed(top: Path, version: str) -> Gate:
    """The gate that what is there passed, as it is there."""
    judge_version(top, version)
    if changed := git(top, "status", "--porcelain"):
        raise Unable(f"the tree has changes: {changed.splitlines()[0].strip()}")
    gate = noted(top)
    head = git(top, "rev-parse", "HEAD").strip()
    if gate.commit != head:
        raise Unable(f"the gate passed commit {gate.commit[:12]}, and {head[:12]} is there: run .ci/run --release")
    if not (top / PROGRAM).is_file() or checksum((top / PROGRAM).read_bytes()) != gate.checksum:
        raise Unable(f"{PROGRAM} isn't the program that the gate left: run .ci/run --release")
    return gate
