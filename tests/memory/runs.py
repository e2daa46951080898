"""What `run` and `calls` share: the libraries that let requests of a program fail, and the runs on which they do."""

import shutil
import subprocess
import sys
from collections.abc import Iterator
from dataclasses import dataclass
from pathlib import Path

HERE = Path(__file__).resolve().parent
sys.path.insert(0, str(HERE.parent))

from packages import lacking  # noqa: E402

TOP = HERE.parents[1]
BUILT = TOP / "crates" / "basin" / "out" / "basin"
CASES = (
    "flags-and-trace/storage-cap",  # a run with flags and trace
    "reuse/flags-and-trace",  # edits and reuse
    "reuse/linked-slots",
    "reuse/a-fault-goes",
    "reuse/a-year-of-nine-objects",
    "simulate/routed-reaches-in-a-row",  # networks
    "simulate/linked-objects-conflict",
    "order/canal-newest-first",
    "code/loop-run",
    "compile/storage-cap",
    "why/storage-cap-outflow",
    "sample/seed-1",
    "balance/each-kind-that-holds-water",  # books
    "balance/fault",
    "mrm/by-rules",  # many runs
    "mrm/first-faults-last-settles",
    "migrate/all-keys-of-a-run",
    "words/none",  # a refusal of each status
    "first-path/missing-inputs",
    "readers/not-toml",
    "check/unknown-name",
    "edits/first-batch-is-two",
    "code/truncated",
    "mrm/traces-65",
    "migrate/unknown-key",
)


@dataclass(frozen=True)
class Run:
    """The words of a run, and the folder in which it is started."""

    folder: Path
    words: list[str]

    def __str__(self) -> str:
        return f"{self.folder.relative_to(TOP)}: {' '.join(self.words)}"


@dataclass(frozen=True)
class Answer:
    """How a run ended."""

    status: int
    output: bytes
    errors: bytes


def library(name: str, folder: Path) -> Path | None:
    """The library of a C file here, built into a folder; `None`, which is told, where there is no compiler."""
    if not shutil.which("cc"):
        if lacking(name, "gcc"):
            sys.exit(1)
        return None
    built = folder / f"{name}.so"
    words = ["cc", "-O1", "-Wall", "-Werror", "-shared", "-fPIC", "-o", str(built), str(HERE / f"{name}.c")]
    subprocess.run(words, check=True)
    return built


def answer_of(program: Path, run: Run, **environment: str) -> Answer:
    """How the program ends on a run, with these variables and no other ones."""
    words = [str(program), *run.words]
    done = subprocess.run(
        words, cwd=run.folder, env=environment, stdin=subprocess.DEVNULL, capture_output=True, check=False
    )
    return Answer(done.returncode, done.stdout, done.stderr)


def of_cases() -> Iterator[Run]:
    """Worked examples of tests/cases."""
    for name in CASES:
        folder = TOP / "tests" / "cases" / name
        yield Run(folder, (folder / "args").read_text().splitlines())


def of_example(folder: Path) -> Iterator[Run]:
    """All commands that the files of a shipped example allow."""
    more = ["--flags", "--trace"]
    yield Run(folder, ["migrate", "model.toml"])
    if not (folder / "policy.rpl").exists():
        yield Run(folder, ["simulate", "model.toml", "inputs.csv"])
        yield Run(folder, ["simulate", "model.toml", "inputs.csv", *more, "--order", "newest"])
        yield Run(folder, ["simulate", "model.toml", "inputs.csv", "--trace", "--asked"])
        return
    table = (folder / "table.csv").read_text().splitlines()
    slot, step = table[1].split(",")[2], table[-1].split(",")[0]
    yield Run(folder, ["check", "model.toml", "policy.rpl"])
    yield Run(folder, ["compile", "model.toml", "policy.rpl"])
    run = ["run", "model.toml", "policy.rpl", "inputs.csv"]
    yield Run(folder, run + more)
    yield Run(folder, [*run, "--trace", "--asked"])
    yield Run(folder, ["why", *run[1:], slot, step])
    yield Run(folder, ["balance", *run[1:]])
    if (folder / "traces.csv").exists():
        yield Run(folder, ["mrm", *run[1:], "traces.csv"])
    if (folder / "edits.csv").exists():
        yield Run(folder, [*run, "--edits", "edits.csv"])
        yield Run(folder, [*run, "--edits", "edits.csv", "--reuse", *more])


def all_runs() -> list[Run]:
    """All of these."""
    folders = sorted(path for path in (TOP / "examples").iterdir() if path.is_dir())
    return [*of_cases(), *(run for folder in folders for run in of_example(folder))]


def program_of(path: str | Path) -> Path:
    """The program at a path."""
    program = Path(path).resolve()
    if not program.is_file():
        sys.exit(f"{Path(sys.argv[0]).name}: there is no program {program}")
    return program
