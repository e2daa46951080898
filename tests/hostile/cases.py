#!/usr/bin/env python3
"""Hostile cases. `cases.py SEED NUMBER FOLDER` writes the case of that number into a folder: model.toml, policy.rpl,
inputs.csv, edits.csv, traces.csv, and `args`, one word a line. It is the same each time.

A case begins as one of the shipped examples or of tests/cases, so that its files fit one another. Then one file, seldom
two, is spoilt (spoiling.py), or becomes a text at a limit (bombs.py).
"""

import re
import sys
from collections.abc import Callable
from dataclasses import dataclass
from pathlib import Path

import spoiling
from answers import FILES
from bombs import of_limits
from spoiling import Case, Draw, Text, slot_in

TOP = Path(__file__).resolve().parents[2]
FOLDERS = (TOP / "examples", TOP / "tests" / "cases")
LARGEST = 200_000  # bytes of a file that is spoilt
ACCEPTED = 4  # how often a case counts whose files are accepted, so that runs are judged, and not only refusals
OF_CODE = 6  # how much more often one counts whose policy is code, of which there are few
HEADERS = {"inputs": b"slot,step,value\n", "edits": b"batch,slot,step,value\n", "traces": b"trace,slot,step,value\n"}
SLOT = re.compile(rb"[A-Za-z_]\w*\.[A-Za-z_]\w*")
WAYS: dict[Callable[[Draw, Text], bytes] | None, int] = {
    spoiling.of_tokens: 24,
    spoiling.of_values: 30,
    spoiling.of_lines: 14,
    spoiling.of_bytes: 9,
    spoiling.of_pieces: 10,
    spoiling.of_depth: 8,
    spoiling.of_length: 6,
    of_limits: 6,
    spoiling.of_greatest: 1,
    spoiling.of_nothing: 2,
    None: 2,
}
COMMANDS = {"run": 4, "simulate": 2, "check": 2, "why": 2, "compile": 1, "balance": 1, "mrm": 2, "migrate": 1}
READ = {  # the sorts of files that a command reads, where these are others than model, policy and inputs
    "check": ["model", "policy"], "compile": ["model", "policy"], "simulate": ["model", "inputs"],
    "mrm": ["model", "policy", "inputs", "traces"], "migrate": ["model"],
}


@dataclass(frozen=True)
class Hostile:
    """A hostile case: the bytes of its files, its words, the sorts of files that these name, and how it was spoilt."""

    files: Case
    words: list[str]
    sorts: list[str]
    ways: list[str]


def sort_of(path: Path) -> str | None:
    """The sort of a file, or `None`: inputs, edits and traces are told by their header."""
    if path.name == "model.toml":
        return "model"
    if path.name == "code.txt" or path.suffix in (".rpl", ".code"):
        return "policy"
    if path.suffix == ".csv" and path.is_file():
        front = path.read_bytes()[:40]
        return next((sort for sort, header in HEADERS.items() if front.startswith(header.split(b",")[0] + b",")), None)
    return None


def corpus_of(folders: tuple[Path, ...] = FOLDERS) -> list[Case]:
    """The cases of these folders, those whose files are accepted several times."""
    cases: list[Case] = []
    for folder in (model.parent for top in folders for model in sorted(top.rglob("model.toml"))):
        case: Case = {}
        for path in sorted(folder.iterdir()):
            sort = sort_of(path)
            if sort and sort not in case and path.stat().st_size <= LARGEST:
                case[sort] = path.read_bytes()
        status = folder / "status"
        refused = status.exists() and int(status.read_text()) > 1
        code = case.get("policy", b"").startswith(b"CODE 1")
        cases += [case] * (1 if refused else ACCEPTED) * (OF_CODE if code else 1) if "model" in case else []
    return cases


def cell_of(draw: Draw, case: Case) -> list[str]:
    """A slot and a timestep for `why`, mostly ones that are there."""
    told = [name.decode() for name in SLOT.findall(case["inputs"] + case["policy"])]
    slot = draw.choice(told) if told and draw.random() < 0.8 else slot_in(draw, case["model"])
    return [slot, draw.choice(["1", "1", "2", "3", "0", "4096", "x", "1" * 19])]


def words_of(draw: Draw, case: Case) -> tuple[list[str], list[str]]:
    """Words of a command, and the sorts of the files that it reads."""
    command = draw.choices(list(COMMANDS), list(COMMANDS.values()))[0]
    read = list(READ.get(command, ["model", "policy", "inputs"]))
    words = [command, *(FILES[sort] for sort in read)]
    if command == "why":
        words += cell_of(draw, case)
    if command in ("run", "simulate"):
        words += [option for option in ("--flags", "--trace") if draw.random() < 0.4]
    if command == "simulate" and draw.random() < 0.3:
        words += [f"--order={draw.choice(['oldest', 'newest', 'newest'])}"]
    if command == "run" and draw.random() < (0.8 if "edits" in case else 0.2):
        words += ["--edits", FILES["edits"]]
        read.append("edits")
    if command == "run" and draw.random() < 0.6:
        words += ["--reuse"]
    elif "--trace" in words and draw.random() < 0.5:
        words += ["--asked"]
    return words, read


def completed(draw: Draw, case: Case, corpus: list[Case]) -> Case:
    """A case with a file of each sort, mostly its own."""
    case = dict(case)
    case.setdefault("inputs", HEADERS["inputs"])
    if "policy" not in case:
        case["policy"] = draw.choice(corpus).get("policy", b"") if draw.random() < 0.5 else b""
    if "edits" not in case and draw.random() < 0.5:
        row = f"1,{slot_in(draw, case['model'])},1,{draw.choice([0, 5, 100])}\n"
        case["edits"] = HEADERS["edits"] + row.encode()
    if "edits" in case:
        case.setdefault("traces", HEADERS["traces"] + case["edits"].partition(b"\n")[2])
    return case


def case_of(corpus: list[Case], seed: int, number: int) -> Hostile:
    """The case of a seed and a number."""
    draw = Draw(f"{seed}:{number}")
    case = completed(draw, draw.choice(corpus), corpus)
    words, sorts = words_of(draw, case)
    for sort in ("edits", "traces"):
        case.setdefault(sort, HEADERS[sort])
    ways = []
    for _ in range(draw.choice([1, 1, 1, 1, 2])):
        # a model that is refused hides what is wrong with the other files
        sort = draw.choices(sorts, [1 if sort == "model" else 2 for sort in sorts])[0]
        way = draw.choices(list(WAYS), list(WAYS.values()))[0] if len(case[sort]) <= LARGEST else None
        ways.append(f"{way.__name__ if way else 'as it is'} {sort}")
        if way:
            case[sort] = way(draw, Text(sort, case[sort], case["model"], corpus))
    return Hostile(case, words, sorts, ways)


def write(case: Hostile, folder: Path) -> None:
    """Writes the files of a case into a folder."""
    for sort, name in FILES.items():
        (folder / name).write_bytes(case.files[sort])


def main() -> int:
    """Writes one case."""
    if len(sys.argv) != 4:
        sys.exit(__doc__)
    seed, number, folder = int(sys.argv[1]), int(sys.argv[2]), Path(sys.argv[3])
    case = case_of(corpus_of(), seed, number)
    folder.mkdir(parents=True, exist_ok=True)
    write(case, folder)
    (folder / "args").write_text("".join(f"{word}\n" for word in case.words))
    print(", ".join(case.ways))
    return 0


if __name__ == "__main__":
    sys.exit(main())
