"""Requirements beside a policy: the policy does what it does without them, and each requirement fires once a timestep."""

import os
import re
import subprocess
import tempfile
from collections import Counter
from collections.abc import Iterator
from concurrent.futures import ThreadPoolExecutor
from pathlib import Path

from basin_files.judging import read_model
from basin_require.beside import Beside
from basin_require.reading import read_requirements
from basin_require.running import answered
from basin_rules.places import Source

TOP = Path(__file__).resolve().parents[2]
NAMES = ("model.toml", "policy.rpl", "inputs.csv")
MOST_BESIDE = 10
FEWEST = 400  # runs that must be compared, so that this test does not pass because the program refuses everything
Three = tuple[Path, ...]  # a model, a policy and inputs


def of_requirements() -> Iterator[tuple[str, str | None]]:
    """A requirement is a rule that the agenda reaches last. It changes no other cell, flag or fault, and fires once in each
    timestep that is opened and closed: in every example and case with rules, with both agendas."""
    compared = 0
    runs = [(agenda, files) for files in all_files() for agenda in ("321", "123")]
    with ThreadPoolExecutor() as pool:
        for (agenda, files), found in zip(runs, pool.map(lambda run: beside_requirements(run[0], *run[1]), runs)):
            compared += found is not None
            if found is not None:
                yield f"{files[1].parent.name}/{files[1].name} beside requirements, {agenda}", found or None
    yield "policies beside requirements", None if compared >= FEWEST else f"{compared} runs were compared"


def all_files() -> Iterator[Three]:
    """Yields the files of each run, once."""
    known = set()
    for files in (*of_folders(), *of_cases()):
        contents = tuple(file.read_bytes() for file in files)
        if contents not in known:
            known.add(contents)
            yield files


def of_folders() -> Iterator[Three]:
    """Yields the rulesets of the examples and of tests/language."""
    for policy in sorted((*TOP.glob("examples/*/*.rpl"), *TOP.glob("tests/language/*/policy.rpl"))):
        places = (policy.parent / NAMES[0], policy, policy.parent / NAMES[2])
        yield tuple(path if path.exists() else TOP / "tests/language/first" / path.name for path in places)


def of_cases() -> Iterator[Three]:
    """Yields the runs of tests/cases: without the edits, where a case has some."""
    for case in sorted((TOP / "tests/cases").glob("*/*")):
        words = (case / "args").read_text().split("\n")
        files = tuple(case / word for word in words[1:4])
        if words[0] == "run" and len(files) == 3 and all(file.is_file() for file in files):
            yield files


def with_agenda(text: str, agenda: str) -> str:
    """Returns a model with this agenda."""
    text = re.sub(r'^agenda = .*\n', "", text, flags=re.MULTILINE)
    text = re.sub(r'agenda = "[0-9]*", *', "", text)
    text = re.sub(r"^\[run\][ \t]*\n", f'[run]\nagenda = "{agenda}"\n', text, flags=re.MULTILINE)
    return re.sub(r"^run = \{", f'run = {{ agenda = "{agenda}",', text, flags=re.MULTILINE)


def beside_requirements(agenda: str, model_path: Path, policy: Path, inputs: Path) -> str | None:
    """Returns what differs, or ""; `None` if the program refuses the files."""
    text = with_agenda(model_path.read_bytes().decode("utf-8", "replace"), agenda)
    with tempfile.TemporaryDirectory() as folder:
        model = Path(folder) / "model.toml"
        model.write_text(text)
        alone = ran("run", model, policy, inputs, "--flags")
        if not alone:
            return None
        beside = Beside(read_requirements(asked_of(text)), text.encode(), policy.read_bytes(), answered)
        if beside.before != (len(beside.asked) if agenda == "321" else 0):
            return "another agenda"
        model.write_bytes(beside.model)
        code = Path(folder) / "policy.code"
        code.write_text(beside.code, "latin-1")
        if without(beside, ran("run", model, code, inputs, "--flags")) != alone.splitlines():
            return "other cells, flags or faults"
        return firings(beside, ran("run", model, code, inputs, "--trace").splitlines())


def asked_of(text: str) -> Source:
    """Returns requirements that read the first slots of a model, and two of which one reads what may be unknown."""
    slots = list(read_model(text.encode()).slots)
    asked = "".join(f'REQUIRE "r{k}": {slot}[t] >= {slot}[t];\n' for k, slot in enumerate(slots[: MOST_BESIDE - 1]))
    return Source("asked", f'{asked}REQUIRE "k": KNOWN({slots[0]}[t]) OR NOT KNOWN({slots[-1]}[t]);\n'.encode())


def firings(beside: Beside, trace: list[str]) -> str:
    """Returns which requirement does not fire once in a timestep that is opened and closed, or ""."""
    first = 1 if beside.before else beside.policy_rules + 1
    mine = {str(number): 0 for number in range(first, first + len(beside.asked))}
    found: Counter[str] = Counter()
    opened = ""
    for line in trace:
        word, _, more = line.partition(" ")
        if word == "open":
            opened, found = more, Counter()
        elif word == "fire" and opened:
            found[more.split()[0]] += 1
        elif word == "close" and opened:
            if wrong := [number for number in mine if found[number] != 1]:
                return f"in timestep {more} rule {wrong[0]} fires {found[wrong[0]]} times"
            opened = ""
    return ""


def ran(*words: str | Path) -> str:
    """What the program writes, or nothing where it refuses a file."""
    return subprocess.run([os.environ["BASIN"], *map(str, words)], capture_output=True, text=True, check=False).stdout


def without(beside: Beside, output: str) -> list[str]:
    """The lines of an output without the columns of requirements, and with the numbers of rules that the policy has."""
    lines: list[str] = []
    count, beside_cells = len(beside.asked), 2
    for line in output.splitlines():
        if line.startswith("#"):
            beside_cells = 1 if line == "# flags" else 2
            lines.append(beside.of_fault(line)[0])
            continue
        cells = line.split(",")
        cells = cells[:beside_cells] + cells[beside_cells + count :]
        if beside_cells == 1 and cells[0] != "step":
            cells = [cells[0], *(flag_of(beside, flag) for flag in cells[1:])]
        lines.append(",".join(cells))
    return lines


def flag_of(beside: Beside, flag: str) -> str:
    """A flag with the number of the rule that the policy has."""
    return flag if not flag or flag[1:] == "0" else f"{flag[0]}{int(flag[1:]) - beside.before}"
