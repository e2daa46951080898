"""tests/workbench/parts.py [PROGRAM]: what needs no browser. The near walk tells the same as the whole walk, at timesteps of all
examples; each object of each example is renamed, which changes no number, and deleted, and each link is taken away. Ends with a
line 'N passed, M failed'."""

import json
import os
import random
import sys
from collections.abc import Iterator
from pathlib import Path

TOP = Path(__file__).resolve().parents[2]
sys.path.insert(0, str(TOP / "tools"))
os.environ["BASIN"] = str(Path(sys.argv[1]).resolve()) if len(sys.argv) > 1 else str(TOP / "crates/basin/out/basin")

from basin_files.model import Model  # noqa: E402
from basin_report.story import Teller  # noqa: E402
from basin_workbench import modelling, running  # noqa: E402

STEPS = 8  # of an example, at random


def texts_of(folder: Path) -> dict[str, str]:
    """The texts of an example."""
    names = {"model": "model.toml", "policy": "policy.rpl", "inputs": "inputs.csv"}
    return {part: (folder / name).read_bytes().decode() for part, name in names.items() if (folder / name).exists()}


def of_texts(texts: dict[str, str]) -> running.Texts:
    """The same, to be run."""
    return running.Texts(texts["model"], texts.get("policy"), texts["inputs"])


def good(texts: dict[str, str]) -> Model:
    """The model, with which nothing is wrong."""
    model = running.good(texts["model"])
    assert model
    return model


def of_walks(texts: dict[str, str]) -> Iterator[tuple[str, bool]]:
    """The near walk and the whole one."""
    model = good(texts)
    _, walk, _ = running.walk_of(running.Runner(), of_texts(texts), "whole")
    count = model.run.count
    for step in sorted(random.Random(1).sample(range(1, count + 1), min(STEPS, count))):
        whole = Teller(model, walk).story(max(1, step - model.ahead), step, 10**9).text
        yield f"why at {step}", json.loads(whole) == json.loads(running.why(running.Runner(), of_texts(texts), step))


def of_changes(texts: dict[str, str]) -> Iterator[tuple[str, bool]]:
    """Changes of the model."""
    model, runner = good(texts), running.Runner()
    before = running.ran(runner, of_texts(texts))[1].partition(b"\n# flags")[0].split(b"\n")
    for thing in model.objects:
        after = modelling.changed(texts, {"act": "rename", "object": thing.name, "name": "Renamed_"})["texts"]
        told, output = running.ran(runner, of_texts(after))
        rows = output.partition(b"\n# flags")[0].split(b"\n")
        yield f"{thing.name} renamed", told["status"] < 2 and rows[2:] == before[2:] and rows[1].count(b",") == before[1].count(b",")
        if len(model.objects) > 1:
            left = modelling.changed(texts, {"act": "delete", "object": thing.name})["texts"]
            yield f"{thing.name} deleted", running.good(left["model"]) is not None
    for link in model.links:
        left = modelling.changed(texts, {"act": "unlink", "slots": link})["texts"]
        yield f"unlinked {link}", running.good(left["model"]) is not None


def main() -> int:
    """Tries all, and tells."""
    passed = failed = 0
    for path in sorted((TOP / "examples").glob("*/model.toml")):
        texts = texts_of(path.parent)
        for part in (of_walks, of_changes):
            for name, is_right in part(texts):
                passed, failed = passed + is_right, failed + (not is_right)
                if not is_right:
                    print(f"FAILED {path.parent.name}: {name}")
    print(f"{passed} passed, {failed} failed")
    return int(failed > 0)


if __name__ == "__main__":
    sys.exit(main())
