"""Options that several tools have: one word for one thing, with the words that a tool had for it before.

Each pair of calls writes the same bytes with the same status; what `-o` names has what stood on the output, and a call
that fails makes no file.
"""

import tempfile
from collections.abc import Callable, Iterator
from pathlib import Path

Run = Callable[..., tuple[int, bytes, bytes]]  # runs a tool: its status, its output and its error stream
VALLEY = "model.toml", "policy.rpl", "inputs.csv"
NO_PLACE = "model.toml", "inputs.csv", "--policy", "policy.rpl"
# A tool, its words, and other words that mean the same.
ALIKE = (
    ("effect", (*VALLEY, "--edits", "edits.csv", "--batch", "1"), (*NO_PLACE, "--edits", "edits.csv", "--batches", "1")),
    ("rules", VALLEY[:2], ("--policy=policy.rpl", "model.toml")),
    ("rules", VALLEY[:2], ("model.toml", "--pol", "policy.rpl")),
    ("why", (*VALLEY, "Lower.Outflow", "200"), (*NO_PLACE, "Lower.Outflow", "200")),
    ("why", (*VALLEY, "Lower.Outflow", "200", "--from", "trace.txt"), (*VALLEY, "Lower.Outflow", "200", "--output", "trace.txt")),
    ("require", (*VALLEY, "valley.require"), (*NO_PLACE, "valley.require")),
    ("report", VALLEY, NO_PLACE),
    ("restart", ("model.toml", "edited.csv", "--step", "9", "--batch", "1"), ("model.toml", "edited.csv", "--step", "9", "--section", "1")),
    ("inputs", ("edited.csv", "--batch", "1"), ("edited.csv", "--section", "1")),
    ("inputs", ("edited.csv", "--batch", "1"), ("edited.csv", "--batches", "1")),
    ("inputs", ("bare.csv", "--model", "model.toml", "--unit", "m3/s"), ("bare.csv", "--model", "model.toml", "--per", "second")),
    ("plot", ("table.csv", "Lower.*", "--unit", "m3/s", "--text"), ("table.csv", "Lower.*", "--per", "second", "--text")),
    ("plot", ("edited.csv", "Lower.Storage", "--batches", "0", "2", "--text"), ("edited.csv", "Lower.Storage", "--batch", "0", "2", "--text")),
    ("table", ("edited.csv", "--model", "model.toml", "--batches", "1"), ("edited.csv", "--model", "model.toml", "--batch", "1")),
    ("compare", ("edited.csv", "--batches", "0", "2"), ("edited.csv", "--batch", "0", "2")),
)
WRITING = (
    ("compare", "edited.csv", "--batches", "0", "2"),
    ("compare", "edited.csv", "--batches", "0", "2", "--csv"),
    ("doctor", "model.toml", "inputs.csv", "--policy", "policy.rpl"),
    ("effect", *VALLEY),
    ("inputs", "table.csv", "--model", "model.toml"),
    ("report", *VALLEY),
    ("require", *VALLEY, "valley.require"),
    ("restart", "model.toml", "table.csv", "--step", "9"),
    ("rules", "model.toml", "policy.rpl", "--code"),
    ("slots", "model.toml", "--csv"),
    ("table", "table.csv", "--model", "model.toml", "--from", "2021-06", "--to", "2021-07"),
)
# What a call writes: lines that stand in it, and its status.
TOLD = (
    (1, ("compare", "edited.csv", "--batches", "0", "2", "--csv"), ("batch,other batch,slot,cells,first at,there,and,greatest,at", "0,2,Farms.Diversion,")),
    (0, ("compare", "table.csv", "table.csv", "--csv"), ("batch,other batch,slot,cells,first at,there,and,greatest,at",)),
    (1, ("compare", "table.csv", "edited.csv", "--csv"), ("compare: only the second has batch 4",)),
    (0, ("table", "table.csv", "Lower.Storage", "--model", "model.toml", "--from", "2021-06-01", "--to", "2021-06-02"), ("152,2021-06-01T00:00,2021-06-02T00:00,",)),
    (0, ("table", "table.csv", "--model", "model.toml", "--from", "2021-06", "--to", "2021-07", "--by", "month"), ("2021-06,",)),
    (0, ("plot", "table.csv", "Lower.*", "--unit", "Mm3", "--text"), ("set ylabel \"storage [Mm3]\"", "set ylabel \"flow [Mm3/step]\"")),
    (0, ("inputs", "bare.csv", "--model", "model.toml", "--unit", "Mm3", "--unit", "m3/s"), ("Upper.Storage,1,20000000000",)),
    (2, ("inputs", "bare.csv", "--unit", "m3/s"), ("inputs: --unit needs --model, since the length of a timestep is not known",)),
    (2, ("plot", "table.csv", "--unit", "furlong"), ("plot: this tool does not know the unit [furlong]",)),
    (2, ("table", "table.csv", "--model", "model.toml", "--from", "2031"), ("table: 2031 is not a date: write 2021-06-01 or 2021-06",)),
    (2, ("table", "table.csv", "--model", "model.toml", "--from", "2031-01"), ("table: the period has no timestep",)),
    (2, ("rules", "model.toml", "policy.rpl", "--policy", "policy.rpl"), ("rules: unrecognized arguments: policy.rpl (--help lists the arguments)",)),
    (0, ("rules", "--help"), ("--policy FILE",)),
    (0, ("why", "--help"), ("--from FILE",)),
)
FAILING = (
    ("inputs", "wrong.csv", "--model", "model.toml"),
    ("rules", "model.toml", "inputs.csv"),
    ("table", "table.csv", "--model", "model.toml", "--from", "June"),
    ("slots", "model.toml", "-o", "twice.txt"),
)


def of_common_words(run: Run, valley: Path, program: Callable[..., str]) -> Iterator[tuple[str, str | None]]:
    """The words of COMMON, in a folder with the files of the valley."""
    with tempfile.TemporaryDirectory() as name:
        folder = Path(name)
        for path in valley.iterdir():
            if path.is_file():
                (folder / path.name).write_bytes(path.read_bytes())
        (folder / "trace.txt").write_text(program("run", *(valley / path for path in VALLEY), "--trace", "--asked"))
        (folder / "bare.csv").write_text("step,Upper.Inflow,Upper.Storage\n1,5,20000\n2,6.5,\n")
        (folder / "wrong.csv").write_text("step,Upper.Inflow\n1,five\n")
        for tool, one, other in ALIKE:
            first, second = (run(tool, *words, folder=folder) for words in (one, other))
            is_alike = first == second and first[0] in (0, 1) and first[1] != b""
            yield f"{tool} {' '.join(other)}", None if is_alike else f"{first[0]}, {second[0]}: {second[2]!r} {second[1][:200]!r}"
        for status, words, lines in TOLD:
            found = run(*words, folder=folder)
            told = (found[1] + found[2]).decode()
            lacking = [line for line in lines if line not in told]
            yield " ".join(words), None if found[0] == status and not lacking else f"status {found[0]}, no {lacking}: {told[:300]}"
        for option in ("-o", "--output"):
            yield from (written(run, folder, option, words) for words in WRITING)
        for words in FAILING:
            status, output, _ = run(*words, "-o", "made.txt", folder=folder)
            is_right = status == 2 and not output and not (folder / "made.txt").exists()
            yield f"{' '.join(words)} -o", None if is_right else f"status {status}, or a file was made"


def written(run: Run, folder: Path, option: str, words: tuple[str, ...]) -> tuple[str, str | None]:
    """What a tool writes to a file is what it writes to the output."""
    made = folder / "made.gp"
    plain, filed = run(*words, folder=folder), run(*words, option, made.name, folder=folder)
    found = made.read_bytes() if made.exists() else b""
    made.unlink(missing_ok=True)
    is_right = filed == (plain[0], b"", plain[2]) and found == plain[1] != b""
    return f"{' '.join(words)} {option}", None if is_right else f"status {filed[0]}: {filed[1][:200]!r} {filed[2]!r}"
