"""The folder of an ensemble, which every worker has to see: the plan, the files of the runs, traces and parts."""

from __future__ import annotations

import hashlib
import json
import os
import shutil
import tempfile
from dataclasses import asdict, dataclass
from pathlib import Path
from typing import Any, Iterator, Literal, Sequence

from basin_files.reasons import LONG, plain

from . import process
from .calls import MOST_TRACES, InputsGiven, ModelGiven, PolicyGiven
from .errors import Error, Stale
from .files import File, Model, Policy
from .inputs import inputs_of
from .process import PathLike
from .traces import Traces, traces_of

Way = Literal["mrm", "run"]
NAMES = ("model.toml", "policy.rpl", "inputs.csv")


@dataclass(frozen=True, repr=False)
class Plan:
    """What a folder is to hold: the traces of each part, the slots that are kept, and how parts are run."""

    folder: Path
    names: list[list[str]]
    slots: list[str]
    way: Way
    program: str
    digest: str

    @classmethod
    def read(cls, folder: PathLike) -> Plan:
        """Returns the plan of a folder. Raises `Error` where it holds none."""
        place = Path(folder).absolute()
        try:
            return cls(folder=place, **json.loads((place / "plan.json").read_text()))
        except (OSError, ValueError, TypeError):
            raise Error(f"{plain(str(place), LONG)} holds no plan") from None

    def __repr__(self) -> str:
        left = len(self.missing())
        return f"<Plan {self.folder}: {self.traces} traces, {len(self.slots)} slots, {left} of {self.parts} parts missing>"

    @property
    def parts(self) -> int:
        """Returns how many parts there are."""
        return len(self.names)

    @property
    def traces(self) -> int:
        """Returns how many traces there are."""
        return sum(map(len, self.names))

    @property
    def files(self) -> list[Path]:
        """Returns the model, the policy and the inputs."""
        return [self.folder / name for name in NAMES]

    def trusted_program(self) -> str:
        """Returns the program that the plan names; if the folder is another user's, the one that BASIN names."""
        if (self.folder / "plan.json").stat().st_uid == os.geteuid():
            return self.program
        if named := os.environ.get("BASIN"):
            return process.find_program(named)
        where = plain(str(self.folder), LONG)
        raise Error(f"{where} is another user's, and its plan names a program to run: name the program by BASIN in the environment")

    @property
    def model(self) -> Model:
        """Returns the model."""
        return Model(self.files[0])

    def part(self, number: int) -> Path:
        """Returns the values of a part, which appear whole."""
        return self.folder / f"parts/{number:05}.nc"

    def first(self, number: int) -> int:
        """Returns the number of traces before those of a part."""
        return sum(map(len, self.names[:number]))

    def missing(self) -> list[int]:
        """Returns the parts that are not there."""
        return [number for number in range(self.parts) if not self.part(number).exists()]


def plan(
    folder: PathLike,
    model: ModelGiven,
    policy: PolicyGiven,
    inputs: InputsGiven,
    traces: Any,
    *,
    slots: Sequence[str] | Literal["all"],
    size: int = MOST_TRACES,
    way: Way | None = None,
    program: PathLike | None = None,
) -> Plan:
    """Writes what the folder is to hold, or finds it there. `Stale` where another ensemble is.

    `slots` are those that are kept. A part has `size` traces at most. `way` is by `mrm`, a part at once, or by
    `run`, trace by trace, which comes to the same; `mrm` where the program has it, and nothing is told.
    """
    if not 1 <= size <= MOST_TRACES:
        raise ValueError(f"a part has 1 to {MOST_TRACES} traces")
    place, path = Path(folder).absolute(), process.find_program(program)
    read_model = Model.of(model)
    files = (read_model, Policy.of(policy), inputs_of(read_model, inputs))
    place.parent.mkdir(parents=True, exist_ok=True)
    new = Path(tempfile.mkdtemp(prefix=".plan-", dir=place.parent))
    try:
        for name, file in zip(NAMES, files):
            (new / name).write_bytes(file.content)
        judge(new, path)
        chosen = chosen_slots(read_model, slots)
        with traces_of(read_model, traces) as given:
            texts = [*map(digested, files), json.dumps(chosen).encode()]
            names, digest = store(new, given, size, path, texts)
        found = Plan(place, names, chosen, way or way_of(path), path, digest)
        settle(found, new)
    finally:
        shutil.rmtree(new, ignore_errors=True)
    return Plan.read(place)


def judge(folder: Path, program: str) -> None:
    """Raises `Refused` where the program refuses a file of the runs, by the run without any trace."""
    room = memoryview(bytearray(process.PIPE))
    with process.at_work(["run", *(str(folder / name) for name in NAMES)], program) as running:
        while running.readinto(room):
            pass


def chosen_slots(model: Model, slots: Sequence[str] | Literal["all"]) -> list[str]:
    """Returns the slots that are kept, each of which the model has."""
    if isinstance(slots, str) and slots != "all":
        raise TypeError('slots is a list, or "all"')
    chosen = model.slots if slots == "all" else list(dict.fromkeys(slots))
    for slot in chosen:
        model.unit(slot)
    if not chosen:
        raise ValueError("slots is empty: name a slot to keep, or give 'all'")
    return chosen


def way_of(program: str) -> Way:
    """Returns how the program runs a part."""
    return "mrm" if process.has_command("mrm", 4, program) else "run"


def digested(file: File) -> bytes:
    """Returns what is digested of a file: its length, so that no two lists of files look alike, and its bytes."""
    return b"%d\0" % len(file.content) + file.content


def store(
    folder: Path, traces: Traces, size: int, program: str, texts: list[bytes]
) -> tuple[list[list[str]], str]:
    """Writes the traces, and answers their names by part, and the digest of all that the runs go by."""
    if not traces.names:
        raise ValueError("there is no trace")
    digest = hashlib.sha256(Path(program).read_bytes())
    parts = shares(len(traces.names), size)
    names = [traces.names[some] for some in parts]
    for text in (*texts, json.dumps(names).encode(), *traces.store(folder, parts)):
        digest.update(b"%d\0" % len(text) + text)
    (folder / "parts").mkdir()
    return names, digest.hexdigest()


def shares(count: int, size: int) -> list[slice]:
    """Splits this number of traces into the fewest parts of at most that size, all about equal, so that no worker waits for another."""
    parts = -(-count // size)
    return [slice(count * k // parts, count * (k + 1) // parts) for k in range(parts)]


def settle(new: Plan, folder: Path) -> None:
    """Moves a plan to its place, unless it is there."""
    where = plain(str(new.folder), LONG)
    if (new.folder / "plan.json").exists():
        if Plan.read(new.folder).digest != new.digest:
            raise Stale(f"{where} has another ensemble: use another folder, or remove it")
        return
    told = asdict(new)
    del told["folder"]
    (folder / "plan.json").write_text(json.dumps(told))
    folder.chmod(0o777 & ~umask())  # the folder of mkdtemp is for its owner only
    try:
        os.rename(folder, new.folder)  # an empty folder may be there
    except OSError as error:
        raise Error(f"cannot make {where}: {error.strerror}") from None


def umask() -> int:
    """Returns the mask of rights of new files, which can be read only by setting it."""
    os.umask(mask := os.umask(0))
    return mask


def each_part(told: Plan) -> Iterator[tuple[int, Path]]:
    """Yields each part with its file. Raises `Error` where one is missing."""
    if missing := told.missing():
        raise Error(f"{len(missing)} of {told.parts} parts are missing, the first is {missing[0]}")
    for number in range(told.parts):
        yield number, told.part(number)
