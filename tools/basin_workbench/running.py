"""Runs texts by the program, and says of what it refuses where it stands. Nothing here changes the files that are worked on."""

import multiprocessing
import subprocess
import tempfile
from bisect import bisect_right
from collections.abc import Callable, Iterator
from contextlib import suppress
from dataclasses import dataclass, field
from functools import lru_cache
from pathlib import Path
from threading import Lock
from time import monotonic

from basin_files import formats
from basin_files.faults import tell_fault
from basin_files.inputs import read_inputs
from basin_files.judging import read_model
from basin_files.model import Model
from basin_files.moments import stamp_of
from basin_files.network import drawn, text_of
from basin_files.program import built
from basin_files.reasons import LONG, plain
from basin_files.sections import Section, read_sections
from basin_files.waiting import settled_words, tell_empty
from basin_files.walking import Content, Walk
from basin_files.firing import blocks_of
from basin_report.gather import UNITS
from basin_report.remarks import remark
from basin_report.story import Teller
from basin_rules.after import Run, lines_of_run
from basin_rules.listing import lines_of
from basin_rules.never import warnings
from basin_rules.places import Source
from basin_rules.policy import Policy
from basin_rules.effects import Effects
from basin_rules.rulesets import read_ruleset
from basin_rules.surprises import surprises
from basin_files.wide import factor_of

FILES = {"model": "model.toml", "policy": "policy.rpl", "inputs": "inputs.csv"}
SETTLED, FAULT = 0, 1
SOONER = -1  # the status of a run that a newer one ended
REFUSED = {6: "model", 7: "policy", 8: "inputs"}
MOST_TOLD = 200  # findings
SHOWN_NAME = {"model": "the model", "policy": "the rules", "inputs": "the inputs"}


APART = multiprocessing.get_context("forkserver")
APART.set_forkserver_preload(["basin_workbench.running"])


def warmed() -> None:
    """Has the processes apart ready, so that the first one doesn't wait for them."""
    process = APART.Process(target=int, daemon=True)
    process.start()
    process.join()


def answer_into(pipe, act: Callable, *words: object) -> None:
    """What a function answers, into a pipe."""
    try:
        told = act(*words)
    except Exception as error:
        told = error
    with suppress(OSError):  # nobody waits for it any more
        pipe.send(told)


class Ended(Exception):
    """A newer run ended this one."""


@dataclass
class Done:
    """What the program did: its status, its output, its line, and how long it took, in milliseconds."""

    status: int
    output: bytes
    refusal: str
    took: float

    def told(self) -> dict:
        """Its head, as a browser reads it."""
        return {"status": self.status, "refusal": plain(self.refusal, LONG), "took": round(self.took, 1)}


class Runner:
    """Runs the program, one run of each sort at a time: a newer one ends the older."""

    def __init__(self) -> None:
        self.program = str(Path(built()).resolve())
        self.lock = Lock()
        self.running: dict[str, subprocess.Popen | multiprocessing.Process] = {}

    def ended(self, sort: str) -> None:
        """Ends the run of a sort that is under way."""
        with self.lock:
            if older := self.running.pop(sort, None):
                older.kill()

    def end(self) -> None:
        """Ends all runs that are under way."""
        for sort in list(self.running):
            self.ended(sort)

    def apart(self, sort: str, act: Callable, *words: object) -> object:
        """What a function answers in a process of its own, which a newer one of the sort ends."""
        self.ended(sort)
        mine, other = APART.Pipe(duplex=False)
        process = APART.Process(target=answer_into, args=(other, act, *words), daemon=True)
        process.start()
        other.close()
        with self.lock:
            self.running[sort] = process
        try:
            told = mine.recv()
        except EOFError:
            raise Ended from None
        finally:
            mine.close()
            process.join()
            with self.lock:
                if self.running.get(sort) is process:
                    del self.running[sort]
        if isinstance(told, Exception):
            raise told
        return told

    def run(self, sort: str, *words: str | Path) -> Done:
        """Runs the program to its end, unless a newer run of the sort comes."""
        began = monotonic()
        self.ended(sort)
        mine = subprocess.Popen(
            [self.program, *words], stdin=subprocess.DEVNULL, stdout=subprocess.PIPE, stderr=subprocess.PIPE
        )
        with self.lock:
            if older := self.running.get(sort):
                older.kill()
            self.running[sort] = mine
        output, errors = mine.communicate()
        with self.lock:
            if self.running.get(sort) is not mine:
                raise Ended
            del self.running[sort]
        return Done(mine.returncode, output, errors.decode("utf-8", "replace").rstrip("\n"), (monotonic() - began) * 1000)


@dataclass
class Texts:
    """The texts that are run, in a folder of their own for as long as that takes. `policy` is `None` without rules."""

    model: str
    policy: str | None
    inputs: str
    folder: tempfile.TemporaryDirectory | None = field(init=False, default=None)

    def __enter__(self) -> "Texts":
        self.folder = tempfile.TemporaryDirectory(prefix="workbench-")
        for name, text in (("model", self.model), ("policy", self.policy), ("inputs", self.inputs)):
            if text is not None:
                self.path(name).write_bytes(text.encode())
        return self

    def __exit__(self, *_: object) -> None:
        self.folder.cleanup()

    def path(self, name: str) -> Path:
        """The path of a part."""
        return Path(self.folder.name) / FILES[name]

    def words(self, command: str = "run") -> list[str | Path]:
        """The words of a command."""
        parts = ("model", "inputs") if self.policy is None else ("model", "policy", "inputs")
        command = "simulate" if self.policy is None and command == "run" else command
        return [command, *(self.path(name) for name in parts)]


@lru_cache(8)
def model_of(text: str) -> Model | str:
    """The model of a text as the tools read it, or why it is no TOML."""
    try:
        return read_model(text.encode())
    except ValueError as error:
        return plain(str(error))


def good(text: str) -> Model | None:
    """The same, where nothing is wrong with it."""
    model = model_of(text)
    return model if isinstance(model, Model) and not model.findings else None


@lru_cache(8)
def policy_of(text: str, model: str) -> Policy | None:
    """The policy of a text, where nothing is wrong with the model."""
    known = good(model)
    if not known:
        return None
    source = Source("the rules", text.encode())
    ruleset = read_ruleset(source, known)
    return Policy(source, ruleset=ruleset, findings=ruleset.findings)


# ---- what is wrong, and where


def findings_of(texts: Texts, refused: str) -> list[dict]:
    """What is wrong with the part that was refused, by the tools' own reading."""
    if refused == "model":
        return list(of_model(texts.model))
    known = good(texts.model)
    if not known:
        return []
    if refused == "policy":
        policy = policy_of(texts.policy, texts.model)
        return [remark(policy.source, "fault", one) for one in policy.findings[:MOST_TOLD]] if policy else []
    found = read_inputs(texts.inputs.encode(), known).findings[:MOST_TOLD]
    return [{"line": one.line, "from": 0, "to": 1000, "sort": "fault", "says": one.says} for one in found]


def of_model(text: str) -> Iterator[dict]:
    """What is wrong with a model."""
    model = model_of(text)
    if isinstance(model, str):
        words = model.partition(" (at line ")
        line = words[2].partition(",")[0]
        yield {"line": int(line) if line.isdigit() else text.count("\n") + 1, "from": 0, "to": 1000, "sort": "fault", "says": words[0]}
        return
    for one in model.findings[:MOST_TOLD]:
        yield {"line": one.line, "from": 0, "to": 1000, "sort": "fault", "says": one.says}


# ---- what the page asks for


def checked(runner: Runner, texts: Texts) -> dict:
    """Whether the rules are accepted with the model, and remarks at their places."""
    with texts:
        done = runner.run("check", "check", texts.path("model"), texts.path("policy"))
    told = {**done.told(), "where": REFUSED.get(done.status, ""), "findings": []}
    if done.status in REFUSED:
        told["findings"] = findings_of(texts, REFUSED[done.status])
    return told


def looked_at(texts: Texts) -> list[dict]:
    """What to look at in rules that are accepted: what will never happen, and what may surprise."""
    known, policy = good(texts.model), policy_of(texts.policy, texts.model)
    if not policy or policy.findings:
        return []
    found = [("never", one) for one in warnings(policy, known, None)] + [("surprise", one) for one in surprises(policy, known)]
    return [remark(policy.source, sort, one) for sort, one in found[:MOST_TOLD]]


def ran(runner: Runner, texts: Texts) -> tuple[dict, bytes]:
    """A run: how it ended, what is wrong where it was refused, and what the program wrote, as it wrote it."""
    with texts:
        done = runner.run("run", *texts.words(), "--flags")
    told = {**done.told(), "where": REFUSED.get(done.status, ""), "findings": []}
    if done.status in REFUSED:
        told["findings"] = findings_of(texts, REFUSED[done.status])
    return told, done.output if done.status in (SETTLED, FAULT) else b""


def reran(runner: Runner, texts: Texts, edits: str) -> dict:
    """Which timesteps a change of inputs touches: what `--reuse` runs again."""
    with texts:
        path = Path(texts.folder.name) / "edits.csv"
        path.write_text(edits)
        done = runner.run("reran", *texts.words(), "--edits", path, "--reuse")
    lines = [line for line in done.output.decode("utf-8", "replace").splitlines() if line.startswith("# reran")]
    return {**done.told(), "reran": lines[0][8:] if lines else ""}


def shape_of(text: str) -> dict:
    """What the page knows of a model with which nothing is wrong."""
    model = good(text)
    timesteps, slots = model.timesteps, list(model.slots)
    places = {thing.name: place for place, thing in enumerate(model.objects)}
    steps = range(1, timesteps.count + 1)
    first = {name: slots.index(model.group(name)[0].full_name) for name in slots}
    shape = {
        "step": timesteps.step,
        "begin": stamp_of(timesteps.begin(1)),
        "stamps": [stamp_of(timesteps.end(step)) for step in steps],
        "seconds": [timesteps.seconds(step) for step in steps],
        "objects": [{"name": one.name, "kind": one.kind.replace("_", " "), "keys": keys_of(one)} for one in model.objects],
        "slots": [],
        "units": {},
        "links": model.links,
        "asked": "",
    }
    for name, slot in model.slots.items():
        low, high = model.bounds(name)
        told = {"name": name, "unit": slot.unit, "object": places[slot.owner], "first": first[name], "settable": slot.settable}
        shape["slots"].append({**told, "way": slot.way, "low": str(low), "high": str(high)})
    seconds = timesteps.seconds(1)
    for base, units in UNITS.items():
        shape["units"][base] = []
        for unit in units:
            is_rate = unit.partition("/")[2] not in ("", "step") or unit == "cfs"
            factor = factor_of(unit, base, timesteps)(1)
            shape["units"][base].append([unit, float(factor / seconds if is_rate else factor), is_rate])
    return shape


def keys_of(thing) -> dict:
    """The keys of an object as its form shows them."""
    return {key: value for key, value in thing.options.items() if value is not None and value != ()}


def kinds() -> dict:
    """The kinds of objects with their keys, as a form has them."""
    told = {}
    for kind, keys in formats.KIND_KEYS.items():
        told[kind] = [
            {
                "name": key.name,
                "type": key.type,
                "low": str(key.low),
                "high": str(key.high),
                "words": list(key.words),
                "unit": key.unit,
                "required": key.default is formats.REQUIRED,
                "allowed": key.allowed(),
            }
            for key in keys
        ]
    return told


def map_of(text: str) -> str:
    """The picture of the network."""
    return drawn(text_of(good(text)), ".svg").decode()


# ---- why, and what the doctor says


class NearWalk(Walk):
    """The walk through a few timesteps. What holds before them is in the table, since closed timesteps don't change."""

    def __init__(self, model: Model, blocks: list, text: str, section: Section, table: list[bytes], flags: list[bytes]):
        self.text, self.table, self.flags = text, table, flags
        self.places = {name: place for place, name in enumerate(model.slots, 1)}
        super().__init__(model, blocks, None, section, True)
        opened = [(place, int(line[5:])) for place, line in enumerate(section.trace) if line.startswith("open ")]
        self.opened, self.steps = [place for place, _ in opened], [step for _, step in opened]

    def held(self, slot: str, step: int, before: float) -> Content:
        """What a cell held before a place of the trace."""
        if 1 <= step < self.steps[max(0, bisect_right(self.opened, before) - 1)]:
            value, flag = (rows[step].split(b",")[self.places[slot] + more].decode() for rows, more in ((self.table, 1), (self.flags, 0)))
            return Content(int(value), flag, whence="") if value else Content(None, whence="unknown")
        return super().held(slot, step, before)

    def given(self, slot: str, step: int) -> int | None:
        """What inputs give a cell that nobody wrote."""
        if step < len(self.table) and self.table[step]:
            value = self.table[step].split(b",")[self.places[slot] + 1]
            return int(value) if value else None
        self.inputs = self.inputs or read_inputs(self.text.encode(), self.model)
        return super().given(slot, step)


def near(runner: Runner, texts: Texts, first: int, last: int) -> NearWalk:
    """The walk through some timesteps."""
    known, blocks = good(texts.model), []
    with texts:
        output = runner.run("why", *texts.words(), "--trace", "--asked", "--flags").output
        if texts.policy is not None:
            blocks = blocks_of(runner.run("why code", "compile", texts.path("model"), texts.path("policy")).output.decode())
    flags = output.index(b"\n# flags\n")
    trace = output.index(b"\n# trace\n", flags)
    begin = output.find(b"\nopen %d\n" % first, trace)
    end = output.find(b"\nclose %d\n" % last, trace)
    lines = output[begin + 1 : end if end >= 0 else len(output)].decode("utf-8", "replace").splitlines() if begin >= 0 else []
    table, flagged = output[:flags].split(b"\n")[1:], output[flags + 9 : trace].split(b"\n")
    return NearWalk(known, blocks, texts.inputs, Section(trace=lines), table, flagged)


def walk_of(runner: Runner, texts: Texts, sort: str) -> tuple[Section, Walk, Policy | None]:
    """The walk through a run."""
    known = good(texts.model)
    with texts:
        done = runner.run(sort, *texts.words(), "--trace", "--asked", "--flags")
        blocks = []
        if texts.policy is not None:
            blocks = blocks_of(runner.run(f"{sort} code", "compile", texts.path("model"), texts.path("policy")).output.decode())
    section = read_sections(done.output.decode("utf-8", "replace"))[0]
    inputs = read_inputs(texts.inputs.encode(), known)
    policy = policy_of(texts.policy, texts.model) if texts.policy is not None else None
    return section, Walk(known, blocks, inputs, section, True), policy


def why(runner: Runner, texts: Texts, step: int) -> str:
    """What was asked for in a timestep, and before it for that timestep: events as the report's page reads them."""
    known = good(texts.model)
    walk = near(runner, texts, max(1, step - 2 * known.ahead), step)
    story = Teller(known, walk).story(max(1, step - known.ahead), step, 10**9)
    return story.text


def doctored(texts: Texts) -> list[str]:
    """What the doctor says of a run."""
    runner = Runner()
    known = good(texts.model)
    if texts.policy is None:
        with texts:
            done = runner.run("doctor", *texts.words())
        section, inputs = read_sections(done.output.decode())[0], read_inputs(texts.inputs.encode(), known)
        lines = tell_fault(known, inputs, section) if section.fault else tell_empty(known, inputs, section)
        return [plain(line, LONG) for line in lines or [settled_words(known, section)]]
    section, walk, policy = walk_of(runner, texts, "doctor")
    with texts:
        compiled = runner.run("doctor code", "compile", texts.path("model"), texts.path("policy")).output.decode()
    run = Run(known, walk.inputs, section, walk, policy.names(), lines_of(policy.ruleset, compiled))
    lines, most = lines_of_run(run)
    return [plain(line, LONG) for line in [*(lines or [settled_words(known, section)]), *most]]


def effects(texts: Texts) -> dict:
    """What became of what each rule wanted."""
    runner = Runner()
    known = good(texts.model)
    _, walk, policy = walk_of(runner, texts, "effects")
    found = Effects(known, policy, walk)
    headings, *rows = found.rows()
    return {"headings": headings, "rows": rows, "lines": [plain(one, LONG) for one in found.sentences()]}


@lru_cache(8)
def rules_of(policy_text: str | None, model: str) -> dict:
    """The names of the rules, and the places of the slots that each sets."""
    known = good(model)
    policy = policy_of(policy_text, model) if policy_text is not None else None
    if not known or not policy or policy.findings:
        return {"rules": [], "sets": [], "lines": []}
    slots, facts = list(known.slots), policy.facts(known)
    sets = [[slots.index(one) for one in rule.slots() if one in known.slots] for rule in facts]
    return {"rules": [plain(one, LONG) for one in policy.names()], "sets": sets, "lines": [policy.source.line(rule.head.begin) for rule in facts]}


