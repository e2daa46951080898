"""Verdicts as a table for people, as JUnit's XML and as JSON."""

import json
import shlex
from collections.abc import Iterator
from dataclasses import dataclass
from fractions import Fraction
from xml.etree import ElementTree

from basin_files.model import Model
from basin_files.moments import stamp_of
from basin_files.reasons import LONG, plain

from .beside import Asked
from .counting import NEVER, NOT_HELD, UNKNOWN, Verdict
from .running import Run

FEW_TRACES = 5
LEFT = ("requirement", "wanted", "verdict")
RIGHT = ("held", "asked", "reliability", "resilience", "vulnerability", "longest", "worst margin", "first failure")


@dataclass
class Judgement:
    """A requirement over one run: what is asked, the run, and what became of it. `why` is how to look further."""

    asked: Asked
    run: Run
    verdict: Verdict
    why: str = ""

    @property
    def name(self) -> str:
        """Its name."""
        return self.asked.item.name


def aligned(rows: list[tuple[str, ...]], left: int) -> Iterator[str]:
    """Rows with columns of one width, of which so many stand at the left."""
    widths = [max(map(len, column)) for column in zip(*rows)]
    for row in rows:
        cells = [cell.ljust(width) if place < left else cell.rjust(width) for place, (cell, width) in enumerate(zip(row, widths))]
        yield "  ".join(cells).rstrip()


def row_of(one: Judgement, model: Model) -> tuple[str, ...]:
    """A line of the table."""
    verdict = one.verdict
    return (
        plain(one.name, LONG),
        one.asked.item.wanted,
        verdict.verdict,
        f"{verdict.held:,}",
        f"{verdict.asked:,}" + (f" ({verdict.unknown:,} unknown)" if verdict.unknown else ""),
        percent(verdict.reliability),
        percent(verdict.resilience),
        amount(one.asked, verdict.vulnerability),
        f"{verdict.longest:,}",
        amount(one.asked, verdict.margin),
        "-" if verdict.first is None else f"{verdict.first} ({stamp_of(model.run.begin(verdict.first))})",
    )


def percent(share: Fraction | None) -> str:
    """A share in percent, rounded down, so that 100 % is all."""
    if share is None:
        return "-"
    whole, places = divmod(int(share * 10_000), 100)
    return f"{whole}.{places:02} %"


def amount(asked: Asked, value: int | Fraction | None) -> str:
    """Returns a margin, or a mean of margins, with its unit; `-` if there is none."""
    return "-" if value is None or not asked.is_amount else f"{number(Fraction(value))} {asked.unit}".rstrip()


def number(value: Fraction) -> str:
    """A number with at most one place."""
    return f"{int(value):,}" if value.denominator == 1 else f"{float(value):,.1f}"


def table(judgements: list[Judgement], model: Model) -> Iterator[str]:
    """Yields the lines of the table of a run."""
    yield from aligned([(*LEFT, *RIGHT), *(row_of(one, model) for one in judgements)], left=len(LEFT))


def failure(one: Judgement, model: Model) -> Iterator[str]:
    """Which clauses aren't held, where it fails first, by how much at most, and how to look further."""
    verdict, name = one.verdict, plain(one.name, LONG)
    unit = f" {one.asked.unit}" if one.asked.unit else ""
    says = f"{name} is {verdict.verdict}" + (f" ({verdict.broken})" if verdict.broken else "")
    if verdict.first is None:
        yield f"{says}: {verdict.unknown:,} timesteps aren't known"
        return
    says += f": first in timestep {verdict.first} ({stamp_of(model.run.begin(verdict.first))})"
    if verdict.failed > 1:
        says += f", {verdict.failed:,} times" + (f" in {verdict.stretches:,} stretches" if verdict.stretches > 1 else " in a row")
    if one.asked.is_amount:
        says += f", most in timestep {verdict.worst_step}, by {verdict.worst:,}{unit}"
    yield says
    if one.why:
        yield f"  {one.why}"


def cell_of(one: Asked, given: set[str]) -> str:
    """Returns the slot whose value explains a requirement: the first one that it reads and inputs do not give."""
    return next((slot for slot in one.looks if slot not in given), one.looks[0] if one.looks else "")


def measure_unit(one: Asked) -> str:
    """Returns the unit of a measure."""
    return one.unit.removesuffix("/step") if one.item.how == "SUM" else one.unit


def measure_text(one: Asked, value: Fraction | None) -> str:
    """Returns the value of a measure with its unit."""
    return "unknown" if value is None else f"{number(value)} {measure_unit(one)}".rstrip()


def why_words(paths: tuple[str, str, str], one: Asked, verdict: Verdict, given: set[str], changes: str, run: Run) -> str:
    """The words that tell how the first failure came about, by tools/why: of a trace as a batch of edits, which it is."""
    slot = cell_of(one, given)
    if not slot or verdict.first is None:
        return ""
    why = ["tools/why", *paths, slot, str(verdict.first)]
    if run.word == "trace":
        file = f"trace-{run.number}.csv"
        cut = shlex.join(["sed", "-n", f"1s/trace/batch/p; s/^{run.number},/1,/p", changes])
        return f"{cut} > {file}; {shlex.join([*why, '--edits', file, '--batch', '1'])}"
    return shlex.join([*why, *(["--edits", changes, "--batch", str(run.number)] if run.number else [])])


@dataclass
class Case:
    """A case of JUnit's XML: of a requirement over a run, or over all traces."""

    of: str
    name: str
    verdict: str
    message: str
    text: str


def case_of(one: Judgement, model: Model) -> Case:
    """The case of a requirement over a run."""
    fault, broken = one.run.fault, one.verdict.broken
    message = broken or (f"the run ended in a fault: {fault}" if fault else f"{one.verdict.unknown} timesteps aren't known")
    return Case(one.run.called, one.name, one.verdict.verdict, message, "\n".join(failure(one, model)))


def case_of_traces(some: list[Judgement], verdict: str, model: Model) -> Case:
    """The case of a requirement over all traces: the text tells of the first that don't hold it."""
    failing = [one for one in some if one.verdict.verdict in (NOT_HELD, UNKNOWN)]
    message = f"not held in {len(failing)} of {len(some)} traces"
    lines = (f"{one.run.called}: {line}" for one in failing[:FEW_TRACES] for line in failure(one, model))
    return Case("traces", some[0].name, verdict, message, "\n".join(lines))


def junit(name: str, cases: list[Case]) -> bytes:
    """JUnit's XML."""
    counts = [one.verdict for one in cases]
    told = {"failures": NOT_HELD, "errors": UNKNOWN, "skipped": NEVER}
    numbers = {word: str(counts.count(verdict)) for word, verdict in told.items()}
    suite = ElementTree.Element("testsuite", {"name": name, "tests": str(len(cases)), **numbers})
    for one in cases:
        case = ElementTree.SubElement(suite, "testcase", classname=one.of, name=plain(one.name, LONG))
        if one.verdict == NEVER:
            ElementTree.SubElement(case, "skipped", message="never asked")
        elif one.verdict in (NOT_HELD, UNKNOWN):
            tag = "failure" if one.verdict == NOT_HELD else "error"
            ElementTree.SubElement(case, tag, message=one.message, type=one.verdict).text = one.text
    ElementTree.indent(suite)
    written: bytes = ElementTree.tostring(suite, encoding="utf-8", xml_declaration=True)
    return written + b"\n"


def as_json(judgements: list[Judgement], measures: list[dict[str, object]]) -> bytes:
    """All of it, as JSON. Shares are floats."""
    rows = []
    for one in judgements:
        told = {key: float(value) if isinstance(value, Fraction) else value for key, value in vars(one.verdict).items()}
        more = {"unit": one.asked.unit, "wanted": one.asked.item.wanted, "why": one.why, "fault": one.run.fault}
        rows.append({"run": one.run.number, "requirement": one.name, **told, "failed": one.verdict.failed, **more})
    return json.dumps({"requirements": rows, "measures": measures}, indent=1).encode() + b"\n"
