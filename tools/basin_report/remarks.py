"""The text of a policy, with what is wrong with it, or what to look at, at its place."""

from typing import TypedDict

from basin_rules.findings import Finding
from basin_rules.places import Source
from basin_rules.policy import Policy


class Remarked(TypedDict):
    """A policy as a browser reads it: its lines, and remarks."""

    lines: list[str]
    remarks: list[dict[str, int | str]]


def lines_of(policy: Policy, found: list[tuple[str, Finding]]) -> Remarked:
    """The lines of a policy, and remarks: of each the line from 1, the letters from and to, its sort, and its words."""
    return {
        "lines": [line.decode("utf-8", "replace").rstrip("\r") for line in policy.source.content.split(b"\n")],
        "remarks": [remark(policy.source, sort, finding) for sort, finding in found],
    }


def remark(source: Source, sort: str, finding: Finding) -> dict[str, int | str]:
    """A remark."""
    line = source.line(finding.span.begin)
    begin = source.begins[line - 1]
    end = source.begins[line] - 1 if line < len(source.begins) else len(source.content)
    letters = [len(source.content[begin:at].decode("utf-8", "replace")) for at in (finding.span.begin, min(finding.span.end, end))]
    whose = f"{finding.whose}: " if finding.whose else ""
    hint = f" Hint: {finding.hint}." if finding.hint else ""
    return {"line": line, "from": letters[0], "to": letters[1], "sort": sort, "says": f"{whose}{finding.says}.{hint}"}
