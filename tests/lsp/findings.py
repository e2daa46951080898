"""What the server takes over from the tools: what the doctor's reading costs, how it shows names, and where it marks."""

import sys
from unittest import mock

from talking import TOP

sys.path.insert(0, str(TOP / "tools"))
import times  # noqa: E402
from basin_files.judging import read_model  # noqa: E402
from basin_files.model import Model  # noqa: E402
from basin_rules.never import Never, warnings  # noqa: E402
from basin_rules.places import Source  # noqa: E402
from basin_rules.policy import Policy  # noqa: E402
from basin_rules.rulesets import Ruleset, read_ruleset  # noqa: E402
from basin_rules.surprises import surprises  # noqa: E402


def ruleset_of(text: str, model: Model) -> Ruleset:
    """The reading of a ruleset."""
    return read_ruleset(Source("x", text.encode()), model)


def work(count: int) -> tuple[int, int]:
    """How often the doctor goes through what can be known, and asks for the slots of a link, for so many rules."""
    objects = count // 4
    model = read_model(times.model(objects).encode())
    ruleset = ruleset_of(times.HEAD + "".join(times.rule(number, objects) for number in range(count)), model)
    assert not ruleset.findings, ruleset.findings[:1]
    policy, spread, group = Policy(ruleset.source, ruleset=ruleset), Never.spread, Model.group
    with mock.patch.object(Never, "spread", autospec=True, side_effect=spread) as spreads:
        warnings(policy, model, None)
    with mock.patch.object(Model, "group", autospec=True, side_effect=group) as groups:
        surprises(policy, model)
    return spreads.call_count, groups.call_count


def costs() -> list[str]:
    """What grows faster than the rules do."""
    (spreads, groups), (more_spreads, more_groups) = work(100), work(200)
    found = [f"never: {spreads} goes for 100 rules, {more_spreads} for 200"] if more_spreads > spreads else []
    if more_groups > 2.2 * groups:
        found.append(f"surprises: {groups} looks for 100 rules, {more_groups} for 200")
    return found


MARKED = {  # what is wrong, and what of it is marked
    'Max(Dam.Inflow[t], 40)': "40",
    'Half(40)': "40",
    '{1 "m3/step", Dam.Storage[t]}': '1 "m3/step"',
    'IF TRUE THEN Dam.Inflow[t] ELSE 7 ENDIF': "7",
    'Max(40, Dam.Inflow[t])': "40",
}
HALF = 'FUNCTION Half(NUMERIC "m3/step" x) : NUMERIC "m3/step" IS x / 2 ENDFUNCTION\n'


def names_and_marks() -> list[str]:
    """What the tools show of a rule's name, and what they mark of a value that doesn't fit."""
    model = read_model((TOP / "tests/language/first/model.toml").read_bytes())
    found = []
    for value, marked in MARKED.items():
        ruleset = ruleset_of(f'{HALF}RULE "Größe 😀": Dam.Outflow[t] := {value}; ENDRULE', model)
        first = ruleset.findings[0]
        if ruleset.source.text[first.span.begin : first.span.end] != marked or first.whose != 'rule 1 "Größe 😀"':
            found.append(f"{value}: {first}")
    policy = Policy(Source("x", 'RULE "Größe": ENDRULE'.encode()), ruleset_of('RULE "Größe": ENDRULE', model))
    return found + [f"the rule is called {row.name}" for row in policy.rows(model) if row.name != "Größe"]


def main() -> bool:
    """Tries it all."""
    wrong = [*costs(), *names_and_marks()]
    print(*(f"lsp: {one}" for one in wrong), sep="\n", end="\n" * bool(wrong))
    print(f"lsp: what the server takes over from the tools, {len(wrong)} wrong")
    return not wrong


if __name__ == "__main__":
    raise SystemExit(not main())
