"""A reading that takes rules from the one before it is the reading from nothing, and has the tools' own findings."""

import random
import sys

from talking import TOP

sys.path[:0] = [str(TOP / "tools"), str(TOP / "tests" / "mutated")]
import rulesets  # noqa: E402
from basin_files.judging import read_model  # noqa: E402
from basin_lsp.reading import read  # noqa: E402
from basin_rules.places import Source  # noqa: E402
from basin_rules.rulesets import read_ruleset  # noqa: E402


def shape(reading):
    """All that a reading says."""
    found = [(one.refusal, one.span, one.says, one.hint, one.whose) for one in reading.findings]
    for one in reading.ruleset.declarations:
        nodes = [(node.number, node.span, str(node.type), getattr(node, "target", None), getattr(getattr(node, "unit", None), "begin", 0)) for node in one.nodes()]
        found.append((one.called, one.head, one.name_span, one.end, nodes))
    return found


def main(turns=1500):
    """Tries edits in a row."""
    model = read_model(rulesets.model_text())
    cases = [text for text, said in rulesets.table_cases() if len(text) < 400]
    good = [text for text, said in rulesets.table_cases() if said.startswith("ok") and len(text) < 400 and "FUNCTION" not in text]
    draw = random.Random(11)
    parts, before, wrong, others, taken = [draw.choice(good) for _ in range(12)], None, 0, 0, 0
    for _ in range(turns):
        at = draw.randrange(len(parts) + 1)
        what = draw.random()
        if what < 0.3 and len(parts) < 30:
            parts.insert(at, draw.choice(good if draw.random() < 0.8 else cases))
        elif what < 0.6 and len(parts) > 5:
            del parts[min(at, len(parts) - 1)]
        elif what < 0.8:
            parts[min(at, len(parts) - 1)] = draw.choice(good)
        else:
            at = min(at, len(parts) - 1)
            cut = draw.randrange(len(parts[at]) + 1)
            parts[at] = parts[at][:cut] + draw.choice(["", " ", "\n", "x", "#", '"', ";", "é"]) + parts[at][cut + draw.randrange(2) :]
            if draw.random() < 0.7:
                text = "".join(parts)
                parts[at] = draw.choice(good) if draw.random() < 0.5 else parts[at]
        source = Source("x", rulesets.bytes_of("".join(parts)))
        before = read(source, model, before)
        taken += len(before.taken)
        fresh = shape(read(source, model))
        if shape(before) != fresh:
            wrong += 1
            print("lsp: again otherwise:", [next(((x, y) for x, y in zip(a, b) if x != y and not isinstance(x, list)), [(x, y) for x, y in zip(a[-1], b[-1]) if x != y][:1]) for a, b in zip(shape(before), fresh) if a != b][:1], len(fresh), len(shape(before)))
        plain = read_ruleset(source, model).findings
        mine = before.findings
        if [(one.refusal, one.span, one.says, one.hint) for one in plain[:1]] != [(one.refusal, one.span, one.says, one.hint) for one in mine[:1]]:
            others += 1
            print("lsp: not the tools':", plain[:1], mine[:1])
    print(f"lsp: {turns} changes in a row, {taken} rules taken from the reading before, {wrong} otherwise than anew, {others} otherwise than the tools")
    return not wrong and not others


if __name__ == "__main__":
    raise SystemExit(not main(*map(int, sys.argv[1:])))
