"""What is wrong with a text, and what to look at in it, as an editor shows it."""


from basin_files.inputs import read_inputs
from basin_files.reasons import LONG, plain
from basin_rules import codefile
from basin_rules.never import warnings
from basin_rules.policy import Policy
from basin_rules.surprises import surprises

from . import models
from .reading import read

FAULT, WARNING, TOLD, HINT = 1, 2, 3, 4
MOST = 200  # diagnostics of a text
LONGEST = 4_000  # letters of a message
NO_MODEL = "there is no model next to this file, or it has an error: names, units and costs are not checked"
UNNEEDED = 1  # a tag of the protocol


def is_code(document):
    """Whether a policy is a file of code."""
    return codefile.is_code(document.content)


def reading_of(document, model):
    """The reading of a ruleset, once for each text and model."""


    def make():
        earlier, document.earlier = document.earlier, None
        document.kept["last reading"] = read(document.source, model, earlier)
        return document.kept["last reading"], model

    return document.keep(("reading", id(model)), make)[0]


def judged(document, model, inputs):
    """What to look at in a ruleset that is accepted: pairs of how much it counts, and a finding."""

    def make():
        reading = reading_of(document, model)
        policy = Policy(document.source, ruleset=reading.ruleset)
        known = None
        if inputs is not None:
            known = read_inputs(inputs, model)
            known = None if known.findings else known
        found = [(WARNING, one) for one in warnings(policy, model, known)]
        return found + [(TOLD, one) for one in surprises(policy, model)], (model, inputs)

    return document.keep(("judged", id(model), inputs), make)[0]


def findings_of(document, model, inputs=None):
    """All that is told of a ruleset or of code: pairs of how much it counts, and a finding.

    What to look at in rules that are accepted takes longer: it comes from a process of its own, once that has told it.
    """
    if is_code(document):
        if not model:
            return []
        code = document.keep(("code", id(model)), lambda: (codefile.read_code(document.source, model), model))[0]
        return [(FAULT, one) for one in code.findings]
    reading = reading_of(document, model)
    if reading.findings:
        return [(FAULT, one) for one in reading.findings]
    return document.kept.get("looks", [])


def diagnostics_of(document, model, inputs=None, with_model=True):
    """The diagnostics of a ruleset."""
    told = findings_of(document, model, inputs)[:MOST]
    found = [diagnostic(document, weight, finding) for weight, finding in told]
    if with_model and not model:
        found.append({"range": document.range(0, 0), "severity": TOLD, "source": "basin", "message": NO_MODEL})
    return found


def diagnostic(document, weight, finding):
    """A finding as the protocol has it."""
    says = f"{finding.whose}: {finding.says}." if finding.whose else f"{finding.says}."
    hint = f"\nHint: {finding.hint}." if finding.hint else ""
    more = "".join(f"\n{line}" for line in finding.more)
    told = {
        "range": document.range(finding.span.begin, finding.span.end),
        "severity": weight,
        "code": finding.refusal.rpartition(": ")[2] or ("never" if weight == WARNING else "surprise"),
        "source": "basin",
        "message": (says + more + hint)[:LONGEST],
    }
    if finding.says.startswith("no rule calls the function"):
        told["tags"] = [UNNEEDED]
    return told


def diagnostics_of_model(document):
    """The diagnostics of a model."""
    found = []
    for (begin, end), says, refusal in list(models.findings_of(document))[:MOST]:
        code = refusal.rpartition(": ")[2]
        told = {"range": document.range(begin, end), "severity": FAULT, "code": code, "source": "basin"}
        found.append({**told, "message": plain(says, LONG)})
    return found
