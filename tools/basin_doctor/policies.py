"""What the doctor says of a policy, of its run, of the run of each batch of edits, and of traces."""

import argparse
import tempfile
from pathlib import Path

from basin_files.edits import read_edits
from basin_files.inputs import Inputs, edited, read_inputs
from basin_files.model import Model
from basin_files.program import Unable, basin, bytes_of
from basin_files.reasons import LONG, plain
from basin_files.sections import Section, read_sections
from basin_files.waiting import settled_words
from basin_files.walking import Walk
from basin_rules.after import Run, lines_of_run
from basin_rules.findings import Finding, told, told_short
from basin_rules.listing import lines_of
from basin_rules.never import warnings
from basin_rules.policy import Policy, read_policy
from basin_rules.surprises import surprises

from .refusals import MOST_TOLD, File, judged, meaning, tell_findings, tell_model
from .saying import ALSO_WRONG, ANSWER, MEND, NEVER, NOTE, RUN, SURPRISE, WRONG, head, say
from .traces import Traces

LONGEST_LINE = 1_000  # of an answer, in letters
SETTLED, FAULT, MODEL_REFUSED, RULES_REFUSED, INPUTS_REFUSED, CODE_REFUSED = 0, 1, 6, 7, 8, 9
OTHER_STATUSES = (2, 3, 4, 5, 10)


def with_policy(words: argparse.Namespace) -> int:
    """Judges a policy, and its run where there are inputs: the tool's status."""
    status, output, answer = basin("check", words.model, words.policy)
    say(ANSWER, plain(answer or output.split("\n", 1)[0], LONGEST_LINE))
    if status == MODEL_REFUSED:
        tell_model(answer, File(words.model))
    elif status in OTHER_STATUSES:
        say(WRONG, meaning(answer))
    elif status in (SETTLED, RULES_REFUSED, CODE_REFUSED):
        return of_policy(words, answer)
    else:
        raise Unable(f"the program ended with status {status}: {plain(answer)}")
    return 1


def of_policy(words: argparse.Namespace, answer: str) -> int:
    """Tells of a policy that is refused or taken, and of its run: the tool's status."""
    model = judged(File(words.model))
    policy = read_policy(words.policy, model) if model and not model.findings else None
    if not policy or (policy.findings and not answer) or (answer and not policy.findings):
        say(NOTE, "This tool reads the files differently from `basin`, so it cannot explain more.")
        return 1
    if answer:
        tell_refused(answer, policy)
        return 1
    inputs = read_inputs(File(words.inputs).content, model) if words.inputs else None
    given = None if words.traces else inputs  # what inputs do not give, traces may
    found = [] if given and given.findings else warnings(policy, model, given)
    tell_policy(found, policy, NEVER, "Parts of the rules that never take effect, by this tool's own check:")
    tell_policy(surprises(policy, model), policy, SURPRISE, "Parts of the rules that may surprise you, by this tool's own check:")
    tell = tell_traces if words.traces else tell_rules_run
    wrong = tell(words, model, policy, inputs) if words.inputs else False
    return int(bool(found) or wrong)


def tell_policy(found: list[Finding], policy: Policy, kind: str, heading: str) -> None:
    """Tells of what is found in a policy that is taken. What may surprise needn't be mended: it may be what is meant."""
    if found:
        head(heading)
    for finding in found[:MOST_TOLD]:
        say(kind, *told(finding, policy.source), **policy.source.where(finding.span.begin))
    if len(found) > MOST_TOLD:
        say(NOTE, f"and {len(found) - MOST_TOLD} more")


def tell_refused(answer: str, policy: Policy) -> None:
    """Tells of a policy that is refused what this tool's own reading has on it, and then what else is wrong."""
    is_same = answer == policy.refusal
    others = policy.findings[is_same:]
    if is_same:
        finding = policy.findings[0]
        say(WRONG, *told(finding, policy.source), **policy.source.where(finding.span.begin))
    if others:
        head("Also wrong, by this tool's own check:" if is_same else "Wrong, by this tool's own check:")
    for finding in others[:MOST_TOLD]:
        say(ALSO_WRONG, told_short(finding, policy.source), **policy.source.where(finding.span.begin))
    if len(others) > MOST_TOLD:
        say(NOTE, f"and {len(others) - MOST_TOLD} more")


class Runs:
    """What is known of all runs of a policy: its blocks, and the lines of its text."""

    def __init__(self, words: argparse.Namespace, model: Model, policy: Policy) -> None:
        self.model, self.policy = model, policy
        self.blocks = policy.blocks(words.model, words.policy)
        self.places = lines_of(policy.ruleset, policy.compiled(words.model, words.policy)) if policy.ruleset else None

    def tell(self, inputs: Inputs, section: Section) -> bool:
        """Tells of one run, and returns whether there is something to mend."""
        walk = Walk(self.model, self.blocks, inputs, section)
        lines, most = lines_of_run(Run(self.model, inputs, section, walk, self.policy.names(), self.places))
        for line in lines:
            say(MEND, plain(line, LONG))
        for line in ([] if lines else [settled_words(self.model, section)]) + most:
            say(NOTE, plain(line, LONG))
        return bool(lines)


def tell_rules_run(words: argparse.Namespace, model: Model, policy: Policy, inputs: Inputs) -> bool:
    """Runs a policy, tells of each run, and answers whether there is something to mend."""
    edits = ["--edits", words.edits] if words.edits else []
    status, output, answer = basin("run", words.model, words.policy, words.inputs, "--trace", *edits)
    if status not in (SETTLED, FAULT):
        say(ANSWER, plain(answer, LONGEST_LINE))
        tell_refused_rows(words, answer, model, inputs)
        return True
    runs, found = Runs(words, model, policy), False
    for section in read_sections(output):
        if section.batch:
            inputs = edited(read_inputs(bytes_of(words.inputs), model), bytes_of(words.edits), section.batch)
        say(RUN, f"# batch {section.batch} {section.ending}", batch=section.batch, ending=section.ending)
        found = runs.tell(inputs, section) or found
    return found


def tell_refused_rows(words: argparse.Namespace, answer: str, model: Model, inputs: Inputs) -> None:
    """Tells why a run was refused: the inputs, the edits, the traces, or something else."""
    if answer.startswith("basin: inputs: "):
        tell_findings(answer, inputs.findings, File(words.inputs))
    elif answer.startswith("basin: edits: "):
        file = File(words.edits)
        tell_findings(answer, read_edits(file.content, model).findings, file)
    elif answer.startswith("basin: traces: "):
        file = File(words.traces)
        tell_findings(answer, read_edits(file.content, model, "trace").findings, file)
    else:
        say(WRONG, meaning(answer))


# ---- traces


def tell_traces(words: argparse.Namespace, model: Model, policy: Policy, inputs: Inputs) -> bool:
    """Runs a policy over traces, tells of those with something to mend, and returns whether there are any."""
    status, output, answer = basin("mrm", words.model, words.policy, words.inputs, words.traces)
    if status not in (SETTLED, FAULT):
        say(ANSWER, plain(answer, LONGEST_LINE))
        tell_refused_rows(words, answer, model, inputs)
        return True
    traces = Traces(model, read_sections(output), bytes_of(words.traces))
    for line in traces.lines():
        say(MEND if traces.faulted or traces.empty else NOTE, line)
    runs = Runs(words, model, policy)
    for number, alike in traces.told():
        section = run_of_trace(words, traces, number)
        say(RUN, f"# trace {number} {section.ending}", trace=number, ending=section.ending)
        runs.tell(edited(read_inputs(bytes_of(words.inputs), model), traces.as_edits(number), 1), section)
        if alike:
            say(MEND, traces.line_of_alike(alike))
    return bool(traces.faulted or traces.empty)


def run_of_trace(words: argparse.Namespace, traces: Traces, number: int) -> Section:
    """Returns the run of a trace with its events: that of the first batch of edits with the rows of the trace."""
    with tempfile.TemporaryDirectory(prefix="basin-") as folder:
        path = Path(folder) / "edits.csv"
        path.write_bytes(traces.as_edits(number))
        status, output, answer = basin("run", words.model, words.policy, words.inputs, "--trace", "--edits", path)
    if status not in (SETTLED, FAULT):
        raise Unable(f"trace {number} as edits: {plain(answer)}")
    return read_sections(output)[1]
