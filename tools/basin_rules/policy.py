"""A policy as the tools read it: a ruleset or a file of code, with its rules in the order of their numbers."""

from dataclasses import dataclass, field

from basin_files.firing import Block, blocks_of
from basin_files.model import Model
from basin_files.program import Unable, answered, bytes_of
from basin_files.reasons import LONG, plain

from . import codefile, verifier
from .codefile import CodeFile
from .findings import Finding
from .looks import Look, RuleFacts, Setting, calls_of, facts_of
from .places import Source, Span
from .rulesets import Ruleset, check_text, read_ruleset


@dataclass
class RuleRow:
    """A rule: its number, its name, what it sets, at what it looks, and its budget."""

    number: int
    name: str
    sets: list[str]
    looks: list[str]
    budget: tuple[int, ...]


@dataclass
class Policy:
    """A policy: its text, the ruleset or the code that it is, and what is wrong with it."""

    source: Source
    ruleset: Ruleset | None = None
    code: CodeFile | None = None
    findings: list[Finding] = field(default_factory=list)

    @property
    def refusal(self) -> str:
        """What `basin` answers where something is wrong, by this tool's reading."""
        return f"basin: {'code' if self.code else 'rules'}: {self.findings[0].refusal}" if self.findings else ""

    @property
    def rules(self) -> Ruleset:
        """The ruleset that it is, where it isn't code."""
        assert self.ruleset
        return self.ruleset

    @property
    def answer(self) -> str:
        """What `check` writes where nothing is wrong, by this tool's reading."""
        if self.code:
            return verifier.check_text(self.code.blocks, self.code.budgets)
        return check_text(self.rules)

    def names(self) -> list[str]:
        """Each rule for people to read."""
        if self.code:
            return [f"rule {number}" for number in range(1, 1 + sum(block.is_rule for block in self.code.blocks))]
        return [rule.called for rule in self.rules.rules]

    def compiled(self, model_path: str, path: str) -> str:
        """The code of the policy, whose files these are: its own text, or what the program makes of the ruleset."""
        return self.source.text if self.code else answered("compile", model_path, path)

    def blocks(self, model_path: str, path: str) -> list[Block]:
        """The blocks of that code."""
        return blocks_of(self.compiled(model_path, path))

    def rows(self, model: Model) -> list[RuleRow]:
        """What is told of each rule; nothing is wrong with the policy."""
        return rows_of_code(self.code) if self.code else rows_of_ruleset(self.rules, model)

    def facts(self, model: Model) -> list[RuleFacts]:
        """What each rule looks at and sets, as far as the text tells."""
        return facts_of_code(self.code) if self.code else facts_of(self.rules, model)

    def uncalled(self) -> list[tuple[str, Span]]:
        """The functions that no rule calls, by itself or through others: the name and the place of each."""
        if self.code:
            return uncalled_of_code(self.code)
        called = calls_of(self.rules)
        return [(name, one.name_span) for name, one in self.rules.functions.items() if name not in called]


def read_policy(path: str, model: Model) -> Policy:
    """The policy of a file, judged with a model with which nothing is wrong."""
    content = bytes_of(path)
    source = Source(plain(str(path)), content)
    if codefile.is_code(content):
        code = codefile.read_code(source, model)
        return Policy(source, code=code, findings=code.findings)
    ruleset = read_ruleset(source, model)
    return Policy(source, ruleset=ruleset, findings=ruleset.findings)


def good_policy(path: str, model: Model, model_path: str) -> Policy:
    """The policy of a file with which nothing is wrong, as these tools read it."""
    policy = read_policy(path, model)
    if policy.findings:
        finding, source = policy.findings[0], policy.source
        more = f"(for more: tools/doctor {plain(model_path, LONG)} --policy {plain(path, LONG)})"
        raise Unable(f"{source.path} {source.place(finding.span.begin)}: {finding.says} {more}")
    return policy


def rows_of_ruleset(ruleset: Ruleset, model: Model) -> list[RuleRow]:
    """What is told of each rule of a ruleset."""
    rows = []
    for rule, facts in zip(ruleset.rules, facts_of(ruleset, model)):
        looks = list(dict.fromkeys(f"{look.slot}{look.time}" for look in facts.looks))
        budget = rule.comes_to
        amounts = (budget.instructions, budget.reads, budget.puts, budget.words)
        sets = list(dict.fromkeys(setting.cell for setting in facts.settings))
        rows.append(RuleRow(rule.rule, rule.shown_name, sets, looks, amounts))
    return rows


def rows_of_code(code: CodeFile) -> list[RuleRow]:
    """What is told of each rule of a file of code, which has no names."""
    rows: list[RuleRow] = []
    slots: list[list[str]] = []
    for block, budget in zip(code.blocks, code.budgets):
        named = [".".join(line[1]) for line in block.lines if line[0] == "slot"]
        named += [slot for line in block.lines if line[0] == "invoke" for slot in slots[line[1] - 1]]
        slots.append(list(dict.fromkeys(named)))
        if block.is_rule:
            puts = [line for line in block.lines if line[0] == "put"]
            settings = [Setting(".".join(line[1]), False, Span(0, 0), None, line[2]) for line in puts]
            sets = list(dict.fromkeys(setting.cell for setting in settings))
            rows.append(RuleRow(len(rows) + 1, "", sets, slots[-1], tuple(budget)))
    return rows


# ---- what code tells of its rules


def facts_of_code(code: CodeFile) -> list[RuleFacts]:
    """What each rule of code sets, and its looks at `t` up to where it first branches or loops."""
    facts: list[RuleFacts] = []
    for block in code.blocks:
        if not block.is_rule:
            continue
        number = len(facts) + 1
        facts.append(RuleFacts(number, f"rule {number}", codefile.line_span(code.source, block.line)))
        sure = True
        for place, line in enumerate(block.lines):
            sure &= line[0] not in ("branch", "jump", "foreach", "map")
            span = codefile.line_span(code.source, block.line + 2 + place)
            if line[0] == "put":
                facts[-1].settings.append(Setting(".".join(line[1]), sure, span, None, line[2]))
            elif line == ("read",) and block.lines[place - 1] == ("now",) and block.lines[place - 2][0] == "slot":
                slot = ".".join(block.lines[place - 2][1])
                facts[-1].looks.append(Look(slot, 0, False, False, sure, span))
            elif line[0] in ("read", "known", "invoke"):
                facts[-1].looks.append(Look("", None, True, False, False, span))
    return facts


def uncalled_of_code(code: CodeFile) -> list[tuple[str, Span]]:
    """The functions of code that no rule calls, by number."""
    calls = {number: called_by(block) for number, block in enumerate(code.blocks, 1)}
    called: set[int] = set()
    waiting = [number for number, block in enumerate(code.blocks, 1) if block.is_rule]
    while waiting:
        found = calls[waiting.pop()] - called
        called |= found
        waiting += found
    functions = [number for number, block in enumerate(code.blocks, 1) if not block.is_rule]
    lines = {number: codefile.line_span(code.source, code.blocks[number - 1].line) for number in functions}
    return [(f"of block {number}", lines[number]) for number in functions if number not in called]


def called_by(block: verifier.Block) -> set[int]:
    """The numbers of the functions that a block calls."""
    return {line[1] for line in block.lines if line[0] == "invoke"}
