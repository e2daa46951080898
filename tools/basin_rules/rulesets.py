"""A ruleset as the tools read it: its declarations, and all that is wrong with them, in `basin`'s order."""

from dataclasses import dataclass, field

from basin_files.model import Model

from . import costs, slips
from .findings import Finding
from .grammar import NoReading, TooDeep, numbered, pieces_of, read_declaration
from .judging import Judge, Misfit, signature_of
from .places import Source, Span
from .tokens import BadToken, Token, tokens_of
from .trees import Declaration
from .verifier import MOST_ALIKE


@dataclass
class Ruleset:
    """A ruleset: its text, its declarations as far as they could be read, and what is wrong."""

    source: Source
    declarations: list[Declaration] = field(default_factory=list)
    findings: list[Finding] = field(default_factory=list)

    @property
    def rules(self) -> list[Declaration]:
        """Its rules, that of the highest priority first."""
        return [one for one in self.declarations if one.is_rule]

    @property
    def functions(self) -> dict[str, Declaration]:
        """Its functions by name."""
        return {one.name: one for one in self.declarations if not one.is_rule}

    def refuse(
        self, refusal: str, span: Span, says: str, hint: str = "", more: list[str] | None = None, whose: str = ""
    ) -> None:
        """Notes what is wrong."""
        self.findings.append(Finding(refusal, span, says, hint, more or [], whose))


def read_ruleset(source: Source, model: Model) -> Ruleset:
    """The ruleset that a text spells, judged with a model with which nothing is wrong."""
    ruleset = Ruleset(source)
    try:
        tokens = tokens_of(source.text)
    except BadToken as bad:
        line = source.line(bad.span.begin)
        ruleset.refuse(f"line {line}: bad token", bad.span, *slips.of_token(bad, source))
        return ruleset
    read_pieces(ruleset, list(pieces_of(tokens)))
    if not ruleset.findings:
        judge_declarations(ruleset, model)
    return ruleset


def read_pieces(ruleset: Ruleset, pieces: list[list[Token]]) -> None:
    """Reads the declarations of the tokens, one after another."""
    begun = {"RULE": 0, "FUNCTION": 0}
    for number, piece in enumerate(pieces, 1):
        first = piece[0]
        sort = first.text if first.is_mark("RULE", "FUNCTION") else ""
        begun[sort] = begun.get(sort, 0) + 1
        if sort and begun[sort] > MOST_ALIKE:
            says = f"a ruleset has at most {MOST_ALIKE} {'rules' if sort == 'RULE' else 'functions'}"
            ruleset.refuse(f"declaration {number}: too many", first.span, says)
            continue
        try:
            declaration = numbered(read_declaration(piece))
        except (NoReading, TooDeep) as wrong:
            refusal = f"declaration {number} line {ruleset.source.line(first.begin)}: bad declaration"
            ruleset.findings.append(slips.of_grammar(refusal, wrong, piece, ruleset.source))
            continue
        declaration.number, declaration.rule = number, begun["RULE"]
        ruleset.declarations.append(declaration)


def judge_declarations(ruleset: Ruleset, model: Model) -> None:
    """Judges the types and the costs of all declarations. Costs are reckoned as long as nothing is wrong."""
    judge = Judge(model, ruleset.source, ruleset.declarations)
    costing = costs.Costing()
    for one in ruleset.declarations:
        try:
            judge.declaration(one)
            judge.declared(one)
            if not ruleset.findings:
                judge_cost(ruleset, costing, one)
        except Misfit as misfit:
            judge.declared(one)
            refusal = f"declaration {one.number} node {misfit.number}: {misfit.wrong.kind}"
            ruleset.refuse(refusal, misfit.span, misfit.wrong.says, misfit.wrong.hint, whose=one.called)


def judge_cost(ruleset: Ruleset, costing: costs.Costing, declaration: Declaration) -> None:
    """Reckons the budget of a declaration, and judges whether it is within its limits."""
    signature = None if declaration.is_rule else signature_of(declaration)
    budget = declaration.budget = costing.budget(declaration, signature)
    above = budget.above()
    if above:
        refusal = f"declaration {declaration.number} node 0: too costly"
        more = costs.dearest(declaration, above[0][0], ruleset.source)
        says = costs.words_above(budget)
        ruleset.refuse(refusal, declaration.head, says, more=more, whose=declaration.called)


def check_text(ruleset: Ruleset) -> str:
    """What `check` writes of an accepted ruleset."""
    lines = [f"ok {len(ruleset.rules)} rules {len(ruleset.functions)} functions"]
    for rule in ruleset.rules:
        budget = rule.comes_to
        lines.append(
            f"rule {rule.rule} instructions {budget.instructions} reads {budget.reads} puts {budget.puts}"
            f" words {budget.words}"
        )
    return "".join(f"{line}\n" for line in lines)
