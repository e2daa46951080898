"""A ruleset as an editor has it: read as far as it can be, also where it is half written."""

import re
from bisect import bisect_left
from dataclasses import dataclass, field
from functools import cached_property

from basin_rules import costs, slips, trees
from basin_rules.grammar import NoReading, TooDeep, numbered, read_declaration
from basin_rules.judging import Judge, Misfit
from basin_rules.places import Span
from basin_rules.rulesets import Ruleset, judge_cost
from basin_rules.tokens import GAP, BadToken, Token, token_at
from basin_rules.verifier import MOST_ALIKE

STARTS = ("RULE", "FUNCTION")


@dataclass(frozen=True)
class Comment:
    """A comment: where it stands."""

    begin: int
    end: int


@dataclass
class Reading:
    """What a text spells: its declarations as far as they could be read, and what is wrong."""

    source: object
    ruleset: Ruleset
    model: object
    further: list = field(default_factory=list)  # findings beside those that the tools have
    taken: set = field(default_factory=set)  # declarations that come from an earlier reading
    chunks: dict = field(default_factory=dict)  # of each declaration where its text begins, that text, and the functions
    pool: dict = field(default_factory=dict)  # by text and functions: rules that a later reading may take
    missing: set = field(default_factory=set)  # functions that couldn't be read

    @property
    def findings(self):
        """All that is wrong; the first is that for which `basin` refuses the text, where it does."""
        return self.ruleset.findings + self.further

    @cached_property
    def lexed(self):
        """The tokens and the comments of the whole text."""
        return lexed(self.source.text)[:2]

    @property
    def tokens(self):
        """The tokens of the whole text."""
        return self.lexed[0]

    def at(self, byte):
        """The declaration in which a byte stands, or `None`."""
        return next((one for one in self.ruleset.declarations if one.head.begin <= byte <= one.end), None)

    def lost(self):
        """The functions that couldn't be read."""
        return self.missing

    def keep(self, rule):
        """A rule may be taken by a later reading."""
        if id(rule) in self.chunks:
            begin, chunk, functions = self.chunks[id(rule)]
            self.pool.setdefault((chunk, functions), []).append((begin, rule))


CHUNK = re.compile(r"#[^\n]*|\"[^\"\n]*\"?|[A-Za-z_][A-Za-z0-9_]*")


def lexed(text, place=0, stop=None):
    """The tokens, the comments, and the places that have no token, which are passed over."""
    tokens, comments, bads = [], [], []
    stop = len(text) if stop is None else stop
    while True:
        gap = GAP.match(text, place, stop)
        at = text.find("#", place, gap.end())
        while at >= 0:
            end = text.find("\n", at, gap.end())
            end = gap.end() if end < 0 else end
            comments.append(Comment(at, end - (text[end - 1] == "\r")))
            at = text.find("#", end, gap.end())
        place = gap.end()
        if place >= stop:
            return tokens, comments, bads
        try:
            tokens.append(token_at(text, place))
            place = tokens[-1].end
        except BadToken as bad:
            bads.append(bad)
            place = max(bad.span.end, place + 1)


def chunks_of(text):
    """Where each declaration stands, with what is before it: up to the first ENDRULE or ENDFUNCTION, and what is left."""
    begin = 0
    for found in CHUNK.finditer(text):
        if found[0] in ("ENDRULE", "ENDFUNCTION"):
            yield begin, found.end()
            begin = found.end()
    if text[begin:]:
        yield begin, len(text)


def moved(declaration, by):
    """Moves a declaration that was read in an earlier text to where it stands now."""
    if by:

        def at(span):
            return Span(span.begin + by, span.end + by)

        declaration.head, declaration.name_span = at(declaration.head), at(declaration.name_span)
        for node in declaration.nodes():
            node.span = at(node.span)
            if isinstance(node, trees.Assign):
                node.target = at(node.target)
            elif isinstance(node, trees.Literal) and node.unit:
                node.unit = Token("string", node.unit.text, node.unit.begin + by, node.unit.end + by)
    return declaration


def read(source, model, before=None):
    """The reading of a text. Names and units are judged with a model with which nothing is wrong, or not at all.

    Rules that stood in an earlier reading, which is used up, are taken from it, where the functions before them and the
    model are the same.
    """
    text, ruleset = source.text, Ruleset(source)
    reading = Reading(source, ruleset, model)
    pool = before.pool if before and before.model is model and model else {}
    bads, pieces, counts, functions = [], [], {"RULE": 0, "FUNCTION": 0}, ()
    for number, (begin, end) in enumerate(chunks_of(text), 1):
        chunk = text[begin:end]
        kept = pool.get((chunk, functions))
        if kept and counts["RULE"] < MOST_ALIKE:
            old, declaration = kept.pop()
            counts["RULE"] += 1
            declaration = moved(declaration, begin - old)
            declaration.number, declaration.rule, declaration.end = number, counts["RULE"], end
            reading.taken.add(id(declaration))
            ruleset.declarations.append(declaration)
            reading.chunks[id(declaration)] = begin, chunk, functions
            continue
        tokens, _, wrong = lexed(text, begin, end)
        bads += wrong
        if not tokens:
            continue
        pieces.append((tokens, wrong))
        read_chunk(reading, number, tokens, counts, bool(wrong))
        if ruleset.declarations and ruleset.declarations[-1].number == number:
            ruleset.declarations[-1].end = end
            if not wrong:
                reading.chunks[id(ruleset.declarations[-1])] = begin, chunk, functions
        if any(token.is_mark("FUNCTION") for token in tokens):
            functions = (*functions, text[tokens[0].begin : tokens[-1].end])
    grammar, ruleset.findings = ruleset.findings, []
    for bad in bads:
        ruleset.refuse(f"line {source.line(bad.span.begin)}: bad token", bad.span, *slips.of_token(bad, source))
    ruleset.findings += grammar
    if ruleset.findings:
        recover(reading, [tokens for tokens, _ in pieces], {id(tokens) for tokens, wrong in pieces if wrong})
    judge(reading)
    return reading


def read_chunk(reading, number, tokens, counts, is_hurt):
    """Reads a declaration, as the tools do; nothing is told of its grammar where it has places without a token."""
    ruleset, first = reading.ruleset, tokens[0]
    sort = first.text if first.is_mark(*STARTS) else ""
    counts[sort] = counts.get(sort, 0) + 1
    if sort and counts[sort] > MOST_ALIKE:
        says = f"a ruleset has at most {MOST_ALIKE} {'rules' if sort == 'RULE' else 'functions'}"
        ruleset.refuse(f"declaration {number}: too many", first.span, says)
        return
    try:
        declaration = numbered(read_declaration(tokens))
    except (NoReading, TooDeep) as wrong:
        if not is_hurt:
            refusal = f"declaration {number} line {ruleset.source.line(first.begin)}: bad declaration"
            ruleset.findings.append(slips.of_grammar(refusal, wrong, tokens, ruleset.source))
        return
    declaration.number, declaration.rule, declaration.end = number, counts["RULE"], tokens[-1].end
    ruleset.declarations.append(declaration)


def judge(reading):
    """Judges types and costs as far as they can be, and keeps the rules with which nothing is wrong for the next reading."""
    ruleset, source, model = reading.ruleset, reading.source, reading.model
    if not model:
        return
    judging, costing, lost = Judge(model, source, ruleset.declarations), costs.Costing(), reading.lost()
    is_whole, good = not lost, True
    judged = Ruleset(source)
    for one in ruleset.declarations:
        if id(one) in reading.taken:
            reading.keep(one)
            continue
        count = len(judged.findings)
        try:
            judging.declaration(one)
            judging.declared(one)
            if is_whole:
                judge_cost(judged, costing, one)
        except Misfit as misfit:
            judging.declared(one)
            refusal = f"declaration {one.number} node {misfit.number}: {misfit.wrong.kind}"
            judged.refuse(refusal, misfit.span, misfit.wrong.says, misfit.wrong.hint, whose=one.called)
        good = count == len(judged.findings)
        if not good and not one.is_rule:
            is_whole = False
        if good and one.is_rule and one.budget:
            reading.keep(one)
    is_first = not ruleset.findings
    for finding in judged.findings:
        name = source.text[finding.span.begin : finding.span.end].partition("(")[0].strip()
        if name not in lost:
            (ruleset.findings if is_first else reading.further).append(finding)


def parts_of(piece):
    """A piece cut before each RULE and FUNCTION in it."""
    part = []
    for token in piece:
        if part and token.is_mark(*STARTS):
            yield part
            part = []
        part.append(token)
    yield part


def recover(reading, pieces, hurt):
    """Reads what stands behind a declaration that isn't ended."""
    ruleset, source = reading.ruleset, reading.source
    known = {one.head.begin for one in ruleset.declarations}
    told = {one.span.begin for one in ruleset.findings}
    added = False
    for piece in pieces:
        if piece[0].begin in known:
            continue
        for part in list(parts_of(piece))[1:]:
            try:
                ruleset.declarations.append(numbered(read_declaration(part)))
                ruleset.declarations[-1].end = part[-1].end
                added = True
            except (NoReading, TooDeep) as wrong:
                finding = slips.of_grammar("bad declaration", wrong, part, source)
                if finding.span.begin not in told and id(piece) not in hurt:
                    reading.further.append(finding)
    if added:
        ruleset.declarations.sort(key=lambda one: one.head.begin)
    starts = [token.begin for piece in pieces for token in piece if token.is_mark("RULE")]
    starts = sorted({*starts, *(one.head.begin for one in ruleset.declarations if one.is_rule)})
    for one in ruleset.declarations:
        one.rule = bisect_left(starts, one.head.begin) + 1 if one.is_rule else 0
    defined = {one.name for one in ruleset.declarations if not one.is_rule}
    for piece in pieces:
        for before, token in zip(piece, piece[1:]):
            if before.is_mark("FUNCTION") and token.text not in defined:
                reading.missing.add(token.text)
