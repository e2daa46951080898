"""Hints as changes of the text. Each change is tried first: it is offered only where what it is for goes away by it."""

import re
from bisect import bisect_left
from dataclasses import dataclass

from basin_files.formats import RESERVED_WORDS
from basin_rules import trees
from basin_rules.meant import TIGHT, UNITS
from basin_rules.places import Source
from basin_rules.slips import OTHER_SIGNS

from .checking import reading_of
from .reading import read

QUOTED = re.compile(r"`([^`]*)`")
SUFFIXES = ("[t]", ' * 1 "step"', ' / 1 "step"', *(f' / 1 "{unit}"' for unit in UNITS if unit))
SPELT = {"‐": "-", "−": "-", "–": "-", "×": "*", "·": "*", "÷": "/", "≤": "<=", "≥": ">=", "≠": "<>", "“": '"', "”": '"', "„": '"'}
SPELT |= {"&": "AND", "|": "OR", "!": "NOT ", "\u00a0": " "}
MOST = 6  # changes that are offered for a finding
FURTHER = 6  # tokens that the reading of a declaration goes on by a change which doesn't mend all of it


def fixes_of(document, model, finding, cancelled=lambda: False):
    """The changes that mend a finding: pairs of what is told, and edits (begin, end, text) in bytes."""
    document, offered, texts = alone(document, model, finding), [], set()
    for title, edits in proposals(document, model, finding):
        if cancelled() or len(offered) >= MOST:
            break
        changed = applied(document.source.text, edits)
        if changed not in texts and mends(document, model, finding, edits, changed):
            texts.add(changed)
            offered.append((title, edits))
    return offered


@dataclass
class Alone:
    """A text for a trial, in place of a document."""

    source: Source

    @property
    def content(self):
        """Its bytes."""
        return self.source.content


def alone(document, model, finding):
    """The text with blanks in the place of all rules but the one of a finding: so a trial doesn't take long."""
    text, begin = document.content, finding.span.begin
    for one in reading_of(document, model).ruleset.rules:
        if not one.head.begin <= begin <= one.end + 1:
            text = text[: one.head.begin] + b" " * (one.end - one.head.begin) + text[one.end :]
    return Alone(Source("", text))


def applied(text, edits):
    """A text with edits made."""
    for begin, end, new in sorted(edits, reverse=True):
        text = text[:begin] + new.encode().decode("latin-1") + text[end:]
    return text


def mends(document, model, finding, edits, changed):
    """Whether a finding goes away, and nothing else becomes wrong at or near its place."""
    kind = finding.refusal.rpartition(": ")[2]
    is_grammar = kind in ("bad token", "bad declaration")
    model = None if is_grammar else model
    after = read(Source("", changed.encode("latin-1")), model)
    if not finding.refusal:
        return not after.findings
    old = {(one.refusal, one.says) for one in read(document.source, model).findings}
    new = [one for one in after.findings if (one.refusal, one.says) not in old or one.says == finding.says]
    first = min(new, key=lambda one: one.span.begin, default=None)
    if not first or not is_grammar:
        others = ("bad token", "bad declaration", kind)
        return not first or (first.says != finding.says and first.refusal.rpartition(": ")[2] not in others)
    edge = min(begin for begin, _, _ in edits)
    return len([token for token in after.tokens if edge <= token.begin < first.span.begin]) >= FURTHER


def proposals(document, model, finding):
    """Changes that may be meant, the likeliest first."""
    source = document.source
    kind = finding.refusal.rpartition(": ")[2]
    if kind == "bad token":
        yield from of_token(source, finding)
    elif kind == "bad declaration":
        yield from of_grammar(document, model, finding)
    elif kind:
        yield from of_meaning(document, model, finding)
    else:
        yield from of_look(document, model, finding)


def replace(finding, text):
    """A change of what a finding is of."""
    return [(finding.span.begin, finding.span.end, text)]


# ---- tokens


def of_token(source, finding):
    """A sign that isn't there."""
    begin = finding.span.begin
    letter = source.content[begin : begin + 4].decode("utf-8", "replace")[:1]
    end = begin + len(letter.encode())
    if letter in SPELT and letter in OTHER_SIGNS or letter == "&":
        for times in (2, 1):  # && and ||
            if source.content[begin : begin + times * len(letter.encode())].decode("utf-8", "replace") == letter * times:
                yield f"write {SPELT[letter].strip() or 'a blank'}", [(begin, begin + times * len(letter.encode()), SPELT[letter])]
    if letter and letter in "“”„":
        line_end = source.content.find(b"\n", begin)
        row = source.content[begin : line_end if line_end >= 0 else len(source.content)]
        places, place = [], begin
        for one in row.decode("utf-8", "replace"):
            if one in "“”„":
                places.append(place)
            place += len(one.encode())
        yield "write straight quotes in this line", [(at, at + 3, '"') for at in places]
    if source.content[begin : begin + 2] == b"!=":
        yield "write <>", [(begin, begin + 2, "<>")]
    if source.content[:3] == b"\xef\xbb\xbf" and not begin:
        yield "leave the byte order mark out", [(0, 3, "")]
    if letter == '"':
        last = len(source.content[: finding.span.end].rstrip())
        for at in sorted({last, *(last - len(one) for one in (b";", b":", b",", b")") if source.content[:last].endswith(one))}):
            yield 'close the string with "', [(at, at, '"')]
    if letter == "'":
        close = source.content.find(b"'", begin + 1)
        line_end = source.content.find(b"\n", begin)
        if begin < close and (line_end < 0 or close < line_end):
            yield 'write " for \'', [(begin, begin + 1, '"'), (close, close + 1, '"')]
    if letter == "%":
        yield "write / 100", [(begin, end, " / 100")]


# ---- grammar


def of_grammar(document, model, finding):
    """Words and signs that stand wrong, that lack, or that are too many."""
    reading = read(document.source, None)
    tokens, hint = reading.tokens, finding.hint
    at = bisect_left([token.begin for token in tokens], finding.span.begin)
    here = tokens[at] if at < len(tokens) and tokens[at].begin == finding.span.begin else None
    before = tokens[at - 1] if at else None
    behind = tokens[at + 1] if at + 1 < len(tokens) else None
    text = document.source.text
    words = QUOTED.findall(hint)
    word = words[0] if words else ""

    if hint.startswith("no `;`") and here:
        yield "leave the ; out", [(before.end if before and not text[before.end : here.begin].strip() else here.begin, here.end, "")]
    if hint.startswith("a `;` after") and before:
        yield "put a ; here", [(before.end, before.end, ";")]
    if hint.startswith("a `:` before it") and before:
        yield "put a : here", [(before.end, before.end, ":")]
    if hint.startswith("`[t]`, at this timestep") and here:
        yield "write [t]", [(here.begin, here.begin, "t")]
    if re.match(r"`[^`]*\[t\] :=`", hint) and here and before:
        yield "write [t] :=", [(before.end, here.end, "[t] :=")]
    if hint.startswith("`#`") and here:
        begin = before.begin if before and before.is_mark("/") and before.end == here.begin else here.begin
        yield "write #", [(begin, behind.end if begin == here.begin and behind and behind.is_mark("/") else here.end, "#")]
    if hint.startswith("the number without `+`") and here:
        yield "leave the + out", [(here.begin, here.end, "")]
    if hint.startswith("another name:") and here:
        yield f"name it {here.text}_", [(here.begin, here.end, f"{here.text}_")]
    if hint.startswith("`a < b AND b < c`") and here and before:
        yield from of_chain(text, tokens, at)
    for token, other in ((here, behind), (before, here)):
        if token and token.kind == "name" and token.text.upper() in RESERVED_WORDS and "in capitals" in hint:
            yield f"write {token.text.upper()}", [(token.begin, token.end, token.text.upper())]
        if token and other and hint.endswith("which is one word") and word:
            yield f"write {word}", [(token.begin, other.end, word)]
        if token and token.text in ("ELSEIF", "ELSIF", "ELIF"):
            yield "write ELSE IF", [(token.begin, token.end, "ELSE IF")]
    if word and here:
        yield from around(text, word, hint, before, here, behind, tokens, at)
    elif word and " " not in word and "at the end" in hint:
        end = len(text.rstrip())
        yield f"put {word} at the end", [(end, end, f"\n{word}")]


def of_chain(text, tokens, at):
    """A comparison behind a comparison: the value between them is spelt once more."""
    depth = 0
    for place in range(at - 1, -1, -1):
        token = tokens[place]
        if not depth and token.is_mark("=", "<>", "<", "<=", ">", ">="):
            value = text[tokens[place + 1].begin : tokens[at - 1].end]
            yield f"write AND {value}", [(tokens[at].begin, tokens[at].begin, f"AND {value} ")]
            return
        depth += token.is_mark(")", "]", "}") - token.is_mark("(", "[", "{")
        if depth < 0:
            return


def around(text, word, hint, before, here, behind, tokens, at):
    """A piece of text in the place of what stands here, or before it."""
    if word.startswith("END") and "before it" in hint:
        yield f"put {word} here", [(before.end, before.end, f"\n{word}\n" if here.is_mark("RULE", "FUNCTION") else f" {word}")]
    if word.startswith("RULE ") and here.kind == "name":
        end = here.end
        for token in tokens[at + 1 :]:
            if token.kind not in ("name", "number") or "\n" in text[end : token.begin]:
                break
            end = token.end
        yield "put the name in quotes", [(here.begin, end, f'"{text[here.begin : end]}"')]
    if before and ("thousands separator" in hint or "unit is in quotes" in hint):
        for last in (tokens[at + 2] if at + 2 < len(tokens) else None, behind, here):
            if last:
                yield f"write {word}", [(before.begin, last.end, word)]
    if word.endswith("()") and before:
        yield f"write {word}", [(before.begin, before.end, word)]
    if before and " " in word and word.startswith(("NUMERIC", "SLOT")):
        yield f"write {word}", [(before.begin, before.end, word)]
        yield f"write {word}", [(here.begin, here.end, word)]
    if "[t]" in word and before:
        name = word.partition("[")[0]
        start = tokens[at - 3].begin if "." in name and at >= 3 else before.begin
        close = next((one for one in tokens[at : at + 6] if one.is_mark(")")), here)
        yield f"write {word}", [(start, close.end, word)]
    if " .. " not in word:
        yield f"write {word}", [(here.begin, here.end, word)]
        yield f"put {word} here", [(here.begin, here.begin, f"{word} ")]


# ---- names, units and types


def of_meaning(document, model, finding):
    """Another name, another unit, or a value that is made to measure what is asked for."""
    text, hint = document.source.text, finding.hint
    here = text[finding.span.begin : finding.span.end]
    near = re.search(r" Did you mean ([A-Za-z_][A-Za-z0-9_]*(?:\.[A-Za-z_][A-Za-z0-9_]*)?)[?,]", finding.says)
    if near:
        yield from nearer(here, near[1], finding)
    if re.fullmatch(r'"[^"]*"', hint):
        yield f"write {hint}", replace(finding, hint)
    elif unit := re.match(r'"([^"]*)"', hint):
        yield f"write {unit[0]}", replace(finding, unit[0])
    if re.fullmatch(r"[A-Za-z_][A-Za-z0-9_]*", hint):
        name = re.match(r"[A-Za-z_][A-Za-z0-9_]*", here)
        inner = re.match(r"(\w+\s*\(\s*)(\w+)", here)
        if name:
            yield f"write {hint}", [(finding.span.begin, finding.span.begin + name.end(), hint)]
        if inner:
            begin = finding.span.begin + inner.end(1)
            yield f"write {hint}", [(begin, begin + len(inner[2]), hint)]
    if hint.endswith("in capitals") or hint == "t, this timestep":
        yield f"write {hint.partition(',')[0]}", replace(finding, hint.partition(",")[0])
    for slot in re.findall(r"[A-Za-z_]\w*\.[A-Za-z_]\w*(?!\[)", hint):
        if model and slot in model.slots:
            yield f"write {slot}", replace(finding, slot)
            yield f"write {slot}[t]", replace(finding, f"{slot}[t]")
            yield f"write {slot}[t]", [(finding.span.begin, finding.span.end, f"{slot}[t]")]
    if hint.startswith(f"{here}(), a call"):
        yield f"write {here}()", replace(finding, f"{here}()")
    yield from of_values(document, model, finding)
    yield from of_dates(document, model, finding)


def nearer(here, near, finding):
    """The name that is nearest, in the place of an object's or of a slot's."""
    owner, dot, slot = here.partition(".")
    if "." in near:
        tail = re.match(r"[\w ]*", slot)[0] if dot else ""
        yield f"write {near}", [(finding.span.begin, finding.span.begin + len(owner) + len(dot) + len(tail), near)]
    else:
        yield f"write {near}", [(finding.span.begin, finding.span.begin + len(owner), near)]


def nodes_in(document, model, finding):
    """The nodes within what a finding is of, with the outer ones first, and then those beside it in the same form."""
    begin, end = finding.span.begin, finding.span.end
    for declaration in read(document.source, model).ruleset.declarations:
        if not declaration.head.begin <= begin <= declaration.end:
            continue
        nodes = list(declaration.nodes())
        yield from (node for node in nodes if begin <= node.span.begin and node.span.end <= end)
        for node in nodes:
            if any((part.span.begin, part.span.end) == (begin, end) for part in node.parts) and not isinstance(node, trees.STATEMENTS):
                yield from (part for part in node.parts if part.span.end <= begin or end <= part.span.begin)


def of_values(document, model, finding):
    """A value with a unit, or with what makes another measure of it."""
    source, hint = document.source, finding.hint
    for node in nodes_in(document, model, finding):
        if isinstance(node, trees.STATEMENTS):
            continue
        whole, words = source.text[node.span.begin : node.span.end], source.words(node.span)
        is_tight = isinstance(node, TIGHT)
        if isinstance(node, trees.Literal):
            bare = whole.partition('"')[0].rstrip()
            for unit in UNITS:
                if hint == f'{words} "{unit}"':
                    yield f"write {hint}", [(node.span.begin, node.span.end, f'{bare} "{unit}"')]
            if hint == f"{node.value}, without its unit":
                yield "leave the unit out", [(node.span.begin, node.span.end, bare)]
        for suffix in SUFFIXES:
            tight = words if is_tight or suffix == "[t]" else f"({words})"
            if hint.startswith(f"{tight}{suffix}"):
                new = f"{whole}{suffix}" if is_tight or suffix == "[t]" else f"({whole}){suffix}"
                title = f"add{suffix}" if suffix[0] == " " else f"add {suffix}"
                yield title, [(node.span.begin, node.span.end, new)]
                yield title, [(node.span.begin, node.span.end, f"({new})")]
        if isinstance(node, trees.SlotName) and hint.startswith(f"KNOWN({words}[t])"):
            yield "add [t]", [(node.span.end, node.span.end, "[t]")]


def of_dates(document, model, finding):
    """A date that is moved by a plain number, and one that is none."""
    text = document.source.text
    for node in nodes_in(document, model, finding):
        if isinstance(node, trees.Two) and node.word in ("+", "-") and isinstance(node.parts[1], trees.Literal):
            last = node.parts[1]
            if not last.unit and '"step"' in finding.hint:
                yield 'add "step"', [(last.span.end, last.span.end, ' "step"')]
        if isinstance(node, trees.At) and finding.hint.partition("[")[1]:
            date = node.parts[1]
            bare = text[date.span.begin : date.span.end]
            if isinstance(date, trees.One) and date.word == "-":
                inner = text[date.parts[0].span.begin : date.parts[0].span.end]
                yield f'write [t - {inner} "step"]', [(date.span.begin, date.span.end, f't - {inner} "step"')]
            elif '[t]' in finding.hint:
                yield "write [t]", [(date.span.begin, date.span.end, "t")]
                yield f'write [t + {bare} "step"]', [(date.span.begin, date.span.end, f't + {bare} "step"')]


# ---- what to look at


def of_look(document, model, finding):
    """A put that takes hold of what it confirms: the same with IF. A function that no rule calls: none."""
    reading, text = read(document.source, model), document.source.text
    for declaration in reading.ruleset.declarations:
        for node in declaration.nodes():
            if isinstance(node, trees.Assign) and node.target == finding.span and finding.hint.startswith("IF "):
                value = node.parts[0]
                while isinstance(value, trees.Brackets):
                    value = value.parts[0]
                keeps = {"Max": "<", "Min": ">"}.get(getattr(value, "name", ""))
                own = [part for part in value.parts if isinstance(part, trees.At)] if keeps else []
                other = [part for part in value.parts if own and part is not own[0]]
                if len(other) == 1:
                    limit, slot = text[other[0].span.begin : other[0].span.end], f"{node.full_name}[t]"
                    new = f"IF {slot} {keeps} {limit} THEN {slot} := {limit}; ENDIF"
                    yield "set it only where it has to be, with IF", [(node.span.begin, node.span.end, new)]
        if not declaration.is_rule and declaration.name_span == finding.span:
            end = declaration.end
            while end < len(text) and text[end] in "\r\n":
                end += 1
            yield f"leave the function {declaration.name} out", [(declaration.head.begin, end, "")]
