"""What may stand at the cursor: by the grammar, by the model, and by what has to be measured there."""

import re

from basin_files import formats
from basin_files.firing import PREDEFINED
from basin_rules import trees
from basin_rules.grammar import EXPRESSION, STATEMENT, NoReading, TooDeep, numbered, read_declaration
from basin_rules.judging import Judge, Misfit
from basin_rules.measures import UNITS, unit_words
from basin_rules.tokens import RESERVED, Token

from . import checking, models, telling
from .names import known_at
from .reading import STARTS, lexed

KEYWORD, FUNCTION, FIELD, VARIABLE, CLASS, UNIT, PROPERTY, VALUE, SNIPPET = 14, 3, 5, 6, 7, 11, 10, 12, 15
CLOSERS = "] ) } ; ENDLET ENDFOR ENDMAP ENDWITH ENDIF ENDRULE ENDFUNCTION IN THEN ELSE DO IS := : .".split()
MOST_CLOSED = 60
BARE = ("KNOWN", "LENGTH", "MONTH", "DAY", "YEAR", "APPEND", "ITEM", "StorageToElevation", "ElevationToStorage")
FORMS = ("(", "{", "IF", "LET", "FOR", "MAP", "TRUE", "FALSE", "t", *BARE, "-", "NOT")


def completions(document, model, byte):
    """The items that may stand at a byte of a ruleset."""
    text = document.source.text
    line = text.rfind("\n", 0, byte) + 1
    quoted = quote_before(text[line:byte])
    if quoted == "#":
        return []
    word = re.search(r"[A-Za-z_][A-Za-z0-9_]*$", text[:byte]) if quoted is None else None
    begin = line + quoted if quoted is not None else word.start() if word else byte
    tokens = piece_before(text, begin)
    if quoted is not None:
        return units(document, model, tokens, begin, byte)
    before = tokens[-1] if tokens else None
    spot = document.range(begin, byte)
    if before and before.is_mark(".") and len(tokens) > 1 and tokens[-2].kind == "name":
        return slots(model, tokens, spot)
    wanted, going = expected(tokens)
    found = [item(mark, KEYWORD, spot, order="5") for mark in [*wanted, *going] if mark in RESERVED]
    if EXPRESSION in wanted:
        found += [item(mark, KEYWORD, spot, order="5") for mark in FORMS if mark in RESERVED]
        found += of_values(document, model, tokens, begin, spot)
    if STATEMENT in wanted:
        found += [item(mark, KEYWORD, spot, order="5") for mark in ("IF", "WITH")]
        found += objects(model, spot)
    if "a name" in wanted and before and before.is_mark("(") and len(tokens) > 1 and tokens[-2].is_mark(*BARE[-2:]):
        found += [one for one in objects(model, spot, True)]
    if not tokens:
        found += [item(one, KEYWORD, spot, order="5") for one in STARTS]
    if "a unit in quotes" in wanted + going:
        found += units(document, model, tokens, byte, byte, '"')
    unique = {}
    for one in found:
        unique.setdefault(one["label"], one)
    return list(unique.values())


def quote_before(row):
    """In a line up to the cursor: the place of the `\"` of a string that isn't closed, `#` in a remark, or `None`."""
    place, opened = 0, None
    while place < len(row):
        if row[place] == '"':
            opened = place if opened is None else None
        elif row[place] == "#" and opened is None:
            return "#"
        place += 1
    return opened


def piece_before(text, byte):
    """The tokens of the declaration in which a byte stands, up to it."""
    tokens = [token for token in lexed(text[:byte])[0]]
    first = 0
    for at, token in enumerate(tokens):
        if token.is_mark(*STARTS):
            first = at
        elif token.is_mark("ENDRULE", "ENDFUNCTION"):
            first = at + 1
    return tokens[first:]


def expected(tokens):
    """What may stand behind tokens of a declaration."""
    if not tokens:
        return list(STARTS), []
    try:
        read_declaration(tokens)
    except NoReading as stop:
        return (stop.wanted, stop.going) if stop.at >= len(tokens) else ([EXPRESSION], [])
    except TooDeep:
        pass
    return [], []


def item(label, kind, spot, detail="", order="3", new=None):
    """An item as the protocol has it."""
    told = {"label": label, "kind": kind, "sortText": order + label, "textEdit": {"range": spot, "newText": new or label}}
    return {**told, "detail": detail} if detail else told


def objects(model, spot, with_table=False):
    """The objects of the model."""
    for thing in model.objects if model else ():
        if not with_table or thing.looked_up:
            yield item(thing.name, CLASS, spot, thing.kind.replace("_", " "), "2")


def slots(model, tokens, spot):
    """The slots of the object whose name stands before the point."""
    thing = model.object_named(tokens[-2].text) if model else None
    is_target = STATEMENT in expected(tokens[:-2])[0] and not tokens[-3].is_mark(":=") if len(tokens) > 2 else False
    return [
        item(slot.name, FIELD, spot, f"{slot.unit or 'a plain number'}{'' if slot.settable else ', derived'}", "1" if slot.settable else "4")
        for slot in (thing.slots if thing else ())
        if slot.settable or not is_target
    ]


def of_values(document, model, tokens, byte, spot):
    """Names that stand for values, functions, and objects."""
    reading = checking.reading_of(document, model)
    found = [item(name, VARIABLE, spot, order="0") for name in known_at(tokens, byte)]
    for name, function in reading.ruleset.functions.items():
        if function.head.begin < byte and not (tokens and function.head.begin == tokens[0].begin):
            head = document.source.content[function.head.begin : function.head.end].decode("utf-8", "replace")
            found.append(item(name, FUNCTION, spot, " ".join(head.split()), "1", f"{name}("))
    found += [item(name, FUNCTION, spot, telling.FUNCTIONS[name].replace("`", ""), "4", f"{name}(") for name in PREDEFINED]
    return [*found, *objects(model, spot)]


# ---- units


def units(document, model, tokens, begin, byte, quote='"'):
    """The units that may stand behind a number or in a type: those alone that fit, where that can be told."""
    before = tokens[-1] if tokens else None
    if not before or not (before.kind == "number" or before.is_mark("NUMERIC", "SLOT")):
        return []
    text = document.source.text
    end = byte
    if text[begin : begin + 1] == '"':
        close, line = text.find('"', begin + 1), text.find("\n", begin)
        rest = text[byte:close] if close >= 0 else ""
        if close >= byte and (line < 0 or close < line) and re.fullmatch(r"[A-Za-z0-9/]*", rest):
            end = close + 1
    spot = document.range(begin, end)
    fitting = fits(document, model, tokens) if before.kind == "number" and model else list(UNITS)
    blank = " " if begin == byte and text[begin - 1 : begin].isdigit() else ""
    return [
        {
            **item(f'"{unit}"', UNIT, spot, unit_words(UNITS[unit][0]) or "a plain number", "0" if unit in fitting else "6", f'{blank}"{unit}"'),
            "filterText": f'"{unit}"',
        }
        for unit in (fitting or UNITS)
        if unit or before.kind != "number"
    ]


def fits(document, model, tokens):
    """The units with which a declaration that is half written goes on without anything wrong, by trying each."""
    reading = checking.reading_of(document, model)
    begin = tokens[0].begin
    earlier = [one for one in reading.ruleset.declarations if one.head.begin < begin]
    judge = Judge(model, document.source, earlier)
    for one in earlier:
        judge.declared(one)
    found, furthest = [], -1
    for unit in UNITS:
        try:
            declaration = closed([*tokens, Token("string", unit, tokens[-1].end, tokens[-1].end)])
        except (NoReading, TooDeep):
            return list(UNITS)
        try:
            judge.declaration(declaration)
            reached = len(document.content) + 1
        except Misfit as misfit:
            reached = misfit.number if misfit.wrong.kind in ("wrong unit", "wrong type") else len(document.content)
            literal = next((n for n in declaration.nodes() if isinstance(n, trees.Literal) and n.unit and n.unit.begin == tokens[-1].end), None)
            if literal and literal.type is None:
                reached = -1
            elif misfit.wrong.kind in ("wrong unit", "wrong type") and literal and misfit.span.begin <= literal.span.begin:
                reached = 0
        if reached > furthest:
            found, furthest = [], reached
        if reached == furthest:
            found.append(unit)
    return found


def closed(tokens):
    """A declaration of tokens that are its beginning: what is open is ended by what comes first to mind."""
    tokens, end = list(tokens), tokens[-1].end
    for _ in range(MOST_CLOSED):
        try:
            return numbered(read_declaration(tokens))
        except NoReading as stop:
            if stop.at < len(tokens):
                raise
            marks = [*stop.wanted, *stop.going]
            mark = next((one for one in CLOSERS if one in marks), None)
            if mark:
                tokens.append(Token("mark", mark, end, end))
            elif EXPRESSION in marks:
                tokens.append(Token("number", "0", end, end))
            elif "a name" in marks:
                tokens.append(Token("name", "x", end, end))
            else:
                raise
    return numbered(read_declaration(tokens))


# ---- models


def completions_of_model(document, byte):
    """The items that may stand at a byte of a model."""
    line = document.source.text.rfind("\n", 0, byte) + 1
    row = document.content[line:byte].decode("utf-8", "replace")
    if quote_before(row) == "#":
        return []
    table, _ = models.table_at(document, byte)
    keys = {key.name: key for key in models.keys_at(document, byte)}
    found = re.match(r"\s*([A-Za-z_]*)\s*=\s*(.*)$", row)
    if not found:
        word = re.search(r"[A-Za-z_]*$", row)[0]
        spot = document.range(byte - len(word), byte)
        return [item(name, PROPERTY, spot, key.allowed(), "1" if key.default is formats.REQUIRED else "2", f"{name} = ") for name, key in keys.items()]
    name, value = found[1], found[2]
    word = re.search(r"[A-Za-z0-9_./]*$", value)[0]
    spot = document.range(byte - len(word.encode()), byte)
    inside = value.count('"') % 2 == 1
    if name in ("slots", "slot") and table in ("link", "bound"):
        model = models.model_of(document)
        names = [] if isinstance(model, str) else [*model.slots]
        names = names or [f"{one.whose}.{one.text}" for one in models.places_of(document) if one.sort == "slot"]
        return [item(one, FIELD, spot, order="1", new=one if inside else f'"{one}"') for one in names]
    if name == "slots" and re.search(r'unit\s*=\s*"[^"]*$', value):
        return [item(one, UNIT, spot, order="1") for one in formats.BASE_UNITS if one]
    key = keys.get(name)
    if key and key.words:
        return [item(one, VALUE, spot, order="1", new=one if inside else f'"{one}"') for one in key.words]
    if key and key.type == "boolean":
        return [item(one, VALUE, spot, order="1") for one in ("true", "false")]
    return []
