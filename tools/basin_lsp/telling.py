"""What is told of the name under the cursor: what it measures, who sets and who reads it, and what a rule costs."""

from basin_files import formats
from basin_files.formats import amount
from basin_rules import trees
from basin_rules.looks import facts_of
from basin_rules.meant import UNITS
from basin_rules.measures import unit_words

from . import checking, models
from .names import uses_of

FORMS = {
    "KNOWN": "`KNOWN(s[d])`: whether the slot s has a value at d",
    "LENGTH": "`LENGTH(l)`: how many items a list has",
    "APPEND": "`APPEND(l, e)`: the list with e added at its end",
    "ITEM": "`ITEM(l, i)`: the i-th item of a list, from 1 on",
    "MONTH": "`MONTH(d)`: the month in which the timestep begins, a plain number",
    "DAY": "`DAY(d)`: the day on which the timestep begins, a plain number",
    "YEAR": "`YEAR(d)`: the year in which the timestep begins, a plain number",
    "StorageToElevation": "`StorageToElevation(O, x)`: the elevation, in mm, at which the reservoir O has the volume x",
    "ElevationToStorage": "`ElevationToStorage(O, x)`: the volume, in m3, that the reservoir O has at the elevation x",
    "t": "`t`: the date of this timestep; others are `t - 1 \"step\"`",
    "FOR": "`FOR x IN l WITH a := e DO b ENDFOR`: a is e first, and for each item x of l it becomes b",
    "MAP": "`MAP x IN l DO b ENDMAP`: the list of the numbers b, one for each item x",
    "LET": "`LET name := e IN x ENDLET`: x, in which the name means e",
    "WITH": "`WITH name := e DO .. ENDWITH`: computes e once, for the statements in it",
    "IF": "`IF c THEN .. ELSE .. ENDIF`: statements, or within an expression a value, with an ELSE then",
}
FUNCTIONS = {
    "Min": "`Min(a, b)`: the lesser",
    "Max": "`Max(a, b)`: the greater",
    "Abs": "`Abs(a)`: a without its sign",
    "Clamp": "`Clamp(a, low, high)`: a, but at most high, and then at least low",
    "RoundDown": "`RoundDown(a, b)`: the multiple of b nearest to a between 0 and a",
    "Sign": "`Sign(a)`: -1, 0 or 1, a plain number",
    "MulDiv": "`MulDiv(a, b, c)`: a * b / c, rounded down once",
}
MOST = 12  # rules of one kind that are told


def uses(document, reading):
    """The names of a ruleset, once for each text."""
    return document.keep("uses", lambda: uses_of(reading.tokens))


def facts(document, reading, model):
    """What each rule looks at and sets, where nothing is wrong; or `None`."""
    if not model or reading.findings:
        return None
    return document.keep(("facts", id(model)), lambda: (facts_of(reading.ruleset, model), model))[0]


def use_at(found, byte):
    """The name at a byte, or right before it."""
    return next((one for one in found if one.begin <= byte < one.end), None) or next(
        (one for one in found if one.end == byte), None
    )


def hover(document, model, byte):
    """What is told at a byte: the text and its stretch, or `None`."""
    reading = checking.reading_of(document, model)
    found = use_at(uses(document, reading), byte)
    if found:
        text = of_use(document, reading, model, found)
        return (text, found.begin, found.end) if text else None
    for token in reading.tokens:
        if token.begin <= byte < token.end:
            return of_token(document, reading, model, token)
    return None


def of_token(document, reading, model, token):
    """What is told of a word, a number or a unit."""
    declaration = reading.at(token.begin)
    if token.is_mark("RULE", "ENDRULE", "FUNCTION", "ENDFUNCTION") and declaration:
        return of_declaration(document, reading, model, declaration), token.begin, token.end
    if token.kind == "mark" and token.text in FORMS:
        return FORMS[token.text], token.begin, token.end
    if token.kind in ("number", "string"):
        place = reading.tokens.index(token)
        number, unit = (place, place + 1) if token.kind == "number" else (place - 1, place)
        if number >= 0 and unit < len(reading.tokens) and reading.tokens[unit].kind == "string":
            first, last = reading.tokens[number], reading.tokens[unit]
            if first.kind == "number" and last.text in UNITS:
                measure, factor = UNITS[last.text]
                base = unit_words(measure) or "a plain number"
                return f"{int(first.text) * factor:,} {base}", first.begin, last.end
        if token.kind == "string" and token.text in UNITS:
            measure, factor = UNITS[token.text]
            return f"1 {token.text} is {factor:,} {unit_words(measure)}" if token.text else "a plain number", token.begin, token.end
    return None


def of_use(document, reading, model, use):
    """What is told of a name."""
    if use.sort == "slot":
        return of_slot(document, reading, model, f"{use.whose}.{use.text}")
    if use.sort == "object":
        return of_object(model, use.text)
    if use.sort == "predefined":
        return FUNCTIONS[use.text]
    if use.sort == "function":
        found = reading.ruleset.functions.get(use.text)
        return of_declaration(document, reading, model, found) if found else None
    if use.sort == "rule":
        found = next((one for one in reading.ruleset.rules if one.name_span.begin <= use.begin < one.end), None)
        found = next((one for one in reading.ruleset.rules if one.head.begin <= use.begin <= one.end), found)
        return of_declaration(document, reading, model, found) if found else None
    return of_local(reading, use)


def of_object(model, name):
    """What is told of an object."""
    thing = model.object_named(name) if model else None
    if not thing:
        return None
    slots = [f"- `{slot.full_name}` {slot.unit or 'a plain number'}{'' if slot.settable else ', derived'}" for slot in thing.slots]
    return "\n".join([f"**{name}**: {thing.kind.replace('_', ' ')}", "", *slots])


def of_slot(document, reading, model, name):
    """What is told of a slot."""
    slot = model.slots.get(name) if model else None
    if not slot:
        return None
    kind = model.object_named(slot.owner).kind.replace("_", " ")
    low, high = model.bounds(name)
    way = {"in": ", into the object", "out": ", out of the object"}.get(slot.way, "")
    lines = [f"**{name}**: {slot.unit or 'a plain number'}, slot of the {kind} {slot.owner}{way}"]
    lines.append(f"{'' if slot.settable else 'The object derives it: no rule sets it. '}From {amount(low)} to {amount(high)}.")
    joined = [one.full_name for one in model.group(name) if one.full_name != name]
    if joined:
        lines.append(f"Linked with {', '.join(f'`{one}`' for one in joined)}.")
    lines += who(document, reading, model, {name, *joined})
    return "\n\n".join(lines)


def who(document, reading, model, names):
    """Lines that tell which rules set and read slots that carry one value."""
    known = facts(document, reading, model)
    if known is not None:
        sets = [rule.called for rule in known if names & set(rule.slots())]
        reads = [rule.called for rule in known if names & {look.slot for look in rule.looks}]
    else:
        sets, reads = [], []
        for use in uses(document, reading):
            if use.sort == "slot" and f"{use.whose}.{use.text}" in names:
                whose = reading.at(use.begin)
                called = whose.called if whose else f"line {reading.source.line(use.begin)}"
                (sets if use.sets else reads).append(called)
    lines = []
    for word, rules in (("Set by", sets), ("Read by", reads)):
        rules = list(dict.fromkeys(rules))
        more = f" and {len(rules) - MOST} more" if len(rules) > MOST else ""
        lines.append(f"{word} {'; '.join(rules[:MOST]) or 'no rule'}{more}.")
    return lines


def of_declaration(document, reading, model, declaration):
    """What is told of a rule or a function."""
    budget = declaration.budget
    cost = (
        f"At most {budget.instructions:,} instructions, {budget.reads:,} reads, {budget.puts:,} puts, {budget.words:,} words."
        if budget
        else "Its cost is not known while there is an error."
    )
    if not declaration.is_rule:
        text = document.source.content[declaration.head.begin : declaration.head.end].decode("utf-8", "replace")
        return f"```basin-rules\n{' '.join(text.split())}\n```\n\n{cost}"
    known = facts(document, reading, model)
    lines = [f"**{declaration.called}**: rule 1 has the highest priority.", cost]
    if known:
        rule = next((one for one in known if one.number == declaration.rule), None)
        if rule:
            sets = list(dict.fromkeys(one.cell for one in rule.settings))
            looks = list(dict.fromkeys(f"{look.slot}{look.time}" for look in rule.looks))
            lines.append(f"Sets {', '.join(f'`{one}`' for one in sets) or 'nothing'}.")
            lines.append(f"Looks at {', '.join(f'`{one}`' for one in looks[:30]) or 'nothing'}{' ..' if len(looks) > 30 else ''}.")
    return "\n\n".join(lines)


def of_local(reading, use):
    """What is told of a name that a form or a head gives."""
    declaration = reading.at(use.begin)
    for node in declaration.nodes() if declaration else ():
        if isinstance(node, trees.Name) and node.span.begin == use.begin and node.type:
            return f"`{use.text}`: {node.type.words()}"
    if use.home < 0:
        return None
    return f"`{use.text}`: {'a parameter' if use.sort == 'parameter' else 'a name that is given here'}"


# ---- models


def hover_model(document, byte):
    """What is told of a model's text at a byte."""
    model = models.model_of(document)
    found = use_at(models.places_of(document), byte)
    if found and not isinstance(model, str):
        if found.sort == "slot" and (slot := model.slots.get(f"{found.whose}.{found.text}")):
            return f"**{slot.full_name}**: {slot.unit or 'a plain number'}, {slot.role}", found.begin, found.end
        if text := of_object(model, found.text) if found.sort == "object" else None:
            return text, found.begin, found.end
    line = document.position(byte)["line"]
    begin = document.byte_begins[line]
    row = document.content[begin:].split(b"\n", 1)[0].decode("utf-8", "replace")
    name = row.partition("=")[0].strip()
    for key in models.keys_at(document, byte):
        if key.name == name and "=" in row:
            needed = "required" if key.default is formats.REQUIRED else "may be left out"
            return f"`{name}`: {key.allowed()}; {needed}", begin, begin + len(row.partition('=')[0].rstrip().encode())
    return None
