"""Files that go with a model and its rules: requirements, and inputs."""

import re

from basin_files.firing import PREDEFINED
from basin_files.inputs import read_inputs
from basin_files.judging import read_model
from basin_files.reasons import LONG, plain
from basin_require.beside import Wrong, extended, has_tables, shapes_of
from basin_require.reading import Unreadable, read_requirements

from . import checking, models, telling
from .names import uses_of
from .reading import lexed

WORDS = (
    "REQUIRE MEASURE ALWAYS HOLDS FAILS AT MOST OF TIMESTEPS MONTHS YEARS WATER TRACES IN A ROW WHEN SUM MEAN LEAST GREATEST LAST"
).split()
CELL = re.compile(r"([A-Za-z_][A-Za-z0-9_]*)\.([A-Za-z_][A-Za-z0-9_]*)")
MODEL, RULES, CODE, REQUIREMENTS, INPUTS = "model", "rules", "code", "requirements", "inputs"


def sort_of(document):
    """What a text is that is no model, by its name and by how it begins."""
    name = document.path.name if document.path else document.uri
    if name.endswith(".require"):
        return REQUIREMENTS
    if name.endswith(".csv"):
        return INPUTS
    return CODE if checking.is_code(document) else RULES


# ---- diagnostics


def diagnostics_of(document, model, model_document):
    """The diagnostics of requirements or of inputs."""
    if not model:
        return [{"range": document.range(0, 0), "severity": checking.TOLD, "source": "basin", "message": checking.NO_MODEL}]
    if sort_of(document) == INPUTS:
        return list(of_inputs(document, model))
    found = of_requirements(document, model, model_document)
    told = [checking.diagnostic(document, checking.FAULT, one) for one in found[: checking.MOST]]
    return [{**one, "code": one["code"] if finding.refusal else "unreadable"} for one, finding in zip(told, found)]


def of_requirements(document, model, model_document):
    """What is wrong with requirements, by the tools' own reading."""
    try:
        found = read_requirements(document.source)
        content = model_document.content.removeprefix(b"\xef\xbb\xbf")
        if has_tables(content):
            judged, (slot,) = extended(model, content, [""])
            list(shapes_of(found, read_model(judged), slot))
    except (Unreadable, Wrong) as wrong:
        return wrong.findings
    return []


def of_inputs(document, model):
    """What is wrong with inputs: each in its line. Other tables, with other headings, aren't judged."""
    if not document.text.removeprefix("\ufeff").startswith("slot,"):
        return
    begins = document.source.begins
    for one in read_inputs(document.content, model).findings[: checking.MOST]:
        line = min(max(one.line, 1), len(begins))
        end = begins[line] - 1 if line < len(begins) else len(document.content)
        spot = document.range(begins[line - 1], max(begins[line - 1], end))
        code = one.refusal.rpartition(": ")[2]
        yield {"range": spot, "severity": checking.FAULT, "code": code, "source": "basin", "message": plain(one.says, LONG)}


# ---- names


def places_of(document):
    """The names of requirements, or the slots of a table."""
    if sort_of(document) == REQUIREMENTS:
        return document.keep("uses", lambda: uses_of(lexed(document.source.text)[0]))
    return document.keep("cells", lambda: list(cells_in(document)))


def cells_in(document):
    """The names of slots that fields of a table name."""
    for found in CELL.finditer(document.source.text):
        before = document.source.text[: found.start()][-1:]
        if before in ("", ",", "\n", '"'):
            yield models.Place("object", found[1], found.start(1), found.end(1))
            yield models.Place("slot", found[2], found.start(2), found.end(2), found[1])


def headings_with(content, key):
    """The places of an object or of a slot in the headings of a table, with or without a unit behind them."""
    sort, name = key
    owner, _, slot = name.partition(".")
    pattern = rb'(?:^|,)"?(' + re.escape(owner.encode()) + rb")\.(" + (re.escape(slot.encode()) if slot else rb"\w+")
    for found in re.finditer(pattern + rb')(?="?(?:[ \t]*\[[^\],]*\])?"?(?:,|$))', content.split(b"\n", 1)[0].rstrip(b"\r")):
        yield found.span(2 if sort == "slot" else 1)


def hover(document, model, byte):
    """What is told of a name of requirements or inputs: the text and its stretch, or `None`."""
    use = telling.use_at(places_of(document), byte)
    if not use:
        return None
    text = None
    if use.sort == "slot" and model and (slot := model.slots.get(f"{use.whose}.{use.text}")):
        text = f"**{slot.full_name}**: {slot.unit or 'a plain number'}, {slot.role}"
    elif use.sort == "object":
        text = telling.of_object(model, use.text)
    elif use.sort == "predefined":
        text = telling.FUNCTIONS[use.text]
    return (text, use.begin, use.end) if text else None


def completions(document, model, byte):
    """The items that may stand at a byte of requirements or of inputs: objects, slots, functions and words."""
    text = document.source.text
    row = text[text.rfind("\n", 0, byte) + 1 : byte]
    if row.count('"') % 2 or "#" in row:
        return []
    word = re.search(r"[A-Za-z0-9_]*$", row)[0]
    spot = document.range(byte - len(word), byte)
    owner = re.search(r"([A-Za-z_][A-Za-z0-9_]*)\.$", row[: len(row) - len(word)])
    if owner:
        thing = model.object_named(owner[1]) if model else None
        return [{**item(slot.name, 5, spot), "detail": slot.unit or "a plain number"} for slot in (thing.slots if thing else ())]
    things = [item(thing.name, 7, spot) for thing in (model.objects if model else ())]
    if sort_of(document) == INPUTS:
        return things if "," not in row else []
    return [*things, *(item(name, 3, spot) for name in PREDEFINED), *(item(name, 14, spot) for name in WORDS)]


def item(label, kind, spot):
    """An item as the protocol has it."""
    return {"label": label, "kind": kind, "textEdit": {"range": spot, "newText": label}}


def symbols(document):
    """The requirements and measures of a file."""
    if sort_of(document) != REQUIREMENTS:
        return []
    try:
        items = read_requirements(document.source).items
    except Unreadable:
        return []
    return [
        {
            "name": one.name,
            "kind": 14 if one.how else 17,
            "detail": one.wanted,
            "range": document.range(one.head.begin, one.expression.end),
            "selectionRange": document.range(one.head.begin, one.head.end),
        }
        for one in items
    ]
