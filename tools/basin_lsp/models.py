"""The text of a model: where its names stand, and what may stand where."""

import re
from dataclasses import dataclass

from basin_files import formats
from basin_files.judging import read_model
from basin_files.lines import LineReader

SLOT_TEXT = re.compile(r"""(["'])([A-Za-z_][A-Za-z0-9_]*)\.([A-Za-z_][A-Za-z0-9_]*)\1""")
LIKE_MODEL = re.compile(r"^\s*(format\s*=|\[run\]|\[\[object\]\])", re.MULTILINE)


@dataclass(frozen=True)
class Place:
    """A name in a model's text, by its bytes: an `object` or a `slot`, and whether it is made here."""

    sort: str
    text: str
    begin: int
    end: int
    whose: str = ""
    makes: bool = False

    @property
    def key(self):
        """What is the same for all uses of one thing."""
        return ("slot", f"{self.whose}.{self.text}") if self.sort == "slot" else (self.sort, self.text)


def model_of(document):
    """The model of a text, or why it is no TOML."""

    def make():
        try:
            return read_model(document.content)
        except (ValueError, RecursionError) as error:
            return str(error)

    return document.keep("model", make)


def good_model(document):
    """The model of a text with which nothing is wrong, or `None`."""
    model = model_of(document) if document else None
    return model if model and not isinstance(model, str) and not model.findings else None


def spans_of(document):
    """Where the value of each path stands, in letters."""

    def make():
        reader = LineReader(document.text)
        try:
            reader.read()
        except (ValueError, RecursionError):
            pass
        return reader.spans

    return document.keep("spans", make)


def places_of(document):
    """The names of a model's text."""
    return document.keep("places", lambda: list(sorted(places_in(document), key=lambda one: one.begin)))


def places_in(document):
    """The names of a model's text, as its paths come."""
    text, spans = document.text, spans_of(document)

    def byte(letter):
        return letter if document.is_ascii else len(text[:letter].encode())

    for path, (begin, end) in spans.items():
        value = text[begin:end]
        if value[:1] not in ("'", '"') or value[:3] in ("'''", '"""'):
            continue
        name = value[1:-1]
        if re.fullmatch(r"object\[\d+\]\.name", path):
            yield Place("object", name, byte(begin + 1), byte(end - 1), makes=True)
        elif found := re.fullmatch(r"(object\[\d+\])\.slots\[\d+\]\.name", path):
            owner = spans.get(f"{found[1]}.name")
            whose = text[owner[0] + 1 : owner[1] - 1] if owner else ""
            yield Place("slot", name, byte(begin + 1), byte(end - 1), whose, makes=True)
        elif re.fullmatch(r"link\[\d+\]\.slots\[\d+\]|bound\[\d+\]\.slot", path) and SLOT_TEXT.fullmatch(value):
            owner, _, slot = name.partition(".")
            middle = begin + 1 + len(owner)
            yield Place("object", owner, byte(begin + 1), byte(middle))
            yield Place("slot", slot, byte(middle + 1), byte(end - 1), owner)


def made_at(document, key):
    """Where an object or a slot is made in a model's text; a slot of a kind with its object. `None` where it isn't."""
    places = places_of(document)
    found = next((one for one in places if one.makes and one.key == key), None)
    if not found and key[0] == "slot":
        owner = ("object", key[1].partition(".")[0])
        found = next((one for one in places if one.makes and one.key == owner), None)
    return found


def is_like_model(name, text):
    """Whether a file may be a model."""
    return name.endswith(".toml") and (name.endswith("model.toml") or len(LIKE_MODEL.findall(text)) > 1)


# ---- findings


def findings_of(document):
    """What is wrong with a model: pairs of a stretch of bytes and what is told, the first as `basin` refuses it."""
    model = model_of(document)
    if isinstance(model, str):
        yield of_toml(document, model)
        return
    source = document.source
    for one in model.findings:
        line = min(max(1, one.line), len(source.begins))
        begin = source.begins[line - 1]
        end = source.begins[line] if line < len(source.begins) else len(source.content)
        row = source.content[begin:end]
        bare = re.match(rb"""((?:[^#"']|"[^"]*"|'[^']*')*)""", row)[1].rstrip()
        first = len(row) - len(row.lstrip())
        yield (begin + min(first, len(bare)), begin + max(len(bare), first)), one.says, one.refusal


def of_toml(document, message):
    """Where the bytes of a model stop being TOML."""
    found = re.fullmatch(r"(.*) \(at line (\d+), column (\d+)\)", message, re.DOTALL)
    end = len(document.content)
    if not found:
        return (max(0, end - 1), end), message, "not TOML"
    source, line = document.source, min(int(found[2]), len(document.source.begins))
    begin = source.begins[line - 1]
    last = source.begins[line] - 1 if line < len(source.begins) else end
    row = source.content[begin:last].decode()
    at = begin + len(row[: int(found[3]) - 1].encode())
    return (min(at, last), max(min(at + 1, last), at)), found[1], "not TOML"


# ---- what may stand where


def table_at(document, byte):
    """The table in which a byte stands: `run`, `object`, `link` or `bound`, and the lines of that table so far."""
    before = document.content[:byte].decode("utf-8", "ignore")
    heads = list(re.finditer(r"^\s*\[+\s*(\w+)\s*\]+", before, re.MULTILINE))
    if not heads:
        return "", ""
    return heads[-1][1], before[heads[-1].end() :]


def kind_in(document, byte):
    """The kind of the object in whose table a byte stands, or ""."""
    _, before = table_at(document, byte)
    rest = document.content[byte:].decode("utf-8", "ignore")
    behind = re.split(r"^\s*\[+\s*\w+\s*\]+", rest, maxsplit=1, flags=re.MULTILINE)[0]
    found = re.search(r"""^\s*kind\s*=\s*["'](\w+)""", before + behind, re.MULTILINE)
    return found[1] if found else ""


def keys_at(document, byte):
    """The keys of the table in which a byte stands."""
    table, _ = table_at(document, byte)
    if table == "run":
        return formats.RUN_KEYS
    if table == "object":
        own = (formats.Key("name", "text"), formats.Key("kind", "text", words=tuple(formats.KIND_KEYS)))
        return own + formats.KIND_KEYS.get(kind_in(document, byte), ())
    if table == "link":
        return (formats.Key("slots", "array"),)
    if table == "bound":
        return (formats.Key("slot", "text"), formats.Key("low", "whole"), formats.Key("high", "whole"))
    return formats.FILE_KEYS
