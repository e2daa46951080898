"""Changes a model's text where something changes, and leaves its remarks and its lay-out as they are.

A change is made in the text and in the table that the text spells; where the text then spells another table than that, it
isn't made.
"""

import json
import re
from copy import deepcopy
from dataclasses import dataclass

from basin_files import formats
from basin_files.lines import LineReader, values_of, with_values
from basin_files.reasons import plain, wrong_with_name
from basin_rules.tokens import BadToken, tokens_of



class Wrong(Exception):
    """A change can't be made, and why."""


@dataclass
class ModelText:
    """A model's text, and the table that it spells."""

    text: str

    def __post_init__(self) -> None:
        try:
            self.table = values_of(self.text)
            reader = LineReader(self.text)
            self.lines, self.spans = reader.read(), reader.spans
        except ValueError as error:
            raise Wrong(f"The model's text is not TOML, so correct the text first: {plain(str(error))}") from None

    # ---- lines

    def begins(self) -> list[int]:
        """The lines at which tables begin, and the one behind the last."""
        tables = [line for path, line in self.lines.items() if re.fullmatch(r"(object|link|bound)\[[0-9]+\]|run", path)]
        return [*sorted(tables), self.text.count("\n") + 2]

    def block(self, path: str) -> tuple[int, int]:
        """The lines of a table, from 0 on and up to before the last; remarks right above the next table are its."""
        if path not in self.lines:
            raise Wrong(f"{path} isn't there.")
        rows, begin = self.text.split("\n"), self.lines[path]
        if not rows[begin - 1].lstrip().startswith("["):
            raise Wrong("The model's tables are written within lines, so change this in its text.")
        end = min(line for line in self.begins() if line > begin) - 1
        end = min(end, len(rows))
        last = end
        while end < len(rows) and last > begin and rows[last - 1].lstrip().startswith("#"):
            last -= 1
        if last < end and rows[last - 1].strip():
            last = end  # remarks that belong to the table above them
        while last > begin and not rows[last - 1].strip():
            last -= 1
        return begin - 1, last

    def with_lines(self, begin: int, end: int, lines: list[str]) -> str:
        """The text with other lines in the place of some."""
        rows = self.text.split("\n")
        return "\n".join([*rows[:begin], *lines, *rows[end:]])

    def without(self, path: str) -> str:
        """The text without a table, and without an empty line that stood above it."""
        begin, end = self.block(path)
        rows = self.text.split("\n")
        while begin and rows[begin - 1].lstrip().startswith("#"):
            begin -= 1
        if begin and not rows[begin - 1].strip():
            begin -= 1
        return self.with_lines(begin, end, [])

    def with_table(self, sort: str, lines: list[str]) -> str:
        """The text with a table more behind the last of its sort, or at the end."""
        numbers = [path for path in self.lines if re.fullmatch(rf"{sort}\[[0-9]+\]", path)]
        if not numbers:
            return self.text.rstrip("\n") + "\n\n" + "\n".join(lines) + "\n"
        _, end = self.block(numbers[-1])
        gap = [""] if sort == "object" else []
        return self.with_lines(end, end, [*gap, *lines])

    # ---- keys

    def with_key(self, path: str, key: str, value: object) -> str:
        """The text with a key of a table; `None` takes it away."""
        at = f"{path}.{key}" if path else key
        if at in self.spans:
            if value is not None:
                return with_values(self.text, {at: spelt(value)})
            begin = self.lines[at] - 1
            end = begin + self.text[slice(*self.spans[at])].count("\n") + 1
            return self.with_lines(begin, end, [])
        if at in self.lines:
            raise Wrong(f"{key} is written as tables of its own, so change it in the text.")
        if value is None:
            return self.text
        begin, end = self.block(path)
        rows = self.text.split("\n")
        while end > begin + 1 and rows[end - 1].lstrip().startswith("#"):
            end -= 1
        return self.with_lines(end, end, [f"{key} = {spelt(value)}"])


def spelt(value: object) -> str:
    """A value as TOML spells it; a text here has no sign that wants more than JSON's quotes."""
    if isinstance(value, bool):
        return "true" if value else "false"
    if isinstance(value, int):
        return str(value)
    if isinstance(value, str):
        return json.dumps(value)
    if isinstance(value, list):
        return f"[{', '.join(map(spelt, value))}]"
    if isinstance(value, dict):
        return f"{{ {', '.join(f'{key} = {spelt(one)}' for key, one in value.items())} }}"
    raise Wrong(f"{value!r} has no place in a model.")


def changed(texts: dict[str, str], change: dict) -> dict:
    """The texts after a change, and what it is called."""
    act = CHANGES.get(change.get("act"))
    if not act:
        raise Wrong("There is no such change.")
    mark = "\ufeff" if texts["model"].startswith("\ufeff") else ""
    after = {**texts, "model": texts["model"].removeprefix(mark)}
    label = act(after, change)
    after["model"] = mark + after["model"]
    return {"texts": after, "label": label}


def put(texts: dict[str, str], text: str, wanted: dict) -> None:
    """Puts a model's text in its place, where it spells the table that is wanted."""
    try:
        is_right = values_of(text) == wanted
    except ValueError:
        is_right = False
    if not is_right:
        raise Wrong("This tool cannot make that change in the text as it is laid out: change the text.")
    texts["model"] = text


def number_of(table: dict, name: str) -> int:
    """The number of an object, from 1 on."""
    for number, thing in enumerate(table.get("object", ()), 1):
        if isinstance(thing, dict) and thing.get("name") == name:
            return number
    raise Wrong(f"There is no object {plain(str(name))}.")


def values_wanted(value: object) -> object:
    """A value of a request: numbers are whole, as texts or numbers."""
    if isinstance(value, str) and re.fullmatch("-?[0-9]{1,18}", value):
        return int(value)
    if isinstance(value, float):
        raise Wrong("A number must be whole.")
    return [values_wanted(one) for one in value] if isinstance(value, list) else value


# ---- changes


def set_key(texts: dict[str, str], change: dict) -> str:
    """Sets a key of an object, or of the run."""
    model, name, key, value = ModelText(texts["model"]), change["object"], str(change["key"]), values_wanted(change["value"])
    wanted = deepcopy(model.table)
    if name is None:
        path, table = "run", wanted["run"]
        value = str(change["value"]) if key == "agenda" else value
    else:
        number = number_of(model.table, name)
        path, table = f"object[{number}]", wanted["object"][number - 1]
    if value is None:
        table.pop(key, None)
    else:
        table[key] = value
    put(texts, model.with_key(path, key, value), wanted)
    return f"{name or 'run'}: {key}"


def add_object(texts: dict[str, str], change: dict) -> str:
    """Adds an object with the keys that its kind requires."""
    model, name, kind = ModelText(texts["model"]), str(change["name"]), str(change["kind"])
    good_name(model.table, name)
    if kind not in formats.KIND_KEYS:
        raise Wrong("There is no such kind.")
    keys = {"name": name, "kind": kind}
    for key in formats.KIND_KEYS[kind]:
        if key.default is formats.REQUIRED:
            keys[key.name] = first_value(key)
    wanted = deepcopy(model.table)
    wanted.setdefault("object", []).append(keys)
    put(texts, model.with_table("object", ["[[object]]", *(f"{key} = {spelt(value)}" for key, value in keys.items())]), wanted)
    return f"add {name}"


def first_value(key: formats.Key) -> object:
    """A value with which a required key begins."""
    if key.name == "slots":
        return [{"name": "Value", "unit": "m3"}]
    if key.name == "table":
        return [[0, 0], [10_000, 1_000_000]]
    return {"power": 2_500, "release": 250}.get(key.name, key.low)


def good_name(table: dict, name: str) -> None:
    """Whether a name may be an object's."""
    wrong = wrong_with_name(name)
    if wrong:
        raise Wrong(f"{plain(name) or 'Nothing'} is no name of an object: {wrong}.")
    if any(isinstance(one, dict) and one.get("name") == name for one in table.get("object", ())):
        raise Wrong(f"There is already an object {name}.")


def rename(texts: dict[str, str], change: dict) -> str:
    """Gives an object another name, in the model, the rules and the inputs."""
    model, old, new = ModelText(texts["model"]), str(change["object"]), str(change["name"])
    good_name(model.table, new)
    number, wanted = number_of(model.table, old), deepcopy(model.table)
    wanted["object"][number - 1]["name"] = new
    values = {f"object[{number}].name": spelt(new)}
    for place, link in enumerate(wanted.get("link", ()), 1):
        for at, slot in enumerate(link.get("slots", ())):
            if slot.partition(".")[0] == old:
                link["slots"][at] = f"{new}.{slot.partition('.')[2]}"
                values[f"link[{place}].slots[{at + 1}]"] = spelt(link["slots"][at])
    for place, bound in enumerate(wanted.get("bound", ()), 1):
        if str(bound.get("slot")).partition(".")[0] == old:
            bound["slot"] = f"{new}.{bound['slot'].partition('.')[2]}"
            values[f"bound[{place}].slot"] = spelt(bound["slot"])
    put(texts, with_values(model.text, values), wanted)
    if "policy" in texts:
        texts["policy"] = renamed_rules(texts["policy"], old, new)
    texts["inputs"] = renamed_inputs(texts["inputs"], old, new)
    return f"rename {old} to {new}"


def renamed_rules(text: str, old: str, new: str) -> str:
    """Rules with another name of an object: where it stands as a word that isn't a slot's, in no string and no remark."""
    letters = text.encode().decode("latin-1")
    try:
        tokens = tokens_of(letters)
    except BadToken:
        raise Wrong("Correct the rules first: a word of them cannot be read.") from None
    pieces, behind = [], 0
    for before, token in zip([None, *tokens], tokens):
        if token.kind == "name" and token.text == old and not (before and before.is_mark(".")):
            pieces += [letters[behind : token.begin], new]
            behind = token.end
    return "".join([*pieces, letters[behind:]]).encode("latin-1").decode()


def renamed_inputs(text: str, old: str, new: str) -> str:
    """Inputs with another name of an object."""
    return re.sub(rf'(?m)^("?){re.escape(old)}\.', rf"\g<1>{new}.", text)


def delete(texts: dict[str, str], change: dict) -> str:
    """Takes an object away, with its links, bounds and inputs. Rules that name it stay, and are refused then."""
    name = str(change["object"])
    model = ModelText(texts["model"])
    number = number_of(model.table, name)
    wanted = deepcopy(model.table)
    if len(wanted["object"]) == 1:
        raise Wrong(f"{name} is the only object, and a model must have one.")
    del wanted["object"][number - 1]
    text = model.without(f"object[{number}]")
    links = []
    for place, link in reversed(list(enumerate(wanted.get("link", ()), 1))):
        slots = [slot for slot in link["slots"] if slot.partition(".")[0] != name]
        if slots != link["slots"]:
            now = ModelText(text)
            text = now.without(f"link[{place}]") if len(slots) < 2 else with_values(text, {f"link[{place}].slots": spelt(slots)})
        if len(slots) >= 2:
            links.append({**link, "slots": slots})
    for place, bound in reversed(list(enumerate(wanted.get("bound", ()), 1))):
        if str(bound.get("slot")).partition(".")[0] == name:
            text = ModelText(text).without(f"bound[{place}]")
    for sort, kept in (("link", links[::-1]), ("bound", [one for one in wanted.get("bound", ()) if str(one.get("slot")).partition(".")[0] != name])):
        if sort in wanted:
            wanted[sort] = kept
        if sort in wanted and not kept:
            del wanted[sort]
    put(texts, text, wanted)
    texts["inputs"] = "".join(line for line in texts["inputs"].splitlines(True) if not re.match(rf'"?{re.escape(name)}\.', line))
    return f"delete {name}"


def link(texts: dict[str, str], change: dict) -> str:
    """Links two slots: to the link that one of them is in, or by one of their own."""
    one, other = str(change["from"]), str(change["to"])
    model = ModelText(texts["model"])
    wanted = deepcopy(model.table)
    links = wanted.setdefault("link", [])
    places = {slot: place for place, row in enumerate(links) for slot in row.get("slots", ())}
    mine = [places[slot] for slot in (one, other) if slot in places]
    if len(mine) == 2:
        raise Wrong("Both slots are already linked: remove one of these links first.")
    if mine:
        slots = [*links[mine[0]]["slots"], one if other in places else other]
        links[mine[0]]["slots"] = slots
        text = with_values(model.text, {f"link[{mine[0] + 1}].slots": spelt(slots)})
    else:
        links.append({"slots": [one, other]})
        text = model.with_table("link", ["[[link]]", f"slots = {spelt([one, other])}"])
    put(texts, text, wanted)
    return f"link {one} and {other}"


def unlink(texts: dict[str, str], change: dict) -> str:
    """Takes a link away."""
    slots = [str(one) for one in change["slots"]]
    model = ModelText(texts["model"])
    wanted = deepcopy(model.table)
    place = next((at for at, row in enumerate(wanted.get("link", ())) if row.get("slots") == slots), None)
    if place is None:
        raise Wrong("There is no such link.")
    del wanted["link"][place]
    if not wanted["link"]:
        del wanted["link"]
    put(texts, model.without(f"link[{place + 1}]"), wanted)
    return f"unlink {' and '.join(slots)}"


CHANGES = {"key": set_key, "add": add_object, "rename": rename, "delete": delete, "link": link, "unlink": unlink}
