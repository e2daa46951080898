"""A model's file as the tools read it, and all that is wrong with it.

What is wrong is judged in the order of docs/FORMATS.md, so that the first finding is the one for which
`basin` refuses the model. The judge is `basin` all the same: where the two differ, the tools say what
`basin` says.
"""

import re
from collections.abc import Sequence
from typing import cast

from . import formats
from .formats import REQUIRED, Key, amount
from .lines import values_and_lines
from .model import BasinObject, Finding, Model, Options, Slot, slots_of
from .moments import START, Timesteps, end_in_time, moment_of
from .reasons import nearest, plain, shown, why_unknown, wrong_with_name, wrong_with_object, wrong_with_rows

Toml = dict[str, object]  # a table of the file
ANY_TEXT = Key("", "text")
WRONG = object()  # in place of a value with which something is wrong
LAST_PART = re.compile(r"(\.[^.\[\]]+|\[[0-9]+\])$")


def text_of(content: bytes) -> str:
    """The text of a model's bytes; a byte order mark at the beginning is left out."""
    return content.decode("utf-8").removeprefix("\ufeff")


def read_model(content: bytes) -> Model:
    """The model that the bytes spell. `ValueError` where they are no TOML."""
    try:
        return ModelReader(*values_and_lines(text_of(content))).read()
    except RecursionError:
        raise ValueError("it is nested too deeply") from None


class ModelReader:
    """Judges a table key by key. One finding follows another; what rests on a wrong value isn't judged."""

    def __init__(self, table: Toml, lines: dict[str, int]) -> None:
        self.table, self.lines = table, lines
        self.model = Model()
        self.bounded: set[str] = set()

    def read(self) -> Model:
        """The model, with all findings."""
        number = self.value(formats.FILE_KEYS[0], self.table, "")
        if isinstance(number, int):
            self.model.ahead = formats.MOST_AHEAD[number]
        run = self.value(formats.FILE_KEYS[1], self.table, "")
        if isinstance(run, dict):
            self.read_run(run)
        for key, judge in zip(formats.FILE_KEYS[2:], (self.read_object, self.read_link, self.read_bound)):
            items = self.value(key, self.table, "")
            for number, item in enumerate(items if isinstance(items, (list, tuple)) else (), 1):
                if self.fits(Key("", "table"), item, f"{key.name}[{number}]"):
                    judge(item, f"{key.name}[{number}]", number)
        self.only(formats.FILE_KEYS, self.table, "")
        self.finish()
        return self.model

    # ---- what is wrong, and where

    def line_of(self, path: str) -> int:
        """The line at which the path stands, or else the table or array that it would be in."""
        while path and path not in self.lines:
            path = LAST_PART.sub("", path) if LAST_PART.search(path) else ""
        return self.lines.get(path, 1)

    def find(self, refusal: str, path: str, says: str) -> None:
        """Notes what is wrong at a path."""
        self.model.findings.append(Finding(refusal, self.line_of(path), says))

    def who(self, path: str) -> str:
        """The object, link, bound or table in which a path lies, in people's words."""
        found = re.match(r"(object|link|bound)\[([0-9]+)\]", path)
        if not found:
            return "run" if path.startswith("run") else "the file"
        if found[1] == "object":
            return self.named(int(found[2]))
        return f"{found[1]} {found[2]}"

    def named(self, number: int) -> str:
        """An object as `object 2 "Dam"`."""
        objects = self.table["object"]
        table = objects[number - 1] if isinstance(objects, list) else None
        name = table.get("name") if isinstance(table, dict) else None
        return f'object {number} "{name}"' if isinstance(name, str) else f"object {number}"

    # ---- values of keys

    def fits(self, key: Key, value: object, path: str) -> bool:
        """Whether a value is of the key's type."""
        good = {
            "integer": type(value) is int,
            "whole": type(value) is int,
            "boolean": type(value) is bool,
            "text": isinstance(value, str),
            "start": isinstance(value, str),
            "array": isinstance(value, list),
            "tables": isinstance(value, list),
            "table": isinstance(value, dict),
        }[key.type]
        if not good:
            self.find(
                f"wrong kind {path}",
                path,
                f"{self.place(path)} is {shown(value)}, but must be {key.allowed()}.",
            )
        return good

    def place(self, path: str) -> str:
        """A path in people's words: the key or item, and whose it is."""
        who = self.who(path)
        inner = re.sub(r"^((object|link|bound)\[[0-9]+\]|run)\.?", "", path)
        return f"{inner} of {who}" if inner and who != "the file" else (inner or who)

    def value(self, key: Key, table: Toml, at: str) -> object:
        """What stands at a key, its default, or `WRONG`."""
        path = f"{at}.{key.name}" if at else key.name
        if key.name not in table:
            if key.default is not REQUIRED:
                return key.default
            self.find(
                f"missing {path}",
                at,
                f"{self.place(at)} has no {key.name}: it must be {key.allowed()}."
                + self.spelling(key.name, table),
            )
            return WRONG
        value = table[key.name]
        return value if self.fits(key, value, path) and self.in_range(key, value, path) else WRONG

    def spelling(self, name: str, table: Toml) -> str:
        """A hint at a key that is there and may be meant."""
        near = nearest(name, table)
        return f" Did you mean {near}?" if near else ""

    def in_range(self, key: Key, value: object, path: str) -> bool:
        """Whether a value of the right type is in the key's range."""
        if key.words:
            good = value in key.words
        elif key.type == "integer":
            good = isinstance(value, int) and key.low <= value <= key.high
        else:
            good = key.type != "start" or (isinstance(value, str) and bool(START.fullmatch(value)))
        if not good:
            self.bad_parameter(path, f"{self.place(path)} is {shown(value)}, but must be {key.allowed()}.")
        return good

    def bad_parameter(self, path: str, says: str) -> None:
        """A value outside its range."""
        self.find(f"build {path}: bad parameter", path, says)

    def only(self, keys: tuple[Key, ...], table: Toml, at: str) -> None:
        """Notes each key that isn't listed, in the order of bytes."""
        listed = [key.name for key in keys]
        for name in sorted(set(table) - set(listed), key=lambda word: word.encode()):
            path = f"{at}.{name}" if at else name
            near = nearest(name, listed)
            hint = f" Did you mean {near}?" if near else ""
            self.find(
                f"unknown key {path}",
                path,
                f"{self.place(at)} has no key {plain(name)}.{hint} Its keys: {', '.join(listed)}.",
            )

    # ---- the run

    def read_run(self, table: Toml) -> None:
        """The keys of `run`, and its stamps."""
        before = len(self.model.findings)
        values = {key.name: self.value(key, table, "run") for key in formats.RUN_KEYS}
        self.only(formats.RUN_KEYS, table, "run")
        limit, start, step, steps = (values[name] for name in ("object_limit", "start", "step", "steps"))
        if isinstance(limit, int):
            self.model.object_limit = limit
        is_right = len(self.model.findings) == before
        if is_right and isinstance(start, str) and isinstance(step, str) and isinstance(steps, int):
            self.read_stamps(start, step, steps)

    def read_stamps(self, start: str, step: str, steps: int) -> None:
        """Notes why the run has no stamps, if it has none."""
        moment = moment_of(start)
        if not moment:
            self.find(
                "calendar: bad start",
                "run.start",
                (
                    f"run: start is {shown(start)}: there is no such moment. "
                    "It must be a date of the years 1 to 9999 and an hour from 00 to 23."
                ),
            )
        elif step == "1month" and (moment.day, moment.hour) != (1, 0):
            self.find(
                "calendar: not first of month",
                "run.start",
                (
                    f"run: start is {shown(start)}: timesteps of a month "
                    "begin on the first of a month, at hour 00."
                ),
            )
        elif not end_in_time(moment, step, steps):
            self.find(
                "calendar: beyond years",
                "run.steps",
                f"run: {steps} timesteps of {step} from {start} on end past the year 9999.",
            )
        else:
            self.model.timesteps = Timesteps(moment, step, steps)

    # ---- objects

    def read_object(self, table: Toml, at: str, _number: int) -> None:
        """An object: its name, its kind, the keys of its kind, and that it can be added."""
        before = len(self.model.findings)
        name = self.read_name(table, at)
        kind = self.value(Key("kind", "text"), table, at)
        if isinstance(kind, str) and kind not in formats.KIND_KEYS:
            near = nearest(kind, formats.KIND_KEYS)
            self.find(
                f"unknown kind {at}.kind",
                f"{at}.kind",
                f"{self.who(at)}: there is no kind {shown(kind)}."
                + (f" Did you mean {near}?" if near else "")
                + f" Kinds: {', '.join(formats.KIND_KEYS)}.",
            )
            kind = WRONG
        options = self.read_kind(kind, table, at) if isinstance(kind, str) else Options()
        thing = BasinObject(name, kind if isinstance(kind, str) else "", self.line_of(at), options)
        thing.sure = len(self.model.findings) == before
        if thing.sure:
            self.can_add(thing, at)
        self.add(thing)

    def read_name(self, table: Toml, at: str) -> str:
        """The name of an object or of a data slot."""
        name = self.value(Key("name", "text"), table, at)
        if isinstance(name, str):
            wrong = wrong_with_name(name)
            if wrong:
                self.bad_parameter(
                    f"{at}.name",
                    (
                        f"{self.place(at + '.name')} is {shown(name)}: {wrong}. A name is a letter "
                        f"or _, then letters a to z, digits and _, at most {formats.NAME_LENGTH} bytes."
                    ),
                )
        return name if isinstance(name, str) else ""

    def read_kind(self, kind: str, table: Toml, at: str) -> Options:
        """The keys of a kind, in their order."""
        keys = formats.KIND_KEYS[kind]
        options: dict[str, object] = {}
        for key in keys:
            if kind == "reach" and key.name == "history" and options["lag"] not in (0, WRONG):
                key = Key(key.name, key.type, key.low, key.high, unit=key.unit)
            options[key.name] = self.listed(key, self.value(key, table, at), at, options.get("lag"))
        self.only((Key("name", "text"), Key("kind", "text"), *keys), table, at)
        right = {name: value for name, value in options.items() if value is not WRONG}
        return cast(Options, right)  # each value was judged by its row of KIND_KEYS, which a type can't tell

    def listed(self, key: Key, value: object, at: str, lag: object) -> object:
        """The value of a key, of which the items are judged too where it has some."""
        if key.name == "slots" and isinstance(value, list):
            return self.read_slots(value, at)
        if key.name == "history" and isinstance(value, (list, tuple)):
            return self.read_history(value, at, lag)
        return self.read_table(value, at) if key.name == "table" and isinstance(value, list) else value

    def read_slots(self, items: list[Toml], at: str) -> list[tuple[str, str]]:
        """The slots of a data object, as pairs of a name and a base unit."""
        slots = []
        for number, item in enumerate(items, 1):
            path = f"{at}.slots[{number}]"
            if not self.fits(Key("", "table"), item, path):
                continue
            name = self.read_name(item, path)
            unit = self.value(Key("unit", "text", words=tuple(formats.BASE_UNITS)), item, path)
            self.only((Key("name", "text"), Key("unit", "text")), item, path)
            slots.append((name, formats.BASE_UNITS[unit] if isinstance(unit, str) else ""))
        least, most = formats.DATA_SLOTS
        if not least <= len(items) <= most:
            self.bad_parameter(
                f"{at}.slots", f"{self.who(at)} has {len(items)} slots, but must have {least} to {most}."
            )
        return slots

    def read_history(self, items: Sequence[object], at: str, lag: object) -> Sequence[object]:
        """The inflows before the run, one for each timestep of the lag."""
        key = next(key for key in formats.KIND_KEYS["reach"] if key.name == "history")
        for number, item in enumerate(items, 1):
            one = Key("", "integer", key.low, key.high, unit=key.unit)
            path = f"{at}.history[{number}]"
            if self.fits(one, item, path):
                self.in_range(one, item, path)
        if lag is not WRONG and len(items) != lag:
            self.bad_parameter(
                f"{at}.history",
                (
                    f"history of {self.who(at)} has {len(items)} inflows, but must have as "
                    f"many as the lag, which is {lag}."
                ),
            )
        return items

    def read_table(self, rows: list[object], at: str) -> object:
        """The rows of elevations in mm and volumes in m3."""
        before, right = len(self.model.findings), []
        for number, row in enumerate(rows, 1):
            if isinstance(row, list) and len(row) == 2 and all(type(item) is int for item in row):
                right.append(row)
            else:
                self.find(
                    f"wrong kind {at}.table[{number}]",
                    f"{at}.table[{number}]",
                    (
                        f"row {number} of the table of {self.who(at)} is {shown(row)}, but must be"
                        " [elevation in mm, volume in m3], two whole numbers."
                    ),
                )
        if len(self.model.findings) == before:
            wrong = wrong_with_rows(right)
            if wrong:
                refusal, first, says = wrong
                self.find(
                    f"table {at}.table: {refusal}",
                    f"{at}.table[{first}]" if first else f"{at}.table",
                    f"the table of {self.who(at)}: {says}.",
                )
        return rows if len(self.model.findings) == before else WRONG

    def can_add(self, thing: BasinObject, at: str) -> None:
        """Notes why an object whose keys are in order can't be added, if it can't."""
        wrong = wrong_with_object(thing, self.model)
        if wrong:
            refusal, key, says = wrong
            self.find(f"build {at}: {refusal}", f"{at}.{key}", f"{self.who(at)}: {says}.")

    def add(self, thing: BasinObject) -> None:
        """Takes the object into the model, with its slots, unless its name is taken."""
        if self.model.object_named(thing.name):
            return
        rows = list(slots_of(thing.kind, thing.options))
        rows += [(name, "neither", 0, "", unit) for name, unit in thing.options.get("slots", ())]
        for name, role, sign, way, unit in rows:
            low, high = formats.usual_bounds(name, thing.kind)
            slot = Slot(len(self.model.slots) + 1, thing.name, name, role, sign, way, unit, low, high)
            thing.slots.append(slot)
            self.model.slots.setdefault(slot.full_name, slot)
        self.model.add(thing)

    # ---- links and bounds

    def read_link(self, table: Toml, at: str, _number: int) -> None:
        """A link: 2 to 8 slots of different objects that measure the same and are in no earlier link."""
        before = len(self.model.findings)
        items, names = self.value(Key("slots", "array"), table, at), []
        if isinstance(items, list):
            names = [
                name
                for number, name in enumerate(items, 1)
                if self.fits(ANY_TEXT, name, f"{at}.slots[{number}]")
            ]
            least, most = formats.LINK_SLOTS
            if len(self.model.findings) == before and not least <= len(names) <= most:
                self.bad_parameter(
                    f"{at}.slots",
                    f"{self.who(at)} has {len(names)} slots, but must have {least} to {most}.",
                )
        self.only((Key("slots", "array"),), table, at)
        if len(self.model.findings) == before:
            self.join(names, at)

    def join(self, names: list[str], at: str) -> None:
        """Makes a link, or notes the first thing that is wrong with it."""
        for place, name in enumerate(names):
            slot = self.model.slots.get(name)
            if not slot:
                self.unknown_slot(name, at)
                return
            wrong = self.wrong_with_slot(slot, [self.model.slots[other] for other in names[:place]])
            if wrong:
                self.find(
                    f"build {at}: {wrong[0]}", f"{at}.slots[{place + 1}]", f"{self.who(at)}: {wrong[1]}."
                )
                return
        self.model.links.append(names)
        for name in names:
            self.model.slots[name].link = len(self.model.links)

    def wrong_with_slot(self, slot: Slot, earlier: list[Slot]) -> tuple[str, str] | None:
        """Why a slot can't join the earlier slots of its link, or `None`."""
        name = slot.full_name
        if slot.link:
            return (
                "linked twice",
                f"{name} is already linked with {' and '.join(self.others(slot))}: write one link for all of them",
            )
        beside = next((other for other in earlier if other.owner == slot.owner), None)
        if beside:
            return "link within object", f"{beside.full_name} and {name} are slots of the same object"
        if earlier and earlier[0].unit != slot.unit:
            first = earlier[0]
            return "link dimension", f'{first.full_name} is in "{first.unit}", and {name} in "{slot.unit}"'
        return None

    def others(self, slot: Slot) -> list[str]:
        """The slots that carry one value with a slot."""
        return [other for other in self.model.links[slot.link - 1] if other != slot.full_name]

    def read_bound(self, table: Toml, at: str, _number: int) -> None:
        """A bound: the least and the greatest value of a slot."""
        before = len(self.model.findings)
        keys = (Key("slot", "text"), Key("min", "whole"), Key("max", "whole"))
        name, low, high = (self.value(key, table, at) for key in keys)
        self.only(keys, table, at)
        is_right = len(self.model.findings) == before
        if not (is_right and isinstance(name, str) and isinstance(low, int) and isinstance(high, int)):
            return
        slot = self.model.slots.get(name)
        if not slot:
            self.unknown_slot(name, at)
        elif name in self.bounded:
            self.find(
                f"build {at}: duplicate name",
                f"{at}.slot",
                f"{self.who(at)}: {name} already has bounds: a slot has one [[bound]] at most.",
            )
        else:
            self.set_bounds(slot, low, high, at)

    def set_bounds(self, slot: Slot, low: int, high: int, at: str) -> None:
        """Sets the bounds of a slot, or notes why they can't be."""
        least, most = formats.widest_bounds(slot.name, self.model.owner(slot).kind)
        if low > high:
            self.find(
                f"build {at}: bad parameter",
                f"{at}.min",
                f"{self.who(at)}: min {amount(low)} of {slot.full_name} is above max {amount(high)}.",
            )
        elif not least <= low <= high <= most:
            self.find(
                f"build {at}: bad parameter",
                f"{at}.min",
                (
                    f"{self.who(at)}: {amount(low)} to {amount(high)} is not within the widest bounds of"
                    f" {slot.full_name}, {amount(least)} to {amount(most)} {slot.unit}."
                ),
            )
        else:
            self.bounded.add(slot.full_name)
            slot.low, slot.high = low, high

    def unknown_slot(self, name: str, at: str) -> None:
        """Notes that there is no such slot, unless what is wrong with its object may be why."""
        owner_name, _, slot_name = name.partition(".")
        owner = self.model.object_named(owner_name)
        rows = formats.KIND_SLOTS.get(owner.kind) if owner else None
        if not owner or owner.sure or (rows and slot_name not in [row.name for row in rows]):
            self.find(
                f"build {at}: unknown slot",
                f"{at}.slots" if at.startswith("link") else f"{at}.slot",
                f"{self.who(at)}: {why_unknown(self.model, name)}",
            )

    # ---- the whole

    def finish(self) -> None:
        """Notes what is wrong with the finished basin."""
        model = self.model
        if self.table.get("object") == []:
            self.bad_parameter("basin", "a model must have an object.")
        steps = model.timesteps.count if model.timesteps else 0
        if len(model.slots) * steps > formats.MOST_VALUES:
            self.find(
                "build basin: too many",
                "run.steps",
                (
                    f"{len(model.slots):,} slots over {steps:,} timesteps are "
                    f"{len(model.slots) * steps:,} values, but a run has at most {formats.MOST_VALUES:,}."
                ),
            )
        for number, link in enumerate(model.links, 1):
            low, high = model.bounds(link[0])
            if low > high:
                each = ", ".join(
                    f"{name} {amount(model.slots[name].low)} to {amount(model.slots[name].high)}"
                    for name in link
                )
                self.find(
                    "build basin: link bounds",
                    f"link[{number}]",
                    f"link {number} joins slots whose bounds leave them no value: {each}.",
                )
