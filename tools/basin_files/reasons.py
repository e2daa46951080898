"""Why something is wrong, in people's words."""

import difflib
import re
from collections.abc import Callable, Iterable

from . import formats
from .model import BasinObject, Model, Table, slots_of

LONG = 4096  # letters, where a text isn't to be cut short
MOST_NEAR = 8  # unknown texts of one model for which a similar name is searched
NAME = re.compile(r"[A-Za-z_][A-Za-z0-9_]*")


def plain(text: str, most: int = 60) -> str:
    """A text on one line, cut to so many letters."""
    text = text if text.isprintable() else text.encode("unicode_escape").decode()
    return text if len(text) <= most else f"{text[:most - 4]} .."


def shown(value: object) -> str:
    """A value as a model's file has it, cut short."""
    if isinstance(value, bool):
        return "true" if value else "false"
    if isinstance(value, list):
        return plain(f"[{', '.join(shown(item) for item in value[:9])}]")
    return f'"{plain(value)}"' if isinstance(value, str) else plain(str(value))


def wrong_with_name(name: str) -> str | None:
    """Why a text is no name, or `None`."""
    if name in formats.RESERVED_WORDS:
        return "the rule language reserves this word"
    if len(name.encode()) > formats.NAME_LENGTH:
        return f"it has {len(name.encode())} bytes"
    if NAME.fullmatch(name):
        return None
    bad = next((letter for letter in name if not NAME.fullmatch(f"a{letter}")), None)
    return f"it has {shown(bad)} in it" if bad else ("it begins with a digit" if name else "it is empty")


def wrong_with_rows(rows: Table) -> tuple[str, int, str] | None:
    """What is wrong with the rows of a table: the refusal, the first row with it, and why; or `None`."""
    least, most = formats.TABLE_ROWS
    if len(rows) < least:
        return "too few rows", 0, f"it has {len(rows)} rows, but must have {least} to {most}"
    if len(rows) > most:
        return "too many rows", 0, f"it has {len(rows)} rows, but must have {least} to {most}"
    for number, (elevation, volume) in enumerate(rows, 1):
        if not 0 <= elevation <= formats.GREATEST_ELEVATION:
            return (
                "out of bounds",
                number,
                (
                    f"row {number} has the elevation {elevation:,} mm, but it must be 0 to "
                    f"{formats.GREATEST_ELEVATION:,}"
                ),
            )
        if not 0 <= volume <= formats.GREATEST_VOLUME:
            return (
                "out of bounds",
                number,
                (
                    f"row {number} has the volume {volume:,} m3, but it must be 0 to "
                    f"{formats.GREATEST_VOLUME:,}"
                ),
            )
        if number > 1 and not (rows[number - 2][0] < elevation and rows[number - 2][1] < volume):
            return (
                "not rising",
                number,
                (
                    f"row {number}, {shown([elevation, volume])}, is not above the row before it, "
                    f"{shown(rows[number - 2])}, in both elevation and volume"
                ),
            )
    return None


def wrong_with_object(thing: BasinObject, model: Model) -> tuple[str, str, str] | None:
    """Why an object whose keys are right can't be added: the refusal, the key where it is seen, and why."""
    earlier = model.object_named(thing.name)
    names = [name for name, _ in thing.options.get("slots", ())]
    twice = next((name for name in names if names.count(name) > 1), None)
    slots = len(model.slots) + len(list(slots_of(thing.kind, thing.options))) + len(names)
    wrong = wrong_with_reservoir(thing) if thing.stores else None
    if wrong:
        return "bad parameter", *wrong
    if earlier:
        return "duplicate name", "name", f"the object in line {earlier.line} already has this name"
    if twice:
        return "duplicate name", "slots", f"two of its slots are named {twice}"
    if len(model.objects) >= formats.MOST_OBJECTS:
        return "too many", "name", f"a model has at most {formats.MOST_OBJECTS} objects"
    if slots > formats.MOST_SLOTS:
        return (
            "too many",
            "name",
            f"with it there are {slots:,} slots, but at most {formats.MOST_SLOTS:,} are allowed",
        )
    return None


def wrong_with_reservoir(thing: BasinObject) -> tuple[str, str] | None:
    """Why a reservoir whose keys are in order can't be: the key where it is seen, and why."""
    table, storage = thing.options.get("table"), thing.options["initial_storage"]
    if thing.options.get("evaporation") and table is None:
        return "evaporation", "evaporation = true needs a table of elevations and volumes, but there is none"
    if table is not None and not table[0][1] <= storage <= table[-1][1]:
        least, most = table[0][1], table[-1][1]
        return (
            "initial_storage",
            (
                f"initial_storage is {storage:,} m3, but must be within the volumes of the table, {least:,} to"
                f" {most:,} m3"
            ),
        )
    return None


def why_unknown(model: Model, name: str) -> str:
    """Why a text names no slot, what may be meant, and which option would make the slot exist.

    The search for a similar name takes up to a second among many long names, so only the first texts get one.
    """
    if name not in model.unknown:
        near = nearest if len(model.unknown) < MOST_NEAR else lambda _word, _words: None
        model.unknown[name] = unknown_words(model, name, near)
    return model.unknown[name]


def unknown_words(model: Model, name: str, nearest: Callable[[str, Iterable[str]], str | None]) -> str:
    """Returns the same, with the function that finds the nearest name."""
    owner_name, dot, slot_name = name.partition(".")
    owner = model.object_named(owner_name)
    if not dot:
        near = nearest(name, model.slots)
        return f"{shown(name)} is not a slot: write Object.Slot." + (
            f" Did you mean {near}?" if near else ""
        )
    if not owner:
        near = nearest(owner_name, [thing.name for thing in model.objects])
        return f"there is no object {shown(owner_name)}." + (f" Did you mean {near}?" if near else "")
    row = next((row for row in formats.KIND_SLOTS.get(owner.kind, ()) if row.name == slot_name), None)
    if row:
        return f"{owner_name} has the slot {slot_name} only with {formats.OPTION_TEXT[row.option]}."
    names = [slot.name for slot in owner.slots]
    near = nearest(slot_name, names + [row.name for row in formats.KIND_SLOTS.get(owner.kind, ())])
    hint = f" Did you mean {owner_name}.{near}" if near else ""
    if near and near not in names:
        row = next(row for row in formats.KIND_SLOTS[owner.kind] if row.name == near)
        hint += f", which it has only with {formats.OPTION_TEXT[row.option]}"
    return (
        f"{owner_name} ({owner.kind}) has no slot {shown(slot_name)}.{hint + '?' if hint else ''} "
        f"It has {', '.join(names)}."
    )


def nearest(word: str, words: Iterable[str]) -> str | None:
    """The word among others that is nearest to this one, or `None`; upper and lower case are near."""
    folded = {other.lower(): other for other in reversed(list(words))}
    found = difflib.get_close_matches(word.lower(), folded, 1, 0.6)
    return folded[found[0]] if found else None
