"""Where a name is made, where it is used, and all its places when it gets another name."""

import re

from basin_files.firing import PREDEFINED
from basin_files.reasons import wrong_with_name

from . import models
from .names import uses_of
from .wire import REQUEST_FAILED, Failed

RENAMED = ("object", "function", "local", "parameter", "slot")
ROW = re.compile(rb"(?m)^(?:[^,\n]*,)*?(?=[A-Za-z_])")


def uses_in(document):
    """The names of a ruleset's text."""
    from .reading import lexed

    return document.keep("uses", lambda: uses_of(lexed(document.source.text)[0]))


def wrong_name(name):
    """Raises where a text is no name."""
    why = wrong_with_name(name)
    if why:
        raise Failed(REQUEST_FAILED, f"{name!r} can't be a name: {why}")


def others_with(document, key):
    """The uses of what a key is of, in a ruleset."""
    return [one for one in uses_in(document) if one.key == key]


def check_function(document, old, new):
    """Raises where a function can't have a name."""
    taken = {one.text for one in uses_in(document) if one.sort == "function" and one.makes}
    if new in PREDEFINED or (new in taken and new != old):
        raise Failed(REQUEST_FAILED, f"there is a function {new} already")


def check_object(model_document, old, new):
    """Raises where an object can't have a name."""
    taken = {one.text for one in models.places_of(model_document) if one.sort == "object" and one.makes}
    if new in taken and new != old:
        raise Failed(REQUEST_FAILED, f"there is an object {new} already")


def check_slot(model_document, key, new):
    """Raises where a slot can't have a name: data objects alone name their slots."""
    made = next((one for one in models.places_of(model_document) if one.makes and one.key == key), None)
    if not made:
        raise Failed(REQUEST_FAILED, f"{key[1]} is a slot of its kind: only those of data objects have names of their own")
    owner = key[1].partition(".")[0]
    if any(one.makes and one.key == ("slot", f"{owner}.{new}") for one in models.places_of(model_document)):
        raise Failed(REQUEST_FAILED, f"{owner} has a slot {new} already")


def check_local(document, found, new):
    """Raises where another name would change what some name stands for."""
    text = document.source.text
    for one in sorted(found, key=lambda one: -one.begin):
        text = text[: one.begin] + new + text[one.end :]
    from .reading import lexed

    again = uses_of(lexed(text)[0])
    before = uses_in(document)
    order = {one.begin: number for number, one in enumerate(before)}
    order_again = {one.begin: number for number, one in enumerate(again)}
    shape = [(one.sort, order.get(one.home, -1)) for one in before]
    if shape != [(one.sort, order_again.get(one.home, -1)) for one in again]:
        raise Failed(REQUEST_FAILED, f"with the name {new} it would hide another name, or be hidden by one")


def rows_with(content, key):
    """The places of an object or of a slot in inputs, edits or traces: stretches of bytes of its name."""
    sort, name = key
    owner, _, slot = name.partition(".")
    pattern = rb"(?m)(?:^|,)(" + re.escape(owner.encode()) + rb")\.(" + (re.escape(slot.encode()) if slot else rb"\w+") + rb")(?=[,\r\n]|$)"
    for found in re.finditer(pattern, content):
        yield found.span(2 if sort == "slot" else 1)
