"""What may be meant where a type doesn't fit: hints in people's words."""

from __future__ import annotations

from collections.abc import Mapping
from typing import TYPE_CHECKING

from basin_files.firing import PREDEFINED
from basin_files.formats import RESERVED_WORDS
from basin_files.model import BasinObject, Model, Slot
from basin_files.moments import Timesteps
from basin_files.reasons import nearest, shown

from . import trees
from .measures import FLOW, PLAIN, TIMESTEP, UNITS, VOLUME, Type, unit_words
from .places import Source

if TYPE_CHECKING:
    from .judging import Judge

SECONDS = "3 * 86400 \"m3/step\" where a timestep is a day; docs/FUNCTIONS.md has months"
LENGTHS = {"1h": "an hour", "6h": "6 hours", "12h": "12 hours"}
CUBIC_METRES_OF_1000_CFS = 28_316_847  # m3/s, times 10^6
# What other systems write, and what it is here.
OTHER_UNITS = {
    "m3/s": f"there is none, since a timestep's length depends on the model: 3 m3/s are {SECONDS}",
    "cms": f"m3/s is not a unit of this language: 3 m3/s are {SECONDS}",
    "hm3": '"Mm3"',
    "MCM": '"Mm3"',
    "cfs": 'the units are metric: 1,000 cfs are 2446576 "m3/step" where a timestep is a day',
    "acre-ft": 'the units are metric: 1,000 acre-ft are 1233482 "m3"',
    "ft": '"mm": the units are metric, and 10 ft are 3048 "mm"',
    **dict.fromkeys(
        ("acre-feet", "acre-foot", "ac-ft", "af", "AF"), 'the units are metric: 1,000 acre-feet are 1233482 "m3"'
    ),
    "feet": '"mm": the units are metric, and 10 ft are 3048 "mm"',
    "m3/day": 'a flow is a volume per timestep: "m3/step"',
    "m3/month": 'a flow is a volume per timestep: "m3/step"',
    "day": '"step", where a timestep is a day',
    "days": '"step", where a timestep is a day',
    "hour": '"step", where a timestep is an hour',
    "timestep": '"step"',
    "timesteps": '"step"',
    "steps": '"step"',
}
OTHER_FUNCTIONS = {
    "IsNaN": "NOT KNOWN(Object.Slot[t])",
    "HOUR": "there is none: let a rule count up a slot of a data object, from its value in the previous timestep",
    "GetHour": "there is none: let a rule count up a slot of a data object, from its value in the previous timestep",
    "DAYOFYEAR": "a list of the days before each month, ITEM(days, MONTH(t)) + DAY(t)",
    "GetDayOfYear": "a list of the days before each month, ITEM(days, MONTH(t)) + DAY(t)",
    "GetDaysInMonth": "a list of twelve, ITEM(days, MONTH(t)); docs/FUNCTIONS.md has leap years",
    "TableInterpolation": "ElevationToStorage or StorageToElevation for a reservoir's table, else a FOR over two lists",
    "TableLookup": "ElevationToStorage or StorageToElevation for a reservoir's table, else a FOR over two lists",
    "FlowToVolume": 'flow * 1 "step"',
    "VolumeToFlow": 'volume / 1 "step"',
    "Ceil": "(a + b - 1) / b",
    "IsKnown": "KNOWN(Object.Slot[t])",
    "Sum": "a FOR over a list of slots",
    "SUM": "a FOR over a list of slots",
    "Average": "a FOR over a list, and a division by LENGTH",
    "Round": "RoundDown(a, 1), or (a + b / 2) / b for the nearest quotient",
    "Floor": "a / b, which is rounded down",
    "Ceiling": "(a + b - 1) / b",
    "GetMonth": "MONTH(t)",
    "GetDayOfMonth": "DAY(t)",
    "GetYear": "YEAR(t)",
    "ElevToStorage": "ElevationToStorage(Object, x)",
    "Sqrt": "there are only whole numbers, and no roots",
    "Pow": "x * x: there are no powers",
}
NOT_EARLIER = (
    "the function is this one or a later one, but a function can only call earlier ones",
    "move it up; in place of recursion use a FOR that carries a value along",
)
OF_LISTS = {  # functions of two numbers that are given a list
    "Min": "FOR x IN list WITH least := ITEM(list, 1) DO Min(least, x) ENDFOR",
    "Max": "FOR x IN list WITH most := ITEM(list, 1) DO Max(most, x) ENDFOR",
}
COUNTS = {
    "Min": "Min(a, Min(b, c)) for three",
    "Max": "Max(a, Max(b, c)) for three",
    "Abs": "",
}
SHARE = ", a flow over that many timesteps"
TIGHT = (trees.At, trees.Name, trees.Literal, trees.Call, trees.Brackets)
DATES = {True: "a date is moved by a number of timesteps after it", False: "dates are compared with dates"}


def unit(word: str, timesteps: Timesteps | None = None) -> tuple[str, str]:
    """Returns the message for an unknown unit and the suggestion, for a model with these timesteps."""
    says = f"{shown(word)} is not one of the units: {', '.join(one for one in UNITS if one)}"
    bare = word.strip().replace("^", "")
    if bare in OTHER_UNITS:
        return says, of_length(OTHER_UNITS[bare], timesteps)
    near = bare if bare in UNITS else nearest(bare, [one for one in UNITS if one])
    return says, f'"{near}"' if near else ""


def of_length(hint: str, timesteps: Timesteps | None) -> str:
    """Returns a hint for timesteps of a day with the numbers of the model's shorter timestep."""
    if not timesteps or timesteps.step not in LENGTHS:
        return hint
    seconds = timesteps.seconds(1)
    cubic_metres = (CUBIC_METRES_OF_1000_CFS * seconds + 500_000) // 1_000_000
    hint = hint.replace("86400", str(seconds)).replace("2446576", str(cubic_metres))
    return hint.replace("a timestep is a day", f"a timestep is {LENGTHS[timesteps.step]}")


def target_step(most: int) -> tuple[str, str]:
    """What is told of a slot that is set too far ahead, where rules set so many timesteps ahead at most."""
    later = 'a slot of a data object that is set now, and read at `[t - 1 "step"]` later'
    if most:
        return f"a rule can set slots at most {most} timesteps ahead, `[t + {most}]`", later
    hint = f"`format = 2` in the model, which lets rules set ahead; or {later}"
    return "a rule can set slots only at this timestep, `[t]`", hint


def settable(model: Model, slot: Slot) -> str:
    """What a rule can set of the object of a slot."""
    names = [one.full_name for one in model.owner(slot).slots if one.settable]
    return f"one of {', '.join(names)}"


def variable(name: str, scope: Mapping[str, Type], judge: Judge) -> tuple[str, str]:
    """What is told of a name that isn't there, and what may be meant."""
    says = f"there is no variable {name} here"
    if name.upper() in RESERVED_WORDS:
        return says, f"{name.upper()}, in capitals"
    if name == "T":
        return says, "t, this timestep"
    thing = judge.model.object_named(name)
    if thing:
        return says, f"a slot of {name}: {', '.join(one.full_name for one in thing.slots)}"
    if name in judge.earlier or name in judge.later:
        return says, f"{name}(), a call of the function"
    near = nearest(name, scope)
    slots = [one.full_name for one in judge.model.slots.values() if one.name == name]
    return says, near or (f"{' or '.join(slots[:3])}, with its object" if slots else "")


def function(name: str, judge: Judge) -> tuple[str, str]:
    """What is told of a function that isn't there, and what may be meant."""
    says = f"there is no function {name}"
    if name in OTHER_FUNCTIONS:
        return says, OTHER_FUNCTIONS[name]
    known = [*PREDEFINED, *judge.earlier, *judge.later]
    known += ["KNOWN", "ITEM", "LENGTH", "APPEND", "MONTH", "DAY", "YEAR"]
    return says, nearest(name, known) or ""


def owner(name: str, model: Model) -> tuple[str, str]:
    """What is told of an object that isn't there, and what may be meant."""
    return f"there is no object {name}", nearest(name, [thing.name for thing in model.objects]) or ""


def with_table(thing: BasinObject, model: Model) -> str:
    """The objects that have a table into which rules may look, or how this one may get it."""
    names = [one.name for one in model.objects if one.looked_up]
    return ", ".join(names) or ("a table for it in the model" if thing.kind == "reservoir" else "")


def known(part: trees.Node, given: Type, source: Source) -> tuple[str, str]:
    """What is told of KNOWN of what is no look at a slot."""
    says = f"`{source.words(part.span)}` is not the value of a slot at a date, and KNOWN accepts nothing else"
    if given.sort == "slot":
        return says, f"KNOWN({source.words(part.span)}[t])"
    inner = part
    while isinstance(inner, trees.Brackets):
        inner = inner.parts[0]
    return says, f"KNOWN({source.words(inner.span)}), without brackets" if isinstance(inner, trees.At) else ""


def date(node: trees.At, given: Type, source: Source) -> tuple[str, str]:
    """What is told of a date that is none, and what may be meant."""
    slot, behind = (source.words(part.span) for part in node.parts)
    says = f"`{behind}` is {given.words()}, but [ ] needs a date"
    if isinstance(node.parts[1], trees.One) and node.parts[1].word == "-":
        return says, f'{slot}[t - {source.words(node.parts[1].parts[0].span)} "step"]'
    return says, f'{slot}[t], or {slot}[t - 1 "step"] for the previous timestep' if given.sort == "number" else ""


def item(node: trees.At, given: Type, source: Source) -> str:
    """An item of a list that is asked for in square brackets."""
    words = [source.words(part.span) for part in node.parts]
    return f"ITEM({words[0]}, {words[1]})" if given.is_list else ""


def steps(node: trees.Two, source: Source) -> str:
    """A date that is moved by a number without its unit."""
    words = [source.words(part.span) for part in node.parts]
    bare = isinstance(node.parts[1], trees.Literal) and not node.parts[1].unit
    moved = f'{words[1]} "step"' if bare else f'({words[1]}) * 1 "step"'
    return f"{words[0]} {node.word} {moved}"


def of_sides(node: trees.Two, left: Type, right: Type, source: Source) -> str:
    """What may be meant where two sides measure other things."""
    return best(of_value(node.parts[0], left, right, source), of_value(node.parts[1], right, left, source))


def best(*hints: str) -> str:
    """Of some hints the one that is meant most often: a unit for a number that has none, a volume, and a quotient at last."""
    return min(hints, key=lambda hint: (not hint, not hint.endswith(SHARE), "/ 1 " in hint))


def of_value(node: trees.Node, given: Type, asked: Type, source: Source) -> str:
    """What may be meant by a value of one type where another is asked for, or ""."""
    text = source.words(node.span)
    tight = text if isinstance(node, TIGHT) else f"({text})"
    if given.sort == "slot" and asked.sort == "number":
        return f"{text}[t], its value"
    if given.sort != "number" or asked.sort != "number":
        return ""
    if isinstance(node, trees.Literal) and not (node.unit and node.unit.text) and asked.measure != PLAIN:
        words = [word for word in UNITS if UNITS[word] == (asked.measure, 1)]
        return f'{text} "{words[0]}"' if words else ""
    if given.measure == FLOW and asked.measure == VOLUME:
        return f'{tight} * 1 "step", the volume of one timestep'
    divisor = plain_divisor(node)
    if given.measure == VOLUME and asked.measure == FLOW and divisor:
        return f'{source.words(node.parts[0].span)} / {divisor.value} "step"{SHARE}'
    if given.measure == VOLUME and asked.measure == FLOW:
        return f'{tight} / 1 "step", the flow over one timestep'
    if given.measure == PLAIN and asked.measure == TIMESTEP:
        return f'{tight} * 1 "step"'
    return plain_number(node, tight, given) if asked.measure == PLAIN else ""


def plain_divisor(node: trees.Node) -> trees.Literal | None:
    """The number without a unit by which a value is divided: of a volume over some timesteps the unit is left out."""
    divisor = node.parts[1] if isinstance(node, trees.Two) and node.word == "/" else None
    return divisor if isinstance(divisor, trees.Literal) and not (divisor.unit and divisor.unit.text) else None


def plain_number(node: trees.Node, text: str, given: Type) -> str:
    """What may be meant where a plain number is asked for."""
    if isinstance(node, trees.Literal):
        return f"{node.value}, without its unit"
    unit = unit_words(given.measure)
    return f'{text} / 1 "{unit}", a plain number' if unit in UNITS else ""
