"""One timestep of a run without rules, as docs/DEFINITIONS.md tells it under "How an object solves" and
"Runs".

The tools go through a timestep again to tell what was known when a run ended. What they tell is compared
with what `basin` wrote, and where it differs they say so.
"""

from collections import deque
from collections.abc import Iterable
from dataclasses import dataclass, field

from .formats import LEVELS
from .inputs import Inputs
from .model import BasinObject, Model, Table
from .sections import Row


@dataclass
class Cell:
    """What a slot holds at the timestep: its value, and the object that solved it, or "" for an input."""

    value: int
    writer: str


@dataclass
class View:
    """What a dispatch of an object sees: known values, which of them it put itself, and its past value."""

    thing: BasinObject
    known: dict[str, int]
    own: set[str]
    past: int | None
    bounds: dict[str, tuple[int, int]]
    numbers: dict[str, int] = field(default_factory=dict)  # of slots that rules gave; all others have 0

    @property
    def before(self) -> int:
        """The past value, which is known."""
        assert self.past is not None
        return self.past

    def given(self, name: str) -> bool:
        """Whether a slot is known and another than the object wrote it."""
        return name in self.known and name not in self.own

    def number(self, name: str) -> int:
        """The number of a slot that is known: that of the contents is that of what gives them."""
        levels = [self.numbers.get(level, 0) for level in LEVELS if self.given(level)]
        return min(levels, default=0) if name == "Storage" else self.numbers.get(name, 0)


@dataclass
class Answer:
    """What a dispatch answers: `idle`, `puts` (pairs of a slot's name and a value), or a fault."""

    kind: str
    slot: str = ""
    held: int = 0
    value: int = 0
    puts: list[tuple[str, int]] = field(default_factory=list)


IDLE = Answer("idle")


def volume(table: Table, elevation: int) -> int | None:
    """The volume in m3 at an elevation in mm: on the line between two rows, rounded down. `None` outside."""
    for (low, least), (high, most) in zip(table, table[1:]):
        if low <= elevation <= high:
            return least + (elevation - low) * (most - least) // (high - low)
    return None


def elevation(table: Table, storage: int) -> int | None:
    """The greatest whole elevation in mm whose volume is at most the storage. `None` outside the table."""
    if not table[0][1] <= storage <= table[-1][1]:
        return None
    low, high = table[0][0], table[-1][0]
    while low < high:
        middle = (low + high + 1) // 2
        low, high = (middle, high) if volume_in(table, middle) <= storage else (low, middle - 1)
    return low


def volume_in(table: Table, elevation: int) -> int:
    """The volume at an elevation that the table has."""
    found = volume(table, elevation)
    assert found is not None
    return found


def elevation_in(table: Table, storage: int) -> int:
    """The elevation of a storage that the table has."""
    found = elevation(table, storage)
    assert found is not None
    return found


def past_name(thing: BasinObject) -> str:
    """The slot at whose past the object looks, or "": what it holds, or a lagged reach's inflow."""
    if thing.stores:
        return "Storage"
    if thing.kind == "routed_reach":
        return "Content"
    return "Inflow" if thing.kind == "reach" and thing.options["lag"] else ""


def past_ago(thing: BasinObject) -> int:
    """How many timesteps ago an object looks at its past."""
    return thing.options["lag"] if thing.kind == "reach" else 1


def past_key(thing: BasinObject) -> str:
    """The key of the model that gives the past before the run."""
    return {"reach": "history", "routed_reach": "initial_content"}.get(thing.kind, "initial_storage")


def first_past(thing: BasinObject, step: int) -> int:
    """What the model gives as the past of a timestep, as far back as before the run."""
    if thing.kind == "reach":
        return thing.options["history"][step - 1]
    return thing.options["initial_content"] if thing.kind == "routed_reach" else thing.options["initial_storage"]


def past_value(thing: BasinObject, step: int, rows: list[Row]) -> int | None:
    """That value for a timestep: before the run by the model, else from the rows of the timesteps before."""
    ago = past_ago(thing)
    if step - ago >= 1:
        return rows[step - ago - 1].values.get(f"{thing.name}.{past_name(thing)}")
    return first_past(thing, step)


def terms_of(thing: BasinObject) -> list[str]:
    """The terms for which the balance can be solved, in order; the contents of what stores are Storage."""
    names = [slot.name for slot in thing.slots if slot.role == "solvable"]
    return names + ["Storage"] if thing.stores else names


def missing(thing: BasinObject, known: Iterable[str], past_known: bool) -> tuple[list[str], list[str]]:
    """What an object waits for: slots that have to be known, and terms of which all but one have to be."""
    fixed = [slot.name for slot in thing.slots if slot.role == "fixed" and slot.name not in known]
    if past_name(thing) and not past_known:
        fixed.append(f"{past_name(thing)} before")
    held = set(known) | ({"Storage"} if "PoolElevation" in known else set())
    held |= {"Outflow"} if "EnergyRequest" in known else set()
    terms = [name for name in terms_of(thing) if name not in held]
    return fixed, terms if len(terms) > 1 else []


def solve(view: View) -> Answer:
    """What a dispatch of an object answers, where every value has number 0."""
    thing = view.thing
    refused = refused_plant(view) if thing.kind == "power_reservoir" else None
    if refused:
        return refused
    given = [name for name in view.known if view.given(name)]
    fixed, terms = missing(thing, given, view.past is not None)
    if thing.kind == "data" or any(name not in view.known for name in fixed) or terms:
        return IDLE
    values = dict(view.known)
    if asks(view):
        release = least_release(thing, view.before, view.known["EnergyRequest"])
        assert release is not None  # refused_plant has seen to it
        values["Outflow"] = release
    refused = take_evaporation(view, values) or take_contents(view, values)
    if refused:
        return refused
    puts: dict[str, int | None] = {}
    refused = solve_balance(view, values, puts)
    if refused:
        return refused
    put_contents(view, values, puts)
    put_derived(view, values, puts)
    return in_bounds(view, values, puts)


# ---- power


def head(thing: BasinObject, past: int) -> int:
    """The height in mm through which water falls: from the elevation of the storage before to the tailwater."""
    return max(elevation_in(thing.table, past) - thing.options["tailwater"], 0)


def energy(thing: BasinObject, past: int, release: int) -> int:
    """The energy in kWh that a release gives, rounded down."""
    return release * head(thing, past) * thing.options["power"] // 10**9


def least_release(thing: BasinObject, past: int, request: int) -> int | None:
    """The least release, of 0 to the greatest, whose energy is a request's at least; `None` where none is."""
    if request <= 0:
        return 0
    each = head(thing, past) * thing.options["power"]
    release = -(-request * 10**9 // each) if each else thing.max_release + 1
    return release if release <= thing.max_release else None


def asks(view: View) -> bool:
    """Whether a request counts: it and the storage before are known, and no outflow of its priority or higher."""
    if view.thing.kind != "power_reservoir" or view.past is None or "EnergyRequest" not in view.known:
        return False
    return not view.given("Outflow") or view.number("Outflow") > view.number("EnergyRequest")


def refused_plant(view: View) -> Answer | None:
    """What is wrong before all else: a storage before that the table doesn't have, a request that can't be met."""
    if view.past is not None and elevation(view.thing.table, view.past) is None:
        return Answer("out of range", "Storage", value=view.past)
    if asks(view) and least_release(view.thing, view.before, view.known["EnergyRequest"]) is None:
        return Answer("out of range", "EnergyRequest", value=view.known["EnergyRequest"])
    return None


# ---- contents, and the balance


def take_evaporation(view: View, values: dict[str, int]) -> Answer | None:
    """Works out what evaporates; a storage before that the table doesn't have is out of range."""
    if not view.thing.options.get("evaporation"):
        return None
    table = view.thing.table
    level = elevation(table, view.before)
    if level is None:
        return Answer("out of range", "Storage", value=view.before)
    lowest = max(level - values["EvaporationRate"], table[0][0])
    values["Evaporation"] = volume_in(table, level) - volume_in(table, lowest)
    return None


def take_contents(view: View, values: dict[str, int]) -> Answer | None:
    """Takes a reservoir's contents from its storage or its elevation; two that are given have to agree."""
    table = view.thing.options.get("table")
    storage, level = view.given("Storage"), view.given("PoolElevation")
    if not view.thing.stores or not table:
        return None
    if storage and elevation(table, values["Storage"]) is None:
        return Answer("out of range", "Storage", value=values["Storage"])
    if storage and level:
        found = elevation_in(table, values["Storage"])
        if values["PoolElevation"] != found and volume(table, values["PoolElevation"]) != values["Storage"]:
            return Answer("conflict", "PoolElevation", values["PoolElevation"], found)
    elif level:
        held = volume(table, values["PoolElevation"])
        if held is None:
            return Answer("out of range", "PoolElevation", value=values["PoolElevation"])
        values["Storage"] = held
    return None


def is_given(view: View, term: str) -> bool:
    """Whether a term of the balance is given: contents by storage or elevation, an outflow also by a request."""
    if term == "Outflow" and asks(view):
        return True
    return view.given(term) or (view.thing.stores and term == "Storage" and view.given("PoolElevation"))


def number_of(view: View, term: str) -> int:
    """The number with which a term is given."""
    return view.number("EnergyRequest" if term == "Outflow" and asks(view) else term)


def solve_balance(view: View, values: dict[str, int], puts: dict[str, int | None]) -> Answer | None:
    """Solves the term that isn't given; where all are, the balance has to be true."""
    terms = terms_of(view.thing)
    if not terms:
        return None
    free = next((name for name in terms if not is_given(view, name)), None)
    if not free:
        solved = solved_term(view.thing, terms[-1], values, view.past)
        if values[terms[-1]] == solved:
            return None
        free = max(reversed(terms), key=lambda name: number_of(view, name))
        if not number_of(view, free):
            return Answer("conflict", terms[-1], values[terms[-1]], solved)
    puts[free] = values[free] = solved_term(view.thing, free, values, view.past)
    return None


def signed_terms(thing: BasinObject) -> list[tuple[int, str]]:
    """The balance: what adds to it and what is taken away, as pairs of a sign and a slot's name."""
    lagged = past_name(thing) == "Inflow"
    pairs = [
        (slot.sign, slot.name) for slot in thing.slots if slot.sign and not (lagged and slot.name == "Inflow")
    ]
    return pairs + [(-1, "Storage")] if thing.stores else pairs


def solved_term(thing: BasinObject, term: str, values: dict[str, int], past: int | None) -> int:
    """The value of a term that makes the balance true."""
    if thing.kind == "canal":
        return (
            inflow_of_canal(thing, values["Outflow"])
            if term == "Inflow"
            else conveyed(thing, values["Inflow"])
        )
    if thing.kind == "routed_reach":
        return (
            inflow_of_routed(thing, past or 0, values["Outflow"])
            if term == "Inflow"
            else routed(thing, past or 0, values["Inflow"])
        )
    rest = (past or 0) if past_name(thing) else 0
    rest += sum(sign * values[name] for sign, name in signed_terms(thing) if name != term)
    sign = next(sign for sign, name in signed_terms(thing) if name == term)
    return -sign * rest


def conveyed(thing: BasinObject, inflow: int) -> int:
    """What flows out of a canal: the inflow less what seeps away, which is rounded down."""
    return inflow - inflow * thing.options["seepage"] // 1000


def inflow_of_canal(thing: BasinObject, outflow: int) -> int:
    """The least inflow of a canal that conveys an outflow."""
    return 0 if outflow == 0 else 1000 * (outflow - 1) // (1000 - thing.options["seepage"]) + 1


def routed(thing: BasinObject, past: int, inflow: int) -> int:
    """What flows out of a routed reach: a share of what it holds and what flows in, rounded down."""
    return (past + inflow) * thing.options["release"] // 1000


def inflow_of_routed(thing: BasinObject, past: int, outflow: int) -> int:
    """The least inflow of a routed reach by which an outflow flows out."""
    return -(-1000 * outflow // thing.options["release"]) - past


def put_contents(view: View, values: dict[str, int], puts: dict[str, int | None]) -> None:
    """Puts the storage beside a given elevation, or the elevation beside the storage."""
    table = view.thing.options.get("table")
    if not view.thing.stores or not table:
        return
    if not view.given("Storage"):
        puts["Storage"] = values["Storage"]
    if not view.given("PoolElevation"):
        puts["PoolElevation"] = elevation(table, values["Storage"])


def put_derived(view: View, values: dict[str, int], puts: dict[str, int | None]) -> None:
    """Puts what follows: evaporation, a request's outflow, release, spill, energy, use, return, seepage, content."""
    thing = view.thing
    names = {slot.name for slot in thing.slots if slot.role == "derived"}
    if asks(view):
        puts["Outflow"] = values["Outflow"]
    if "Evaporation" in names:
        puts["Evaporation"] = values["Evaporation"]
    if "Release" in names:
        puts["Release"] = release = min(values["Outflow"], thing.max_release)
        puts["Spill"] = values["Outflow"] - release
        if "Energy" in names:
            puts["Energy"] = energy(thing, view.before, release)
    if "Depletion" in names:
        puts["Depletion"] = used = values["Diversion"] * thing.options["depletion"] // 1000
        puts["ReturnFlow"] = values["Diversion"] - used
    if "Seepage" in names:
        puts["Seepage"] = values["Inflow"] - values["Outflow"]
    if "Content" in names:
        puts["Content"] = view.before + values["Inflow"] - values["Outflow"]


def in_bounds(view: View, values: dict[str, int], puts: dict[str, int | None]) -> Answer:
    """The puts in order of place, or the first that its slot can't have."""
    ordered = []
    for name in (slot.name for slot in view.thing.slots if slot.name in puts):
        (low, high), value = view.bounds[name], puts[name]
        if value is None:  # no elevation: then the storage isn't the table's
            return Answer("out of range", "Storage", value=values["Storage"])
        if not low <= value <= high:
            return Answer("out of range", name, value=value)
        table = view.thing.options.get("table")
        if name == "Storage" and table and elevation(table, value) is None:
            return Answer("out of range", "Storage", value=value)
        ordered.append((name, value))
    return Answer("puts", puts=ordered)


class Timestep:
    """A timestep on its way: what each slot holds, which objects wait, and the fault, if one ends it."""

    def __init__(self, model: Model, inputs: Inputs, step: int, rows: list[Row]) -> None:
        self.model, self.step, self.rows = model, step, rows
        self.first = {name: model.group(name)[0].full_name for name in model.slots}
        self.inputs = inputs
        given = {name: by_step[step] for name, by_step in inputs.cells.items() if step in by_step}
        self.cells = {name: Cell(one.value, "") for name, one in given.items()}
        self.fault: Answer | None = None
        self.at: BasinObject | None = None  # the object whose dispatch is the fault

    def cell(self, full_name: str) -> Cell | None:
        """What a slot holds, or `None`."""
        return self.cells.get(self.first[full_name])

    def view(self, thing: BasinObject) -> View:
        """What a dispatch of an object sees."""
        cells = {slot.name: self.cell(slot.full_name) for slot in thing.slots}
        known = {name: cell.value for name, cell in cells.items() if cell}
        own = {name for name, cell in cells.items() if cell and cell.writer == thing.name}
        past = past_value(thing, self.step, self.rows) if past_name(thing) else None
        return View(
            thing, known, own, past, {slot.name: self.model.bounds(slot.full_name) for slot in thing.slots}
        )

    def run(self) -> "Timestep":
        """Goes through the timestep up to its end, or to its fault."""
        objects = [thing for thing in self.model.objects if thing.kind != "data"]
        waiting, counts = deque(objects), dict[str, int]()
        while waiting and not self.fault:
            thing = waiting.popleft()
            if counts.get(thing.name, 0) >= self.model.object_limit:
                self.fault = Answer("limit", value=counts[thing.name])
            else:
                counts[thing.name] = counts.get(thing.name, 0) + 1
                written = self.dispatch(thing)
                waiting.extend(one for one in objects if self.is_woken(one, thing, written, waiting))
            self.at = thing if self.fault else None
        return self

    def dispatch(self, thing: BasinObject) -> set[str]:
        """Dispatches an object: the slots that it wrote, by the first of their links."""
        answer = solve(self.view(thing))
        if answer.kind in ("conflict", "out of range"):
            self.fault = answer
            return set()
        written = []
        for name, value in answer.puts:
            held = self.cell(f"{thing.name}.{name}")
            if held and held.value != value and held.writer != thing.name:
                self.fault = Answer("conflict", name, held.value, value)
                return set()
            if not held or held.value != value:
                written.append((self.first[f"{thing.name}.{name}"], value))
        self.cells.update((first, Cell(value, thing.name)) for first, value in written)
        return {first for first, _ in written}

    def is_woken(self, other: BasinObject, thing: BasinObject, written: set[str], waiting: deque[BasinObject]) -> bool:
        """Whether what an object wrote makes another one wait."""
        return (
            other is not thing
            and other not in waiting
            and any(self.first[slot.full_name] in written for slot in other.slots)
        )
