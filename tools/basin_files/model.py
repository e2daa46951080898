"""A model: its timesteps, objects, slots, links and bounds. Where its file is judged is `judging.py`."""

from collections.abc import Iterator, Sequence
from dataclasses import dataclass, field
from typing import TypedDict

from . import formats
from .moments import Timesteps


@dataclass
class Finding:
    """What is wrong: `basin`'s words for it, the line of the file, what stands there and what is allowed."""

    refusal: str
    line: int
    says: str


@dataclass
class Slot:
    """A slot of an object. Its bounds are its own, in its base unit."""

    number: int  # from 1 on, in the order of a table's columns
    owner: str
    name: str
    role: str
    sign: int
    way: str
    unit: str
    low: int
    high: int
    link: int = 0  # the number of its link, or 0

    @property
    def full_name(self) -> str:
        """`Object.Slot`."""
        return f"{self.owner}.{self.name}"

    @property
    def settable(self) -> bool:
        """Whether inputs may give it."""
        return self.role != "derived"


Table = list[list[int]]  # rows of an elevation in mm and a volume in m3


class Options(TypedDict, total=False):
    """The values of a kind's keys, by `formats.KIND_KEYS`: a kind has its own ones, and no value where it isn't told."""

    slots: list[tuple[str, str]]  # of a data object: names and base units
    lag: int
    history: Sequence[int]
    initial_storage: int
    initial_content: int
    table: Table | None
    local_inflow: bool
    diversion: bool
    return_flow: bool
    evaporation: bool
    max_release: int | None
    depletion: int
    supply: str
    seepage: int
    tailwater: int
    power: int
    release: int


@dataclass
class BasinObject:
    """An object of the model, with the values of its kind's keys."""

    name: str
    kind: str
    line: int
    options: Options
    sure: bool = True  # whether nothing is wrong with its keys
    slots: list[Slot] = field(default_factory=list)

    @property
    def stores(self) -> bool:
        """Whether it holds water by a Storage, and with a table by an elevation."""
        return self.kind in formats.STORING

    @property
    def looked_up(self) -> Table | None:
        """The table into which rules look: that of a reservoir, which isn't a power reservoir; or `None`."""
        return self.options.get("table") if self.kind == "reservoir" else None

    @property
    def table(self) -> Table:
        """The table of an object that has one."""
        table = self.options["table"]
        assert table is not None
        return table

    @property
    def max_release(self) -> int:
        """The greatest release of an object that has one."""
        most = self.options["max_release"]
        assert most is not None
        return most


@dataclass
class Model:
    """A model as far as it could be read, and what is wrong. `timesteps` is `None` where `run` is wrong."""

    timesteps: Timesteps | None = None
    object_limit: int = 50
    ahead: int = 0  # how many timesteps ahead a rule may put
    objects: list[BasinObject] = field(default_factory=list)
    slots: dict[str, Slot] = field(default_factory=dict)  # by full name, in the order of a table's columns
    links: list[list[str]] = field(default_factory=list)  # lists of full names
    named: dict[str, BasinObject] = field(default_factory=dict)  # the objects by their names
    findings: list[Finding] = field(default_factory=list)
    unknown: dict[str, str] = field(default_factory=dict)  # why texts name no slot, by the text

    def add(self, thing: BasinObject) -> None:
        """Adds an object whose name no other one has."""
        self.objects.append(thing)
        self.named[thing.name] = thing

    @property
    def run(self) -> Timesteps:
        """The timesteps of a model with whose `run` nothing is wrong."""
        assert self.timesteps
        return self.timesteps

    def the_object(self, name: str) -> BasinObject:
        """The object of a name that the model has."""
        return self.named[name]

    def owner(self, slot: Slot) -> BasinObject:
        """The object whose slot it is."""
        return self.the_object(slot.owner)

    def object_named(self, name: str) -> BasinObject | None:
        """The object of that name, or `None`."""
        return self.named.get(name)

    def group(self, full_name: str) -> list[Slot]:
        """The slots that carry one value with this one, itself included, in the order of columns."""
        slot = self.slots[full_name]
        names = self.links[slot.link - 1] if slot.link else [full_name]
        return sorted((self.slots[name] for name in names), key=lambda one: one.number)

    def bounds(self, full_name: str) -> tuple[int, int]:
        """The bounds that its group leaves a slot."""
        group = self.group(full_name)
        return max(slot.low for slot in group), min(slot.high for slot in group)


def slots_of(kind: str, options: Options) -> Iterator[tuple[str, str, int, str, str]]:
    """The slots that a kind has with these options: name, role, sign, way and unit of each."""
    for row in formats.KIND_SLOTS.get(kind, ()):
        if row.option and (options.get(row.option) is None or options.get(row.option) is False):
            continue
        role = row.role
        if kind == "reach" and row.name == "Inflow" and options.get("lag"):
            role = "neither"
        if kind == "water_user" and options.get("supply") == "rule":
            role = {"DiversionRequest": "neither", "Diversion": "fixed"}.get(row.name, role)
        yield row.name, role, row.sign, row.way, row.unit
