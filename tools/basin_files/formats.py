"""The tables of docs/FORMATS.md: keys, kinds, slots, units, bounds and refusals, in that page's words."""

from dataclasses import dataclass
from fractions import Fraction

GREATEST_QUANTITY = 10**17  # Q: every quantity lies from -Q to Q
GREATEST_ELEVATION = 10**7  # of a table, in mm; of PoolElevation in mm and EvaporationRate in mm/step
GREATEST_VOLUME = 10**13  # of a table, in m3
GREATEST_FILE = 16_777_216  # in bytes
MOST_STEPS = 4_096
MOST_OBJECTS = 500
MOST_SLOTS = 4_000
MOST_VALUES = 1_000_000  # of slots over all timesteps
TABLE_ROWS = (2, 200)
DATA_SLOTS = (1, 8)
LINK_SLOTS = (2, 8)
NAME_LENGTH = 32  # in bytes
MOST_BATCHES = 64  # of edits, and as many traces
MOST_EDITS = 10_000  # rows of either behind the header

MOST_AHEAD = {1: 0, 2: 30}  # timesteps that a rule puts ahead, by the format of the model

STEP_HOURS = {"1h": 1, "6h": 6, "12h": 12, "24h": 24}
STEP_WORDS = (*STEP_HOURS, "1month")

RESERVED_WORDS = (
    "RULE ENDRULE FUNCTION ENDFUNCTION IS IF THEN ELSE ENDIF WITH DO ENDWITH LET IN ENDLET FOR ENDFOR MAP"
    " ENDMAP AND OR NOT TRUE FALSE KNOWN APPEND ITEM LENGTH MONTH DAY YEAR StorageToElevation"
    " ElevationToStorage NUMERIC BOOLEAN DATETIME SLOT LIST OF t"
).split()


def amount(number: int) -> str:
    """A whole number for people to read: 1,500, or 10^17 for the greatest quantity."""
    if abs(number) == GREATEST_QUANTITY:
        return "10^17" if number > 0 else "-10^17"
    return f"{number:,}"


# ---- keys of a model

REQUIRED = object()  # the default of a key that has none


@dataclass(frozen=True)
class Key:
    """A key of a table: its TOML type, and its range (`low` to `high`) or the words that it may hold."""

    name: str
    type: str
    low: int = 0
    high: int = 0
    words: tuple[str, ...] = ()
    default: object = REQUIRED
    unit: str = ""

    def allowed(self) -> str:
        """What the key may hold, in words."""
        if self.words:
            return " or ".join(f'"{word}"' for word in self.words)
        if self.type == "integer" and self.low == self.high:
            return str(self.low)
        if self.type == "integer":
            unit = f" ({self.unit})" if self.unit else ""
            return f"a whole number from {amount(self.low)} to {amount(self.high)}{unit}"
        return {
            "boolean": "true or false",
            "text": "a text in quotes",
            "array": "an array [..]",
            "whole": "a whole number",
            "table": "a table",
            "tables": "tables",
            "start": 'a moment as "2020-10-01T00:00", on the hour',
        }[self.type]


def option(name: str) -> Key:
    """A key that chooses a slot: true or false, where it isn't there false."""
    return Key(name, "boolean", default=False)


FILE_KEYS = (
    Key("format", "integer", 1, 2),
    Key("run", "table"),
    Key("object", "tables"),
    Key("link", "tables", default=()),
    Key("bound", "tables", default=()),
)
RUN_KEYS = (
    Key("start", "start"),
    Key("step", "text", words=STEP_WORDS),
    Key("steps", "integer", 1, MOST_STEPS, unit="timesteps"),
    Key("agenda", "text", words=("123", "321"), default="321"),
    Key("object_limit", "integer", 16, 100, default=50, unit="times"),
    Key("rule_limit", "integer", 1, 100, default=20, unit="times"),
)
KIND_KEYS = {
    "data": (Key("slots", "tables"),),
    "gage": (),
    "confluence": (),
    "bifurcation": (),
    "reach": (
        Key("lag", "integer", 0, 30, default=0, unit="timesteps"),
        Key("history", "array", -GREATEST_QUANTITY, GREATEST_QUANTITY, default=(), unit="m3/step"),
        option("local_inflow"),
        option("diversion"),
        option("return_flow"),
    ),
    "reservoir": (
        Key("initial_storage", "integer", 0, GREATEST_QUANTITY, unit="m3"),
        Key("table", "array", default=None),
        option("local_inflow"),
        option("diversion"),
        option("return_flow"),
        option("evaporation"),
        Key("max_release", "integer", 0, GREATEST_QUANTITY, default=None, unit="m3/step"),
    ),
    "water_user": (
        Key("depletion", "integer", 0, 1_000, unit="parts of 1000"),
        Key("supply", "text", words=("request", "rule"), default="request"),
    ),
    "canal": (Key("seepage", "integer", 0, 999, unit="parts of 1000"),),
    "power_reservoir": (
        Key("initial_storage", "integer", 0, GREATEST_QUANTITY, unit="m3"),
        Key("table", "array"),
        Key("max_release", "integer", 0, GREATEST_QUANTITY, unit="m3/step"),
        Key("tailwater", "integer", 0, GREATEST_ELEVATION, default=0, unit="mm"),
        Key("power", "integer", 1, 10_000, unit="kWh for 10^9 m3 that fall by 1 mm"),
    ),
    "routed_reach": (
        Key("initial_content", "integer", 0, GREATEST_QUANTITY, unit="m3"),
        Key("release", "integer", 1, 1_000, unit="parts of 1000"),
    ),
}

# ---- slots of a kind


@dataclass(frozen=True)
class SlotRow:
    """A slot of a kind: its role, its sign in the balance, and the option that makes it exist."""

    name: str
    role: str  # solvable, fixed, derived or neither
    sign: int = 0  # 1 where it adds to the balance, -1 where it is taken away, 0 where it is no term
    way: str = ""  # in: into the object; out: out of it
    unit: str = "m3/step"
    option: str = ""  # the key that chooses it


def inflow(name: str, role: str, option: str = "") -> SlotRow:
    """A flow into the object."""
    return SlotRow(name, role, 1, "in", option=option)


def outflow(name: str, role: str, option: str = "") -> SlotRow:
    """A flow out of the object; a derived one is part of another flow, and no term of the balance."""
    return SlotRow(name, role, 0 if role == "derived" else -1, "out", option=option)


KIND_SLOTS = {
    "gage": (inflow("GageInflow", "solvable"), outflow("GageOutflow", "solvable")),
    "confluence": (
        inflow("Inflow1", "solvable"),
        inflow("Inflow2", "solvable"),
        outflow("Outflow", "solvable"),
    ),
    "bifurcation": (
        inflow("Inflow", "solvable"),
        outflow("Outflow1", "solvable"),
        outflow("Outflow2", "solvable"),
    ),
    "reach": (
        inflow("Inflow", "solvable"),
        outflow("Outflow", "solvable"),
        inflow("LocalInflow", "fixed", "local_inflow"),
        outflow("Diversion", "fixed", "diversion"),
        inflow("ReturnFlow", "fixed", "return_flow"),
    ),
    "reservoir": (
        inflow("Inflow", "solvable"),
        outflow("Outflow", "solvable"),
        SlotRow("Storage", "neither", unit="m3"),
        SlotRow("PoolElevation", "neither", unit="mm", option="table"),
        inflow("LocalInflow", "fixed", "local_inflow"),
        outflow("Diversion", "fixed", "diversion"),
        inflow("ReturnFlow", "fixed", "return_flow"),
        SlotRow("EvaporationRate", "fixed", unit="mm/step", option="evaporation"),
        SlotRow("Evaporation", "derived", -1, "out", option="evaporation"),
        outflow("Release", "derived", "max_release"),
        outflow("Spill", "derived", "max_release"),
    ),
    "water_user": (
        SlotRow("DiversionRequest", "fixed", 1, "in"),
        SlotRow("Diversion", "solvable", -1, "in"),
        outflow("Depletion", "derived"),
        outflow("ReturnFlow", "derived"),
    ),
    "canal": (inflow("Inflow", "solvable"), outflow("Outflow", "solvable"), outflow("Seepage", "derived")),
    "power_reservoir": (
        inflow("Inflow", "solvable"),
        outflow("Outflow", "solvable"),
        SlotRow("Storage", "neither", unit="m3"),
        SlotRow("PoolElevation", "neither", unit="mm"),
        SlotRow("EnergyRequest", "neither", unit="kWh"),
        SlotRow("Energy", "derived", unit="kWh"),
        outflow("Release", "derived"),
        outflow("Spill", "derived"),
    ),
    "routed_reach": (
        inflow("Inflow", "solvable"),
        outflow("Outflow", "solvable"),
        SlotRow("Content", "derived", unit="m3"),
    ),
}

STORING = ("reservoir", "power_reservoir")  # kinds that hold water by a Storage, and with a table by an elevation
LEVELS = ("Storage", "PoolElevation")  # either of which gives the contents of such an object

# What makes an option's slots exist, in the words of a model's file.
OPTION_TEXT = {
    "local_inflow": "local_inflow = true",
    "diversion": "diversion = true",
    "return_flow": "return_flow = true",
    "evaporation": "evaporation = true and a table",
    "table": "a table",
    "max_release": "a max_release",
}

# ---- units and bounds

# The unit words of a data slot, with the base unit in which its values are given.
BASE_UNITS = {
    "m3": "m3",
    "dam3": "m3",
    "Mm3": "m3",
    "mm": "mm",
    "m": "mm",
    "step": "step",
    "m3/step": "m3/step",
    "dam3/step": "m3/step",
    "mm/step": "mm/step",
    "m3/mm": "m3/mm",
    "kWh": "kWh",
    "": "",
}

# What else a heading of a wide table may have in brackets: how much one of it is in the base unit.
AMOUNTS = {
    "l": ("m3", Fraction(1, 1000)),
    "m3": ("m3", Fraction(1)),
    "dam3": ("m3", Fraction(1000)),
    "hm3": ("m3", Fraction(10**6)),
    "Mm3": ("m3", Fraction(10**6)),
    "MCM": ("m3", Fraction(10**6)),
    "km3": ("m3", Fraction(10**9)),
    "ft3": ("m3", Fraction(28_316_846_592, 10**12)),
    "kft3": ("m3", Fraction(28_316_846_592, 10**9)),
    "acre-ft": ("m3", Fraction(123_348_183_754_752, 10**11)),
    "TAF": ("m3", Fraction(123_348_183_754_752, 10**8)),
    "ML": ("m3", Fraction(1000)),
    "GL": ("m3", Fraction(10**6)),
    "mm": ("mm", Fraction(1)),
    "cm": ("mm", Fraction(10)),
    "m": ("mm", Fraction(1000)),
    "ft": ("mm", Fraction(3048, 10)),
    "in": ("mm", Fraction(254, 10)),
    "step": ("step", Fraction(1)),
    "kWh": ("kWh", Fraction(1)),
    "MWh": ("kWh", Fraction(1000)),
    "GWh": ("kWh", Fraction(10**6)),
    "m3/mm": ("m3/mm", Fraction(1)),
    "": ("", Fraction(1)),
}
SECONDS = {"s": 1, "min": 60, "h": 3600, "d": 86400, "day": 86400}
RATES = {"cms": "m3/s", "cfs": "ft3/s", "kcfs": "kft3/s"}  # flows that have a word of their own
SPELLINGS = {  # other words of the same amounts, in small letters
    **dict.fromkeys(("af", "acft", "ac-ft", "acre-feet", "acre-foot", "acrefeet"), "acre-ft"),
    **dict.fromkeys(("ft", "feet", "foot"), "ft"),
    **dict.fromkeys(("in", "inch", "inches"), "in"),
    "kaf": "TAF",
}


def widest_bounds(slot_name: str, kind: str) -> tuple[int, int]:
    """The widest bounds of a slot, in its base unit."""
    if kind in STORING and slot_name in ("PoolElevation", "EvaporationRate"):
        return 0, GREATEST_ELEVATION
    if kind != "data" and slot_name in ("Storage", "EnergyRequest", "Energy", "Content"):
        return 0, GREATEST_QUANTITY
    return -GREATEST_QUANTITY, GREATEST_QUANTITY


def usual_bounds(slot_name: str, kind: str) -> tuple[int, int]:
    """The bounds of a slot for which a model sets none: a flow's begin with 0."""
    low, high = widest_bounds(slot_name, kind)
    return (low if kind == "data" else 0), high


# ---- refusals

MODEL_REFUSALS = {
    "not TOML": "The file is not TOML.",
    "missing": "A required key is missing.",
    "wrong kind": "The value has another type than the key needs.",
    "unknown key": "The table has no such key.",
    "unknown kind": "There is no such kind of object: " + ", ".join(KIND_KEYS) + ".",
    "build duplicate name": "A name is already used, or the slot already has bounds.",
    "build unknown slot": "A text names no slot of the model.",
    "build linked twice": "A slot is already in an earlier link; one link joins 2 to 8 slots.",
    "build link within object": "Two slots of a link are of the same object.",
    "build link dimension": "The slots of a link do not measure the same quantity.",
    "build link bounds": "The bounds of linked slots leave them no value.",
    "build bad parameter": "A value is outside its range.",
    "build too many": (
        f"There are more than {MOST_OBJECTS} objects, {MOST_SLOTS:,} slots, or {MOST_VALUES:,} values of "
        "slots over all timesteps."
    ),
    "table too few rows": f"A table has at least {TABLE_ROWS[0]} rows.",
    "table too many rows": f"A table has at most {TABLE_ROWS[1]} rows.",
    "table out of bounds": (
        f"Elevations are 0 to {GREATEST_ELEVATION:,} mm, volumes 0 to {GREATEST_VOLUME:,} m3."
    ),
    "table not rising": "Each row of a table is above the one before it, in elevation and in volume.",
    "calendar bad start": "There is no such moment: a date of the years 1 to 9999, and an hour from 0 to 23.",
    "calendar not first of month": "Timesteps of a month begin on the first of a month, at hour 0.",
    "calendar beyond years": "The last timestep would end past the year 9999.",
}
INPUTS_REFUSALS = {
    "header": "The first row must be slot,step,value.",
    "ragged": "The row does not have three fields.",
    "unknown slot": "The model has no such slot.",
    "not settable": "The object derives the slot from its others, so it cannot be given.",
    "not a number": (
        "A step is a number or two with a - between them, a value a whole number, both of 1 to 18 digits."
    ),
    "step outside": "The timesteps are outside the run, or the first is after the last.",
    "out of bounds": "The slot cannot have the value.",
    "twice": (
        "An earlier row gives a value to the same cell, or to that of a slot that is linked to the slot."
    ),
}
# Of edits and of traces there are these besides.
EDITS_REFUSALS = {
    "batch order": "The number in the first row is 1. A later row has the number of the row before it, or one more.",
    "too many": f"There are at most {MOST_BATCHES} batches or traces, and {MOST_EDITS:,} rows.",
}
OTHER_REFUSALS = {
    "words refused": "The command is `simulate MODEL INPUTS`: three arguments, and a path does not begin with -.",
    "cannot read": "The file does not exist, is a folder, or may not be read.",
    "cannot write": (
        "The output could not be written to its end: a closed pipe, for example, or a full disk. The beginning"
        " of the table was written."
    ),
    "want of memory": "There was not enough memory. A model with fewer values needs less.",
    "too long": f"A file has at most {GREATEST_FILE:,} bytes.",
}
FAULTS = {
    "conflict": "The given values contradict one another.",
    "out of range": "An object solves to a value that the slot cannot have, or a rule computes a number out of range.",
    "limit": "An object was dispatched, or a rule fired, as often as the model allows, and was due again.",
    "division by zero": "A rule divided by 0.",
}
