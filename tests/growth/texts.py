"""Makes the texts of which families are made: models, rows, rules, code and tables."""

from collections.abc import Callable, Iterable
from dataclasses import dataclass
from typing import TypeVar

Files = dict[str, str]
Maker = TypeVar("Maker", bound=Callable[[int], Files])
ROWS = "slot,step,value\n"
LONG = "x" * 24  # which many names begin with


@dataclass(frozen=True)
class Family:
    """Files that are made at a size and at twice that size, the call that reads them, and its status.

    The first word is basin, or a tool.
    """

    name: str
    files: Callable[[int], Files]
    size: int
    words: tuple[str, ...]
    status: int


def collecting(families: list[Family], size: int, words: str, status: int) -> Callable[[Maker], Maker]:
    """Adds a family whose name is the first line of what makes its files."""

    def add(files: Maker) -> Maker:
        called = words.removeprefix("basin ").partition(" ")[0]
        sentence = (files.__doc__ or "").splitlines()[0].rstrip(".")
        families.append(Family(f"{called}: {sentence}", files, size, tuple(words.split()), status))
        return files

    return add


def head(steps: int, more: str = "", version: int = 1) -> str:
    """The head of a model."""
    return f'format = {version}\n[run]\nstart = "2020-01-01T00:00"\nstep = "1h"\nsteps = {steps}\n{more}'


def named(kind: str, name: str, more: str = "") -> str:
    """An object of a kind."""
    return f'[[object]]\nname = "{name}"\nkind = "{kind}"\n{more}'


def gage(name: str) -> str:
    """A gage."""
    return named("gage", name)


def data(name: str, count: int, prefix: str = "s") -> str:
    """A data object with slots s0, s1, .."""
    slots = ", ".join(f'{{name = "{prefix}{number}", unit = ""}}' for number in range(count))
    return named("data", name, f"slots = [{slots}]\n")


def gages(count: int) -> str:
    """Gages G0, G1, .."""
    return "".join(gage(f"G{number}") for number in range(count))


def objects(count: int) -> str:
    """Data objects D0, D1, .. with eight slots each."""
    return "".join(data(f"D{number}", 8) for number in range(count))


def alike(count: int) -> str:
    """Data objects with eight slots each, whose names and slots all begin alike."""
    return "".join(data(f"{LONG}{number:03}", 8, LONG) for number in range(count))


def link(*slots: str) -> str:
    """A link."""
    return "[[link]]\nslots = [" + ", ".join(f'"{slot}"' for slot in slots) + "]\n"


def chain(count: int, backward: bool = False) -> str:
    """Gages, each of which flows into the next one; the last one stands first if told."""
    numbers = range(count - 1, -1, -1) if backward else range(count)
    links = (link(f"G{number}.GageOutflow", f"G{number + 1}.GageInflow") for number in range(count - 1))
    return "".join(gage(f"G{number}") for number in numbers) + "".join(links)


def cells(count: int) -> list[str]:
    """The slots of data objects D0, D1, .."""
    return [f"D{number // 8}.s{number % 8}" for number in range(count)]


def rule(body: str, name: str = "a") -> str:
    """A rule."""
    return f'RULE "{name}": {body} ENDRULE\n'


def listed(items: Iterable[str]) -> str:
    """The length of a list."""
    return "LENGTH({" + ", ".join(items) + "})"


def code(body: str, local_kinds: str = "N") -> str:
    """The code of one rule."""
    return f"CODE 1\nRULE\nLOCALS {local_kinds}\n{body}END\n"


def kinds(count: int) -> str:
    """The kinds of so many numbers, as code has them."""
    return ",".join(["N"] * count)


def table(columns: int, rows: int, cell: str = "5", batch: int = 0, ending: str = "settled") -> str:
    """A section of a table."""
    lines = [f"# batch {batch} {ending}", "step,stamp," + ",".join(cells(columns))]
    for row in range(1, rows + 1):
        stamp = f"2020-{1 + row // 672:02}-{1 + row // 24 % 28:02}T{row % 24:02}:00"
        lines.append(f"{row},{stamp}," + ",".join([cell] * columns))
    return "\n".join(lines) + "\n"
