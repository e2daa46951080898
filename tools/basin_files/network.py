"""The network of a model in Graphviz' language, and its picture. Names of objects and slots are words, so they are no commands."""

import subprocess

from .model import Model, Slot
from .program import Unable

# How each kind is drawn.
SHAPES = {
    "reservoir": 'shape=invtrapezium, fillcolor="#9ecae1"',
    "reach": 'shape=box, style="filled,rounded", fillcolor="#deebf7"',
    "confluence": 'shape=invhouse, fillcolor="#f0f0f0"',
    "bifurcation": 'shape=house, fillcolor="#f0f0f0"',
    "water_user": 'shape=octagon, fillcolor="#c7e9c0"',
    "canal": 'shape=parallelogram, fillcolor="#e5d8bd"',
    "power_reservoir": 'shape=invtrapezium, fillcolor="#fdd835"',
    "routed_reach": 'shape=box, style="filled,rounded", fillcolor="#c6dbef"',
    "gage": 'shape=ellipse, fillcolor="#fdd0a2"',
    "data": 'shape=note, fillcolor="#ffffff"',
}
PLAIN_SLOTS = ("Inflow", "Outflow", "GageInflow", "GageOutflow")  # not written at an arrow


def label_of(tail: Slot, head: Slot) -> str:
    """What is written at an arrow: the slots that aren't an object's plain inflow and outflow."""
    names = [slot.name for slot in (tail, head) if slot.name not in PLAIN_SLOTS]
    return " / ".join(dict.fromkeys(names))


def edges_of(group: list[Slot]) -> list[tuple[Slot, Slot, bool]]:
    """The arrows of a link: tail, head, and whether water goes that way; else they only share a value."""
    out = [slot for slot in group if slot.way == "out"]
    into = [slot for slot in group if slot.way == "in"]
    other = [slot for slot in group if not slot.way]
    if not out or not into:
        return [(group[0], slot, False) for slot in group[1:]]
    return [(tail, head, True) for tail in out for head in into] + [(out[0], slot, False) for slot in other]


def text_of(model: Model) -> str:
    """The network in Graphviz' language."""
    lines = [
        "digraph basin {",
        '  node [style=filled, fontname="sans-serif", fontsize=11];',
        '  edge [fontname="sans-serif", fontsize=9, color="#2b6ca3"];',
    ]
    for thing in model.objects:
        lines.append(
            f'  "{thing.name}" [label="{thing.name}\\n{thing.kind.replace("_", " ")}", {SHAPES[thing.kind]}];'
        )
    for link in model.links:
        for tail, head, flows in edges_of(model.group(link[0])):
            label = label_of(tail, head) if flows else f"{tail.name} = {head.name}"
            options = [f'label="{label}"'] if label else []
            options += [] if flows else ["dir=none", "style=dashed", 'color="#808080"']
            lines.append(
                f'  "{tail.owner}" -> "{head.owner}"' + (f" [{', '.join(options)}];" if options else ";")
            )
    return "\n".join([*lines, "}"]) + "\n"


def drawn(text: str, ending: str) -> bytes:
    """The picture of the text."""
    done = subprocess.run(
        ["dot", f"-T{ending.removeprefix('.')}"], input=text.encode(), capture_output=True, check=False
    )
    if done.returncode:
        raise Unable(f"dot cannot draw it: {done.stderr.decode('utf-8', 'replace').strip()}")
    return done.stdout
