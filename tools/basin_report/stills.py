"""What a page shows where no script runs: a picture of each object, and the table."""

from collections.abc import Iterator
from html import escape

from basin_files.model import Model, Slot
from basin_files.moments import stamp_of
from basin_files.sections import Section

WIDTH, HEIGHT, LEFT = 700, 120, 90
MOST_POINTS = 350  # of a line
MOST_CELLS = 20_000  # of the table
MOST_PICTURES = 120
COLOURS = ("#0072b2", "#d55e00", "#009e73", "#cc79a7", "#e69f00", "#56b4e9", "#8c6d31", "#7f7f7f")


def stills(model: Model, section: Section) -> Iterator[str]:
    """The pictures and the table of a run, as parts of a page."""
    told = 0
    for thing in model.objects:
        units: dict[str, list[Slot]] = {}
        for slot in thing.slots:
            if any(row.values[slot.full_name] is not None for row in section.rows):
                units.setdefault(slot.unit, []).append(slot)
        for unit, slots in units.items():
            told += 1
            if told <= MOST_PICTURES:
                yield picture(thing.name, unit, slots, section)
    if told > MOST_PICTURES:
        yield f'<p class="note">{told - MOST_PICTURES:,} more pictures are left out.</p>'
    yield from table(section)


def picture(name: str, unit: str, slots: list[Slot], section: Section) -> str:
    """The lines of an object's slots that are measured by one unit."""
    columns = [[row.values[slot.full_name] for row in section.rows] for slot in slots]
    known = [value for column in columns for value in column if value is not None]
    low, high = min(known), max(known)
    low = low if unit == "mm" else min(low, 0)
    high = high if high > low else low + 1
    lines = [way(column, low, high) for column in columns]
    parts = [f'<path d="{line}" fill="none" stroke="{COLOURS[at % 8]}" stroke-width="1.6"/>' for at, line in enumerate(lines)]
    parts += [f'<text x="{LEFT - 6}" y="{y}" text-anchor="end">{value:,}</text>' for y, value in ((14, high), (HEIGHT, low))]
    ends = ((LEFT, "start", section.rows[0]), (WIDTH, "end", section.rows[-1]))
    parts += [f'<text x="{x}" y="{HEIGHT + 16}" text-anchor="{side}">{stamp_of(row.stamp)}</text>' for x, side, row in ends]
    keys = [f'<span><b style="color: {COLOURS[at % 8]}">&#9632;</b> {escape(slot.name)}</span>' for at, slot in enumerate(slots)]
    title = f"{escape(name)}, {escape(unit or 'numbers')}"
    svg = f'<svg viewBox="0 0 {WIDTH} {HEIGHT + 20}" role="img" aria-label="{title}">{"".join(parts)}</svg>'
    return f'<div class="still"><h3>{title}</h3>{svg}<div class="key">{"".join(keys)}</div></div>'


def way(column: list[int | None], low: int, high: int) -> str:
    """The way of a line; of many timesteps at one place its least and greatest."""
    many = -(-len(column) // MOST_POINTS)
    words, is_open = [], False
    for at in range(0, len(column), many):
        known = [value for value in column[at : at + many] if value is not None]
        for value in dict.fromkeys((min(known), max(known))) if known else ():
            x = LEFT + (WIDTH - LEFT) * (at + 0.5) / len(column)
            y = 8 + (HEIGHT - 8) * (1 - (value - low) / (high - low))
            words.append(f"{'L' if is_open else 'M'}{x:.1f} {y:.1f}")
            is_open = True
        is_open = bool(known)
    return "".join(words)


def table(section: Section) -> Iterator[str]:
    """The table, as far as it isn't too long."""
    rows = section.rows[: max(1, MOST_CELLS // max(1, len(section.slots)))]
    heads = "".join(f'<th scope="col">{escape(name)}</th>' for name in ("step", "ends", *section.slots))
    yield f'<h2>The table</h2><div class="wide"><table><thead><tr>{heads}</tr></thead><tbody>'
    for row in rows:
        cells = "".join(f"<td>{'' if value is None else value}</td>" for value in row.values.values())
        yield f'<tr><th scope="row">{row.step}</th><td>{stamp_of(row.stamp)}</td>{cells}</tr>'
    yield "</tbody></table></div>"
    if len(rows) < len(section.rows):
        yield f'<p class="note">{len(section.rows) - len(rows):,} more timesteps are left out here; with scripts all are there.</p>'
