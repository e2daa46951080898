"""What the slots of a run hold and who set it, in few letters: equal words in a row are told once."""

from collections.abc import Iterable

from basin_files.model import Model
from basin_files.sections import Section


def folded(words: Iterable[str]) -> str:
    """Words with commas between them; a word that stands n times in a row is `word*n`."""
    runs: list[tuple[str, int]] = []
    for word in words:
        if runs and runs[-1][0] == word:
            runs[-1] = word, runs[-1][1] + 1
        else:
            runs.append((word, 1))
    return ",".join(word if count == 1 else f"{word}*{count}" for word, count in runs)


def series_of(model: Model, section: Section) -> dict[str, dict[int, str]]:
    """The values and the flags of each slot that is the first of its link, or in none; an unknown one is empty."""
    values, flags = {}, {}
    for place, name in enumerate(model.slots):
        if model.group(name)[0].full_name != name:
            continue
        held = [row.values[name] for row in section.rows]
        values[place] = folded("" if value is None else str(value) for value in held)
        flags[place] = folded(section.flags.get(row.step, {}).get(name, "") for row in section.rows)
    return {"values": values, "flags": flags}
