"""What a run's trace tells with `--asked`: each put that was asked for, and what became of it."""

from dataclasses import dataclass
from pathlib import Path

from .program import Unable, basin

WORDS_REFUSED = 2  # the program's status
WRITTEN, KEPT, DENIED, AGAIN, LATE = FATES = ("written", "kept", "denied", "again", "late")
OVER = "over"  # what a written put took the place of
NO_SUCH_OPTION = "this program has no --asked, so requested assignments that were not made are not shown"


@dataclass(slots=True)
class Asked:
    """A put that a rule or an object asked for, its fate, and what the cell held before, where that is told."""

    fate: str
    slot: str
    step: int
    value: int
    flag: str
    held: tuple[int, str] | None = None  # a value and its flag

    @property
    def denied_by(self) -> str:
        """The flag of what is held in its place, or ""."""
        return self.held[1] if self.fate == DENIED and self.held else ""


def told_by(line: str, asked: list[Asked]) -> Asked | None:
    """The put of an indented line, which is taken; `None` of a line that tells more of the put above it."""
    word, *rest = line.split()
    if "." in word:
        asked.append(Asked(WRITTEN, word, int(rest[0]), int(rest[1]), rest[2]))
        return asked[-1]
    slot, step, value, flag, *held = rest
    if word == OVER:
        asked[-1].held = int(value), flag
        return None
    asked.append(Asked(word, slot, int(step), int(value), flag, (int(held[1]), held[2]) if held else None))
    return asked[-1]


def asked_run(*words: str | Path) -> tuple[str, bool]:
    """What a run writes for these words with a trace, and whether it tells what was asked for: older programs don't."""
    for more in (["--trace", "--asked"], ["--trace"]):
        status, output, refusal = basin(*words, *more)
        if status != WORDS_REFUSED:
            break
    if status > 1:
        raise Unable(refusal)
    return output, "--asked" in more
