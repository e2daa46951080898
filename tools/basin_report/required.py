"""The requirements of a page: for each run their verdicts, and their margins over time."""

from dataclasses import dataclass

from basin_files.model import Model
from basin_files.program import bytes_of
from basin_files.reasons import LONG, plain
from basin_require.beside import Asked, Beside
from basin_require.counting import Calendar, judged, value_of
from basin_require.measures import NOT_ASKED
from basin_require.reading import read_requirements
from basin_require.running import Run, answered, given_slots, runs_of
from basin_require.telling import amount, cell_of, measure_text, percent
from basin_rules.places import Source

from .series import folded

NOT_APPLYING = "-"


@dataclass
class Requiring:
    """A policy with its requirements, and its runs: that of each batch by its number."""

    model: Model
    beside: Beside
    runs: dict[int, Run]
    given: set[str]

    def told(self, batch: int) -> dict[str, object]:
        """Returns what a browser reads of the requirements and measures of a run."""
        run = self.runs[batch]
        timesteps = self.model.run
        calendar = Calendar([timesteps.begin(step) for step in range(1, timesteps.count + 1)])
        pairs = list(zip(self.beside.asked, run.margins, strict=True))
        return {
            "requirements": [self.requirement(asked, run, margins, calendar) for asked, margins in pairs if not asked.item.how],
            "measures": [
                [plain(asked.item.name, LONG), asked.item.wanted, measure_text(asked, value_of(asked.item.how, margins, calendar))]
                for asked, margins in pairs
                if asked.item.how
            ],
        }

    def requirement(self, asked: Asked, run: Run, margins: list[int | None], calendar: Calendar) -> dict[str, object]:
        """Returns what a browser reads of a requirement."""
        verdict = judged(asked.item, margins, calendar, bool(run.fault))
        shares = (percent(verdict.reliability), percent(verdict.resilience))
        amounts = (amount(asked, verdict.vulnerability), amount(asked, verdict.margin))
        return {
            "name": plain(asked.item.name, LONG),
            "wanted": asked.item.wanted,
            "verdict": verdict.verdict,
            "cells": [f"{verdict.held:,}", f"{verdict.asked:,}", *shares, *amounts],
            "first": verdict.first or 0,
            "slot": cell_of(asked, self.given),
            "unit": asked.unit,
            "amount": asked.is_amount,
            "margins": folded(told_of(margin) for margin in margins),
        }


def told_of(margin: int | None) -> str:
    """Returns a margin as a word: an unknown one is empty."""
    return "" if margin is None else NOT_APPLYING if margin == NOT_ASKED else str(margin)


def requiring(model: Model, paths: tuple[str, str, str], required: str, edits: str | None) -> Requiring:
    """Returns a policy with its requirements, after its runs. `Unreadable` and `Wrong` say what is wrong with a requirement."""
    found = read_requirements(source_of(required))
    beside = Beside(found, bytes_of(paths[0]), bytes_of(paths[1]), answered)
    return Requiring(model, beside, {run.number: run for run in runs_of(beside, paths[2], edits or "")}, given_slots(paths[2]))


def source_of(required: str) -> Source:
    """Returns the text of a file of requirements."""
    return Source(plain(required), bytes_of(required))
