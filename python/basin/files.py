"""The files of a run, from paths or from texts: a model and a policy. Inputs are in `inputs.py`."""

from __future__ import annotations

import os
from functools import cached_property
from pathlib import Path
from typing import TypeVar

import pandas as pd

from basin_files.judging import read_model
from basin_files.model import Model as ReadModel
from basin_files.moments import Timesteps
from basin_files.reasons import plain
from basin_rules.codefile import is_code
from basin_rules.places import Source
from basin_rules.rulesets import read_ruleset

from .errors import Error
from .process import PathLike

FREQUENCIES = {
    "1h": pd.offsets.Hour(1),
    "6h": pd.offsets.Hour(6),
    "12h": pd.offsets.Hour(12),
    "24h": pd.offsets.Day(1),
    "1month": pd.offsets.MonthBegin(1),
}
Given = TypeVar("Given", bound="File")


class File:
    """A file, by its path or by its text."""

    def __init__(self, path: PathLike | None = None, *, text: str | bytes | None = None) -> None:
        if (path is None) == (text is None):
            raise TypeError("a path or a text, and not both")
        self.path = None if path is None else Path(path)
        self._text = text.encode() if isinstance(text, str) else text

    def __repr__(self) -> str:
        return f"<{type(self).__name__} {self.path or 'of a text'}>"

    @classmethod
    def of(cls: type[Given], given: Given | PathLike) -> Given:
        """Returns the given object, or the one of the file at that path."""
        return given if isinstance(given, cls) else cls(given)  # type: ignore[arg-type]

    @property
    def content(self) -> bytes:
        """Returns the bytes of the file."""
        if self.path is None:
            assert self._text is not None
            return self._text
        return self.path.read_bytes()

    def at(self, folder: Path, name: str) -> str:
        """Returns a path at which the program finds it: its own, or that of a file which is made in the folder."""
        if self.path is not None:
            return os.fspath(self.path.absolute())
        (folder / name).write_bytes(self.content)
        return str(folder / name)


class Model(File):
    """A model. The program judges it; here its timesteps, slots and links alone are read."""

    @cached_property
    def read(self) -> ReadModel:
        """Returns the model, as the scripts under tools/ read it."""
        try:
            return read_model(self.content)
        except ValueError as error:
            raise Error(f"the model is not TOML: {plain(str(error))}") from None

    @property
    def timesteps(self) -> Timesteps:
        """Returns the timesteps of the run, numbered from 1."""
        if self.read.timesteps is None:
            finding = self.read.findings[0]
            raise Error(f"the model cannot be read, line {finding.line}: {finding.says}")
        return self.read.timesteps

    @property
    def steps(self) -> int:
        """Returns how many timesteps the run has."""
        return int(self.timesteps.count)

    @property
    def slots(self) -> list[str]:
        """Returns every slot, in the order of a table's columns."""
        return list(self.read.slots)

    def unit(self, slot: str) -> str:
        """Returns a slot's base unit, in the program's words."""
        try:
            return str(self.read.slots[slot].unit)
        except KeyError:
            raise Error(f"the model has no slot {plain(slot)}") from None

    def index(self, count: int | None = None) -> pd.DatetimeIndex:
        """Returns when each timestep begins. Raises `ValueError` outside the years 1678 to 2261, of which pandas has the dates."""
        timesteps = self.timesteps
        frequency = FREQUENCIES[timesteps.step]
        periods = timesteps.count if count is None else count
        try:
            return pd.date_range(timesteps.start, periods=periods, freq=frequency, name="time")
        except (pd.errors.OutOfBoundsDatetime, OverflowError):
            raise ValueError(
                f"the run begins in {timesteps.start.year}, but pandas has only the dates of 1678 to 2261"
            ) from None

    def ends(self, count: int | None = None) -> pd.DatetimeIndex:
        """Returns when each timestep ends: the program's stamp."""
        index = self.index(count)
        return (index + index.freq).rename("end")


class Policy(File):
    """A ruleset, or code."""

    def rule_names(self, model: Model) -> list[str]:
        """Returns the name of each rule by its number; of code, which has none, nothing."""
        content = self.content
        if is_code(content):
            return []
        return [str(rule.name) for rule in read_ruleset(Source("policy", content), model.read).rules]
