"""The file of a study, with the values of each of its points."""

from __future__ import annotations

import sqlite3
from typing import Mapping

import numpy as np
import numpy.typing as npt

from .errors import Stale
from .process import PathLike

Numbers = npt.NDArray[np.float64]
FEW = 500  # keys of one look into the file


class Store:
    """An SQLite file that keeps the values of points, all of a write or nothing."""

    def __init__(self, path: PathLike, digest: str, columns: int) -> None:
        self.file = sqlite3.connect(path)
        self.columns = columns
        with self.file:
            self.file.execute("CREATE TABLE IF NOT EXISTS study (digest TEXT)")
            self.file.execute("CREATE TABLE IF NOT EXISTS runs (point BLOB PRIMARY KEY, told BLOB, fault TEXT) WITHOUT ROWID")
            held = self.file.execute("SELECT digest FROM study").fetchall()
            if not held:
                self.file.execute("INSERT INTO study VALUES (?)", (digest,))
        if held and held != [(digest,)]:
            raise Stale(f"{path} has another study: use another file, or remove it")

    def known(self, keys: list[bytes]) -> dict[bytes, tuple[Numbers, str]]:
        """Returns what is kept of these points."""
        found: dict[bytes, tuple[Numbers, str]] = {}
        for begin in range(0, len(keys), FEW):
            some = keys[begin : begin + FEW]
            marks = ",".join("?" * len(some))
            for point, told, fault in self.file.execute(f"SELECT * FROM runs WHERE point IN ({marks})", some):
                found[point] = np.frombuffer(told, "<f8"), fault
        return found

    def keep(self, new: Mapping[bytes, tuple[Numbers, str]]) -> None:
        """Keeps the values of points, all of them or none."""
        rows = [(key, values.astype("<f8").tobytes(), fault) for key, (values, fault) in new.items()]
        with self.file:
            self.file.executemany("INSERT OR IGNORE INTO runs VALUES (?, ?, ?)", rows)
