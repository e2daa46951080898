"""Fronts of several goals, and indices of sensitivity."""

from __future__ import annotations

from typing import Any, Callable

import numpy as np
import numpy.typing as npt

Points = npt.NDArray[np.int64]
Numbers = npt.NDArray[np.float64]


def indices(parts: Numbers) -> Numbers:
    """Returns first and total order indices by knob, of the values at two samples and at those mixed of both."""
    first, second, *mixed = parts
    spread = np.var(np.concatenate([first, second]))
    if not spread:
        return np.zeros((2, len(mixed)))
    ones = [1 - np.mean((second - one) ** 2) / (2 * spread) for one in mixed]
    totals = [np.mean((first - one) ** 2) / (2 * spread) for one in mixed]
    return np.array([ones, totals])


def nondominated(values: Numbers) -> npt.NDArray[np.bool_]:
    """Returns which rows no other row is better than: at most it everywhere, and below it somewhere."""
    found = np.ones(len(values), bool)
    for place, row in enumerate(values):
        if found[place]:
            found &= ~((values >= row).all(axis=1) & (values > row).any(axis=1))
    return found


def evolve(
    values: Callable[[Points], Numbers], low: Points, high: Points, rounds: int, size: int, goals: int, seed: int
) -> None:
    """NSGA-II: deap's selection, crossing and mutation, over whole numbers. deap draws from `random`, which is left as it was."""
    import random

    from deap import base, tools
    from scipy.stats import qmc

    fitness = type("Goals", (base.Fitness,), {"weights": (-1.0,) * goals})

    class One(list):  # type: ignore[type-arg]
        """A point with its goals."""

        def __init__(self, numbers: Any) -> None:
            super().__init__(numbers)
            self.fitness = fitness()

    def judged(some: list[One]) -> list[One]:
        for one in some:
            one[:] = np.clip(np.rint(one), low, high).astype(np.int64).tolist()
        for one, found in zip(some, values(np.array(some, dtype=np.int64))):
            one.fitness.values = tuple(np.minimum(found, 1e300))
        return some

    before = random.getstate()
    random.seed(seed)
    try:
        start = low + (high - low) * qmc.LatinHypercube(len(low), seed=seed).random(size)
        held = tools.selNSGA2(judged([One(point) for point in start]), size)
        bounds = {"low": low.tolist(), "up": high.tolist(), "eta": 20.0}
        for _ in range(rounds):
            young = [One(one) for one in tools.selTournamentDCD(held, size)]
            for left, right in zip(young[::2], young[1::2]):
                if random.random() < 0.9:
                    tools.cxSimulatedBinaryBounded(left, right, **bounds)
                tools.mutPolynomialBounded(left, indpb=1 / len(low), **bounds)
                tools.mutPolynomialBounded(right, indpb=1 / len(low), **bounds)
            held = tools.selNSGA2(held + judged(young), size)
    finally:
        random.setstate(before)
