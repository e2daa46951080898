"""What goes out when a release may rise by 40,000 m3 a day and fall by 25,000, from the first day's on."""

import sys
from pathlib import Path

HERE = Path(__file__).resolve().parent
sys.path.insert(0, str(HERE.parents[1] / "tests" / "examples"))

from reckoning import DAY, Columns, column, volumes, write_batches  # noqa: E402


def reckoned(inflow: list[int], first: int) -> Columns:
    """The run: the first day's outflow is given."""
    storages, outflows = [12_000_000], [first]
    for day, comes in enumerate(inflow):
        if day:
            wanted = max(comes + (storages[-1] - 12_000_000) // 20, 60_000)
            outflows.append(min(max(wanted, outflows[-1] - 25_000), outflows[-1] + 40_000))
        storages.append(storages[-1] + comes - outflows[-1])
    return {"Dam.Inflow": inflow, "Dam.Outflow": outflows, "Dam.Storage": storages[1:]}


(given,) = volumes(column(HERE, "Dam.Outflow [m3/s]"), DAY)
write_batches("table.csv", [reckoned(volumes(column(HERE, "Dam.Inflow [m3/s]"), DAY), given)])
