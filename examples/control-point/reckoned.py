"""What the dam lets out so that past the town, two days below it, flows enough and not too much."""

import sys
from pathlib import Path

HERE = Path(__file__).resolve().parent
sys.path.insert(0, str(HERE.parents[1] / "tests" / "examples"))

from reckoning import DAY, Columns, column, volumes, write_batches  # noqa: E402

LEAST, MOST, LAG = 180_000, 420_000, 2


def reckoned(inflow: list[int], brook: list[int]) -> Columns:
    """The run."""
    storage, on_its_way = 25_000_000, [150_000] * LAG
    columns: Columns = {"Dam.Outflow": [], "Dam.Storage": [], "Town.GageOutflow": []}
    for day, comes in enumerate(inflow):
        outflow = comes
        if day + LAG < len(brook):
            outflow = min(max(comes, LEAST - brook[day + LAG]), max(MOST - brook[day + LAG], 0))
        storage += comes - outflow
        on_its_way.append(outflow)
        columns["Dam.Outflow"].append(outflow)
        columns["Dam.Storage"].append(storage)
        columns["Town.GageOutflow"].append(on_its_way.pop(0) + brook[day])
    assert all(LEAST <= flow <= MOST for flow in columns["Town.GageOutflow"][LAG:]), "the question's answer"
    return columns


flows = [volumes(column(HERE, f"{slot} [m3/s]"), DAY) for slot in ("Dam.Inflow", "River.LocalInflow")]
write_batches("table.csv", [reckoned(*flows)])
