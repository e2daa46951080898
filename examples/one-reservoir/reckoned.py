"""What the dam holds: what it held, and what flows in, less what flows out."""

import sys
from itertools import accumulate
from pathlib import Path

HERE = Path(__file__).resolve().parent
sys.path.insert(0, str(HERE.parents[1] / "tests" / "examples"))

from reckoning import column, write_batches  # noqa: E402

inflow = [int(flow) for flow in column(HERE, "Dam.Inflow [m3/step]")]
outflow = [int(flow) for flow in column(HERE, "Dam.Outflow [m3/step]")]
storage = list(accumulate((a - b for a, b in zip(inflow, outflow)), initial=1000))[1:]
write_batches("table.csv", [{"Dam.Inflow": inflow, "Dam.Outflow": outflow, "Dam.Storage": storage}])
