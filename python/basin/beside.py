"""The place of the modules with which the scripts under tools/ read files: there in a checkout, next to this package once installed."""

import sys
from pathlib import Path

HERE = Path(__file__).resolve().parent
TOOLS = HERE.parents[1] / "tools"

if not (HERE.parent / "basin_files").is_dir() and (TOOLS / "basin_files").is_dir() and str(TOOLS) not in sys.path:
    sys.path.append(str(TOOLS))
