"""Files of other programs that are no table: tools/inputs names what they are, by their first bytes."""

import subprocess
import tempfile
from collections.abc import Iterator
from pathlib import Path

INPUTS = Path(__file__).resolve().parents[2] / "tools/inputs"
BEGINNINGS = {
    "an Excel or OpenDocument workbook": b"PK\x03\x04\x14\x00\x06\x00",
    "an old Excel workbook": b"\xd0\xcf\x11\xe0\xa1\xb1\x1a\xe1",
    "a NetCDF file": b"CDF\x02\x00\x00\x00\x00",
    "a NetCDF or HDF5 file": b"\x89HDF\r\n\x1a\n",
    "a Parquet file": b"PAR1\x15\x04",
    "an SQLite database": b"SQLite format 3\x00",
    "XML, such as WaterML": b'<?xml version="1.0"?><wml2:Collection/>',
    "an HEC-DSS file": b"ZDSS\x00\x00",
}


def of_foreign_files() -> Iterator[tuple[str, str | None]]:
    """Each is refused in one line that names its form, whatever bytes come later, and nothing is written."""
    with tempfile.TemporaryDirectory() as folder:
        for form, beginning in BEGINNINGS.items():
            file = Path(folder) / "file"
            file.write_bytes(beginning + bytes(range(256)))
            done = subprocess.run([INPUTS, file], capture_output=True, check=False)
            wanted = f"inputs: this is {form}: save or write it as CSV first (docs/PYTHON.md reads it with pandas or xarray)\n"
            is_right = (done.returncode, done.stdout, done.stderr.decode()) == (2, b"", wanted)
            yield f"inputs names {form}", None if is_right else f"status {done.returncode}: {done.stderr.decode()}"
