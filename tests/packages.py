"""Debian's packages that tests need, and whether a test may leave out what needs one.

`.ci/run --without NAME` puts the names of packages into the variable BASIN_WITHOUT, parted by spaces. A test whose package
is missing fails, unless the package is named there.
"""

import os


def may_lack(*packages: str) -> bool:
    """Says whether all of these packages are named in BASIN_WITHOUT."""
    return set(packages) <= set(os.environ.get("BASIN_WITHOUT", "").split())


def lacking(name: str, *packages: str) -> int:
    """Reports missing packages of a test, and returns its status: 0 where they may be missing."""
    may = may_lack(*packages)
    said = "not tried" if may else "failed"
    print(f"{name}: {said}, since Debian's packages are missing: apt-get install {' '.join(packages)}")
    return 0 if may else 1
