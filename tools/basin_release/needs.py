"""What the program wants of the system under it: a processor, shared libraries, and how new a C library."""

import re
import subprocess
from dataclasses import dataclass
from pathlib import Path

from basin_files.program import Unable

AMD64 = "Advanced Micro Devices X86-64"
DEBIAN_GLIBC = {"11": (2, 31), "12": (2, 36), "13": (2, 41)}
Number = tuple[int, ...]


@dataclass(frozen=True)
class Needs:
    """The names of shared libraries, and the newest version of glibc whose symbols are wanted."""

    libraries: tuple[str, ...]
    glibc: Number

    @property
    def glibc_text(self) -> str:
        """That version as it is written."""
        return ".".join(map(str, self.glibc))

    def debians(self, is_run: bool) -> str:
        """The releases of Debian that have what the program wants, or lack it."""
        return " and ".join(name for name, has in DEBIAN_GLIBC.items() if (has >= self.glibc) == is_run)

    def told(self) -> str:
        """All of it in sentences."""
        runs, lacks = self.debians(True), self.debians(False)
        return (
            f"Linux on x86-64. Shared libraries: {', '.join(self.libraries) or 'none'}. The newest symbols that it needs of the C\n"
            f"library are those of glibc {self.glibc_text}. By these symbols it runs on Debian {runs or 'no release from 11 to 13'}"
            f"{f', and not on Debian {lacks}' if lacks and runs else ''}."
        )


def readelf(program: Path, *words: str) -> str:
    """What readelf tells of the program."""
    try:
        done = subprocess.run(
            ["readelf", "--wide", *words, str(program)], capture_output=True, text=True, check=False,
            env={"PATH": "/usr/bin:/bin", "LC_ALL": "C"},
        )
    except OSError:
        raise Unable("readelf is missing (Debian's package binutils)") from None
    if done.returncode:
        raise Unable(f"readelf cannot read {program}")
    return done.stdout


def needs_of(program: Path) -> Needs:
    """What a program wants. One for another processor is refused."""
    if AMD64 not in readelf(program, "--file-header"):
        raise Unable(f"{program} is no program for x86-64")
    libraries = re.findall(r"\(NEEDED\)\s+Shared library: \[(.*?)\]", readelf(program, "--dynamic"))
    versions = re.findall(r"Name: GLIBC_([0-9.]+)", readelf(program, "--version-info"))
    return Needs(tuple(sorted(libraries)), max((number(text) for text in versions), default=(0,)))


def number(version: str) -> Number:
    """A version as numbers, to be compared."""
    return tuple(int(part) for part in version.split("."))
