"""Measures what a call takes: seconds of a processor, and the most memory that it held.

The system counts the memory of a process from its parent's on, up to the call that starts the program. So a small shell
starts each program and ends, and this process, which is large, only waits for the program.
"""

import ctypes
import os
from dataclasses import dataclass
from pathlib import Path

SUBREAPER = 36  # PR_SET_CHILD_SUBREAPER: orphans become children of this process
SHELL = "/bin/sh"
START = 'cd "$1" && shift && "$@" <"$GROWTH_INPUT" >stdout 2>stderr &'
LIMIT = 60  # seconds of a processor for one call


@dataclass(frozen=True)
class Usage:
    """What a call took, and its status."""

    seconds: float
    megabytes: float
    status: int


def adopt() -> None:
    """Has this process wait for the programs that its shells leave behind."""
    if ctypes.CDLL(None, use_errno=True).prctl(SUBREAPER, 1, 0, 0, 0):
        raise OSError(ctypes.get_errno(), "prctl")


def usage_of(words: list[str], folder: Path, environment: dict[str, str]) -> Usage:
    """Runs a call in a folder, and returns what it took."""
    given = [SHELL, "-c", f"ulimit -t {LIMIT}; {START}", SHELL, str(folder), *words]
    shell = os.posix_spawn(SHELL, given, {**environment, "GROWTH_INPUT": os.devnull})
    waited = dict(one for one in (waited_for() for _ in range(2)))
    waited.pop(shell)
    (usage,) = waited.values()
    return usage


def waited_for() -> tuple[int, Usage]:
    """Waits for a child, and returns its number and what it took."""
    child, status, usage = os.wait4(-1, 0)
    return child, Usage(usage.ru_utime + usage.ru_stime, usage.ru_maxrss / 1024, os.waitstatus_to_exitcode(status))
