"""How processes end: with all that they started."""

import contextlib
import os
import signal
import sys
from pathlib import Path

TERMINATED = 128 + signal.SIGTERM


def below(processes: set[int]) -> set[int]:
    """Returns these processes, and all that were started by one of them."""
    parents: dict[int, int] = {}
    for path in Path("/proc").glob("[0-9]*/stat"):
        with contextlib.suppress(OSError):  # one that has ended
            parents[int(path.parent.name)] = int(path.read_bytes().rpartition(b")")[2].split()[1])
    found, more = set(processes), set(processes)
    while more:
        more = {process for process, parent in parents.items() if parent in more} - found
        found |= more
    return found


def signalled(processes: set[int], number: signal.Signals) -> None:
    """Sends a signal to processes, some of which may have ended."""
    for process in processes:
        with contextlib.suppress(ProcessLookupError):
            os.kill(process, number)


def kill_below(processes: set[int]) -> None:
    """Ends processes and all that they started. They are stopped before, so that none starts another meanwhile."""
    stopped: set[int] = set()
    while more := below(processes) - stopped:
        signalled(more, signal.SIGSTOP)
        stopped |= more
    signalled(stopped, signal.SIGKILL)


def end_children() -> None:
    """Ends all that this process started."""
    kill_below(below({os.getpid()}) - {os.getpid()})


def terminated(*_: object) -> None:
    """Ends this process on SIGTERM, first what it started, then it, in order. A second signal breaks nothing off."""
    signal.signal(signal.SIGTERM, signal.SIG_IGN)
    end_children()
    sys.exit(TERMINATED)
