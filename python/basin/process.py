"""The program: where it is, and how it is run."""

from __future__ import annotations

import contextlib
import fcntl
import os
import shutil
import signal
import subprocess
import sys
import tempfile
import threading
import time as clock
from functools import lru_cache
from typing import IO, Iterator, Sequence, Union

from basin_files.ending import TERMINATED
from basin_files.program import Unable, built
from basin_files.reasons import plain

from .errors import Error, NoProgram, Refused, TimedOut

PathLike = Union[str, "os.PathLike[str]"]
PIPE = 1 << 20  # so that the program and its reader work side by side
TRIM = "MALLOC_TRIM_THRESHOLD_"  # dask's workers have it; the program would take a seventh more time by it
ENDED = (0, 1)  # the statuses with which the program has answered
NO_SUCH_WORDS = 2
A_WHILE = 10  # seconds for which the sources count as unchanged
HOW = (
    "name it by program=.., by BASIN in the environment, or put it on the PATH; in a checkout of the repository"
    " `./basin --build` proves and builds it"
)


def find_program(path: PathLike | None = None) -> str:
    """Returns the program's path: the one that is named, that of BASIN, that of the checkout, or that of the PATH."""
    named = path or os.environ.get("BASIN")
    if named:
        if os.path.isdir(named) or not os.access(named, os.X_OK):
            raise NoProgram(f"there is no program at {plain(os.fspath(named))}: {HOW}")
        return os.path.abspath(named)
    return _found(int(clock.monotonic() / A_WHILE))


@lru_cache(maxsize=1)
def _found(_now: int) -> str:
    """Returns the program of the checkout or of the PATH. A checkout has 2,600 source files, and a search calls often."""
    try:
        return str(built())
    except Unable:
        found = shutil.which("basin")
    if not found:
        raise NoProgram(f"there is no program: {HOW}")
    return os.path.abspath(found)


class Program:
    """The program while it writes to a pipe."""

    def __init__(self, process: subprocess.Popen[bytes], errors: IO[bytes]) -> None:
        assert process.stdout is not None
        self.process, self.output, self.errors = process, process.stdout, errors
        self.is_left, self.late = False, False
        with contextlib.suppress(OSError, AttributeError):  # where the system allows no such pipe
            fcntl.fcntl(self.output, fcntl.F_SETPIPE_SZ, PIPE)

    def readinto(self, room: memoryview, /) -> int:
        """Returns how many bytes were read, 0 at the end: of a program that answered nothing, or died, nobody sees that."""
        count = self.output.readinto(room)  # type: ignore[attr-defined]
        if not count:
            self.judge()
        return int(count)

    def read(self) -> bytes:
        """Returns all that it writes."""
        return self.output.read()

    def leave(self) -> None:
        """Ends it, where all is read that is wanted."""
        self.is_left = True
        self.process.kill()

    def end_late(self) -> None:
        """Ends it, since its time is over."""
        self.late = self.process.poll() is None
        self.process.kill()

    def judge(self) -> None:
        """Waits for its end. Raises `Refused` where it answered nothing, unless it was left, and `TimedOut` if it took too long."""
        status = self.process.wait()
        if self.late and status < 0 and not self.is_left:
            raise TimedOut("the program was ended, since it took longer than its timeout")
        if not self.is_left:
            self.errors.seek(0)
            judge(status, self.errors.read())


@contextlib.contextmanager
def at_work(words: Sequence[str], program: PathLike | None = None, timeout: float | None = None) -> Iterator[Program]:
    """Runs the program while it writes to a pipe. Raises `Refused` at the end if it wrote nothing; ends the program if its reader
    stops, or after `timeout` seconds."""
    path = find_program(program)
    with tempfile.TemporaryFile() as errors:
        try:
            process = subprocess.Popen(
                [path, *words],
                stdin=subprocess.DEVNULL,
                stdout=subprocess.PIPE,
                stderr=errors,
                bufsize=0,
                env={name: value for name, value in os.environ.items() if name != TRIM},
            )
        except OSError as error:
            raise NoProgram(f"cannot run {plain(path)}: {error.strerror}") from None
        with process:
            running = Program(process, errors)
            clock_of = threading.Timer(timeout, running.end_late) if timeout is not None else None
            try:
                if clock_of:
                    clock_of.start()
                yield running
            except BaseException:
                running.leave()
                raise
            finally:
                if clock_of and running.is_left:
                    clock_of.cancel()
        if clock_of:
            clock_of.cancel()
        running.judge()


def answer(
    words: Sequence[str], program: PathLike | None = None, timeout: float | None = None
) -> tuple[int, str]:
    """Returns the status, 0 or 1, and the text that was written. Raises `Refused` with any other status."""
    with at_work(words, program, timeout) as running:
        text = running.read()
    return running.process.returncode, text.decode()


def judge(status: int, errors: bytes) -> None:
    """Raises what a status from 2 on, or a signal, means."""
    if status < 0:
        raise Error(f"the program was ended by signal {-status}")
    if status not in ENDED:
        raise Refused(status, errors.decode("utf-8", "replace").removesuffix("\n"))


@contextlib.contextmanager
def ended_in_order() -> Iterator[None]:
    """While this goes on SIGTERM is an exit, by which programs are ended and files are removed. A caller's own handler
    stays, and outside of the main thread there is none."""
    if threading.current_thread() is not threading.main_thread() or signal.getsignal(signal.SIGTERM) is not signal.SIG_DFL:
        yield
        return
    signal.signal(signal.SIGTERM, _exit)
    try:
        yield
    finally:
        signal.signal(signal.SIGTERM, signal.SIG_DFL)


def _exit(*_: object) -> None:
    """Ends this process. A second signal, as `timeout` sends it, does not break off what is put in order."""
    signal.signal(signal.SIGTERM, signal.SIG_IGN)
    sys.exit(TERMINATED)


def has_command(command: str, files: int, program: PathLike | None = None) -> bool:
    """Returns whether the program knows a command with this number of files, by its message for empty ones."""
    try:
        answer([command, *[os.devnull] * files], program)
    except Refused as refused:
        return refused.status != NO_SUCH_WORDS
    return True
