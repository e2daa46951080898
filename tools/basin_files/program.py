"""The program, and what each tool does on its own: its words, its one line where it can't do something."""

import argparse
import io
import os
import signal
import subprocess
import sys
from collections.abc import Callable, Iterator
from dataclasses import dataclass, field
from pathlib import Path
from time import monotonic
from typing import Any, NoReturn

from .ending import end_children, terminated
from .judging import read_model
from .model import Model
from .reasons import LONG, plain

TOP = Path(__file__).resolve().parents[2]
HOW_BUILT = (
    "`./basin --build` proves and builds it, which takes about an hour on a fast processor and reports its"
    " progress; BASIN=PATH before the tool names another program"
)
RELEASED = "program/basin"  # where a release has the program, and the repository nothing
CANNOT = 2  # the status of a tool that can't do what it was asked
INTERRUPTED = 130
PATIENCE = 2  # seconds without a word


class Unable(Exception):
    """A tool can't do what it was asked, and why, in one line."""


class Held(io.TextIOWrapper):
    """The output of a tool, which goes to a file once the tool has ended well."""

    def __init__(self, path: str) -> None:
        self.held = io.BytesIO()
        super().__init__(self.held, encoding=sys.stdout.encoding, errors=sys.stdout.errors)
        self.path = path

    def write_file(self) -> None:
        """Writes the file."""
        self.flush()
        write_bytes(self.path, self.held.getvalue())


class ToFile(argparse.Action):
    """Has the output of a tool go to a file."""

    def __call__(self, words: argparse.ArgumentParser, found: argparse.Namespace, path: object, option: str | None = None) -> None:
        if isinstance(sys.stdout, Held):
            raise Unable(f"{option} stands twice")
        sys.stdout = Held(str(path))


@dataclass(frozen=True)
class Common:
    """An option that several tools have: its words, words that it had before and keeps, and how it is read."""

    words: tuple[str, ...]
    how: dict[str, Any]  # the words of `add_argument`, each of which has its own type
    kept: tuple[str, ...] = field(default=())


COMMON = {
    "batch": Common(("--batch",), {"type": int, "metavar": "N"}, ("--batches", "--section")),
    "batches": Common(("--batches",), {"type": int, "nargs": "+", "metavar": "N"}, ("--batch", "--section")),
    "policy": Common(("--policy",), {"metavar": "FILE"}),
    "edits": Common(("--edits",), {"metavar": "FILE"}),
    "unit": Common(("--unit",), {"action": "append", "default": [], "metavar": "UNIT"}),
    "first": Common(("--from",), {"metavar": "DATE", "help": "only timesteps that end after this date: 2021-06-01, 2021-06"}),
    "last": Common(("--to",), {"metavar": "DATE", "help": "only timesteps that begin before this date"}),
    "csv": Common(("--csv",), {"action": "store_true", "help": "write fields with commas between them, for a spreadsheet"}),
    "output": Common(("-o", "--output"), {"metavar": "FILE", "help": "write the output to this file"}),
    "held": Common(("-o", "--output"), {"action": ToFile, "metavar": "FILE", "help": "write the output to this file"}),
}


class Words(argparse.ArgumentParser):
    """The words of a tool. What is wrong with them is one line, with status 2."""

    def error(self, message: str) -> NoReturn:
        raise Unable(f"{message} (--help lists the arguments)")

    def common(self, name: str, **more: Any) -> None:
        """Adds an option of COMMON, which is read under this name, and its older words, which aren't told."""
        option = COMMON[name]
        how: dict[str, Any] = {**option.how, **more, "dest": name}
        self.add_argument(*option.words, **how)
        if option.kept:
            untold: dict[str, Any] = {**how, "help": argparse.SUPPRESS, "default": argparse.SUPPRESS}
            self.add_argument(*option.kept, **untold)

    def policy(self) -> None:
        """Adds the policy: behind the model, or by --policy anywhere."""
        given = sys.argv[1 : sys.argv.index("--")] if "--" in sys.argv else sys.argv[1:]
        heads = (word.partition("=")[0] for word in given)
        if any(head.startswith("--p") and "--policy".startswith(head) for head in heads):
            self.common("policy", required=True, help="the policy")
        else:
            self.add_argument("policy", metavar="POLICY")
            self.common("policy", default=argparse.SUPPRESS, help="the policy, in place of the argument after MODEL")


class Progress:
    """Tells on the error stream how far something long is: first after two seconds, and then each two seconds."""

    def __init__(self, what: str) -> None:
        self.what, self.due = what, monotonic() + PATIENCE

    def at(self, done: int, whole: int, of: str) -> None:
        """So many of the whole are done."""
        self.tell(f"{done:,} of {whole:,} {of}")

    def tell(self, how_far: str) -> None:
        """Tells it, unless that was done a moment ago."""
        if monotonic() >= self.due:
            print(f"{Path(sys.argv[0]).name}: .. {self.what}, {how_far}", file=sys.stderr, flush=True)
            self.due = monotonic() + PATIENCE


def tool(main: Callable[[], int]) -> None:
    """Runs a tool's `main`, which answers its status; what it can't do is one line on the error stream."""
    name = Path(sys.argv[0]).name
    if signal.getsignal(signal.SIGTERM) is signal.SIG_DFL:
        signal.signal(signal.SIGTERM, terminated)
    try:
        status = main()
        if isinstance(sys.stdout, Held) and status != CANNOT:
            sys.stdout.write_file()
        sys.stdout.flush()
    except Unable as unable:
        print(f"{name}: {plain(str(unable), LONG)}", file=sys.stderr)
        status = CANNOT
    except KeyboardInterrupt:
        end_children()
        status = INTERRUPTED
    except BrokenPipeError:
        os.dup2(os.open(os.devnull, os.O_WRONLY), sys.stdout.fileno())
        status = CANNOT
    sys.exit(status)


def bytes_of(path: str | Path) -> bytes:
    """The bytes of a file, or of the standard input for `-`."""
    try:
        return sys.stdin.buffer.read() if path == "-" else Path(path).read_bytes()
    except OSError as error:
        raise Unable(f"cannot read {plain(str(path))}: {error.strerror}") from None


def write_bytes(path: str | None, content: bytes) -> None:
    """Writes bytes to a file, or to the output where none is told."""
    try:
        Path(path).write_bytes(content) if path else sys.stdout.buffer.write(content)
    except BrokenPipeError:
        raise
    except OSError as error:
        raise Unable(f"cannot write {plain(path or 'the output')}: {error.strerror}") from None


def good_model(path: str | Path) -> Model:
    """The model of a file with which nothing is wrong, as these tools read it."""
    try:
        model = read_model(bytes_of(path))
    except ValueError as error:
        raise Unable(
            f"{plain(str(path))} is not TOML: {plain(str(error))} (for more: tools/doctor {plain(str(path), LONG)})"
        ) from None
    if model.findings:
        finding = model.findings[0]
        raise Unable(
            f"{plain(str(path))} line {finding.line}: {finding.says} (for more: tools/doctor"
            f" {plain(str(path), LONG)})"
        )
    return model


def built() -> str | Path:
    """The program: the one that BASIN names, a release's, or this repository's. Nothing is built, since that takes long."""
    if named := os.environ.get("BASIN"):
        return named
    if (released := TOP / RELEASED).exists():
        return released
    program = TOP / "crates/basin/out/basin"
    if not program.exists():
        raise Unable(f"the program is not built. {HOW_BUILT}")
    if any(path.stat().st_mtime > program.stat().st_mtime for path in sources()):
        raise Unable(f"the program is older than its sources. {HOW_BUILT}")
    return program


def sources() -> Iterator[Path]:
    """The files that the program is made of."""
    yield TOP / "crates.txt"
    for ending in ("*.rt", "*.antt"):
        yield from (path for path in (TOP / "crates").rglob(ending) if "out" not in path.parts)


def basin(*words: str | Path) -> tuple[int, str, str]:
    """Runs the program: its status, its output and its error line."""
    program = built()
    try:
        running = subprocess.Popen(
            [program, *words], stdin=subprocess.DEVNULL, stdout=subprocess.PIPE, stderr=subprocess.PIPE
        )
    except OSError as error:
        raise Unable(f"cannot run {program}: {error.strerror}") from None
    output, errors = waited_for(running, f"basin {words[0]} is still running")
    return running.returncode, output.decode("utf-8", "replace"), errors.decode("utf-8", "replace").removesuffix("\n")


def waited_for(running: subprocess.Popen[bytes], what: str) -> tuple[bytes, bytes]:
    """What a program writes, up to its end; that it takes long is told."""
    progress, began = Progress(what), monotonic()
    while True:
        try:
            return running.communicate(timeout=PATIENCE)
        except subprocess.TimeoutExpired:
            progress.tell(f"{monotonic() - began:.0f} seconds so far")


def answered(*words: str | Path) -> str:
    """What the program writes for these words, where it doesn't refuse them."""
    status, output, refusal = basin(*words)
    if status > 1:
        raise Unable(refusal)
    return output
