"""Tools that are asked to end: within a few seconds they have, and with them the program that they run."""

import os
import shlex
import signal
import subprocess
import tempfile
from collections.abc import Callable, Iterator
from pathlib import Path
from time import monotonic, sleep

TOP = Path(__file__).resolve().parents[2]
VALLEY = [str(TOP / "examples/valley-rules" / name) for name in ("model.toml", "policy.rpl", "inputs.csv")]
CALLS = {
    "doctor": [VALLEY[0], VALLEY[2], "--policy", VALLEY[1]],
    "why": [*VALLEY, "Lower.Outflow", "3"],
    "report": [*VALLEY, "-o", "report.html"],
    "effect": [*VALLEY],
}
STATUS = {signal.SIGTERM: 143, signal.SIGINT: 130}
LONGEST = 20  # seconds; a busy machine takes longer than one
PATIENCE = 60  # seconds


def of_tools_that_are_ended() -> Iterator[tuple[str, str | None]]:
    """A tool that is ended by SIGTERM or SIGINT ends the program, and leaves no file."""
    for tool, words in CALLS.items():
        for number in STATUS:
            with tempfile.TemporaryDirectory() as folder:
                yield f"ending: {tool} by {number.name}", wrong_with(tool, words, number, Path(folder))


def wrong_with(tool: str, words: list[str], number: signal.Signals, folder: Path) -> str | None:
    """Returns what is wrong with a tool that is ended while the program runs."""
    begun, program, room = folder / "begun", folder / "basin", folder / "room"
    room.mkdir()
    name = shlex.quote(str(begun))
    program.write_text(f"#!/bin/sh\necho $$ > {name}.new && mv {name}.new {name}\nexec sleep 300\n")
    program.chmod(0o755)
    environment = {**os.environ, "BASIN": str(program), "TMPDIR": str(room)}
    with subprocess.Popen(
        [TOP / "tools" / tool, *words], cwd=room, env=environment, stderr=subprocess.DEVNULL, preexec_fn=heed
    ) as running:
        has_begun = until(begun.exists)
        running.send_signal(number)
        asked = monotonic()
        has_ended = until(lambda: running.poll() is not None)
        took = monotonic() - asked
        running.kill()
    left = [file.name for file in room.iterdir()]
    program_number = int(begun.read_text()) if has_begun else 0
    if has_begun and is_at_work(program_number):
        os.kill(program_number, signal.SIGKILL)
        return "the program goes on"
    if not has_begun or not has_ended or took > LONGEST:
        return f"begun {has_begun}, ended {has_ended}, after {took:.1f} seconds"
    return None if running.returncode == STATUS[number] and not left else f"status {running.returncode}, and leaves {left}"


def heed() -> None:
    """Has a program heed SIGINT: what a shell starts in the background ignores it."""
    signal.signal(signal.SIGINT, signal.SIG_DFL)


def until(holds: Callable[[], bool]) -> bool:
    """Waits until something holds, and says whether it does."""
    end = monotonic() + PATIENCE
    while not holds() and monotonic() < end:
        sleep(0.05)
    return bool(holds())


def is_at_work(process: int) -> bool:
    """Says whether a process has not ended; one of which nobody asked yet how it ended has."""
    try:
        return Path(f"/proc/{process}/stat").read_text().rpartition(")")[2].split()[0] != "Z"
    except OSError:
        return False
