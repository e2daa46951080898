"""`./basin`: words go to the program as they are, whatever they are and wherever it is called from; a build is made once.

It is tried in a folder of its own, with a program that shows its words, and with a stand-in for the toolchain's `rt`
that notes its words, or makes such a program after a while.
"""

import os
import shutil
import subprocess
import tempfile
from collections.abc import Iterator
from pathlib import Path

PROGRAM = """#!/bin/bash
printf '<%s>' "$@"
"""
RT = """#!/bin/bash
printf '<%s>' "$@" >> "$NOTES"
if [ "$1" = ci ]; then
  sleep 0.5
  mkdir -p crates/basin/out
  cp "$MADE" crates/basin/out/basin
  echo "rt: basin proved"
else
  /bin/sleep "${TAKES:-0}"
  echo "run=ended 0" >&2
fi
"""
ODD = ["`touch pwned`", "$(touch pwned)", "*", "", "a  b", "'", '"; touch pwned #', "x=y", "a\nb", "\x1b[31m", "--", "-1"]


class Place:
    """A repository with nothing but what `./basin` wants, and a folder from which it is called."""

    def __init__(self, folder: Path, script: Path):
        self.top, self.rt, self.here = folder / "a b", folder / "rt", folder / "here"
        self.program = self.top / "crates/basin/out/basin"
        for path in (self.program.parent, self.rt, self.here):
            path.mkdir(parents=True)
        shutil.copy(script, self.top)
        (self.top / "crates.txt").write_text("basin:\n")
        (self.top / "HANDLES").touch()
        self.executable(self.rt / "rt", RT)
        self.executable(folder / "made", PROGRAM)
        self.environment = {**os.environ, "NOTES": str(folder / "notes"), "MADE": str(folder / "made")}
        self.environment["PATH"] = f"{self.rt}:{os.environ['PATH']}"

    def executable(self, path: Path, text: str) -> None:
        """Makes a program of a text."""
        path.write_text(text)
        path.chmod(0o755)

    def built(self) -> None:
        """The program is there."""
        self.executable(self.program, PROGRAM)

    def begun(self, *words: str, by: Path | None = None, **environment: str) -> subprocess.Popen[bytes]:
        """A call of `./basin`, by its own path or another one."""
        return subprocess.Popen(
            [by or self.top / "basin", *words], cwd=self.here, stdin=subprocess.DEVNULL, stdout=subprocess.PIPE,
            stderr=subprocess.PIPE, env={**self.environment, **environment},
        )

    def call(self, *words: str, by: Path | None = None, **environment: str) -> str:
        """What a call writes."""
        output, errors = self.begun(*words, by=by, **environment).communicate()
        return output.decode() + errors.decode()

    def notes(self) -> str:
        """The words with which `rt` was called."""
        path = Path(self.environment["NOTES"])
        return path.read_text() if path.exists() else ""


def shown(words: list[str]) -> str:
    """Words as the program shows them."""
    return "".join(f"<{word}>" for word in words)


def differs(found: str, wanted: str) -> str | None:
    """How a text differs from what it has to be."""
    return None if found == wanted else f"{found!r}, and not {wanted!r}"


def of_launcher(script: Path, basin: str) -> Iterator[tuple[str, str | None]]:
    """All that is promised of `./basin`."""
    for test in (own_words, words_as_they_are, files_of_unproved, unproved_goes_on, one_build, limited_files):
        with tempfile.TemporaryDirectory() as folder:
            place = Place(Path(folder), script)
            for name, difference in test(place, basin):
                made = None if not (place.here / "pwned").exists() else "a word was run"
                yield f"./basin: {name}", difference or made


def own_words(place: Place, _: str) -> Iterator[tuple[str, str | None]]:
    """What it answers itself, built or not; with another word behind them they go to the program."""
    (place.top / "docs").mkdir()
    (place.top / "docs/GUIDE.md").write_text("## First\n1\n## All commands\n2\n## Last\n3\n")
    (place.top / "VERSION").write_text("1.20.3\n")
    for words, wanted in (("help", "## All commands\n2\n"), ("--help", "## All commands\n2\n"), ("--version", "basin 1.20.3\n")):
        yield words, differs(place.call(words), wanted)
    yield "nothing was built", differs(place.notes(), "")
    place.built()
    for word in ("help", "--help", "--version"):
        yield f"{word} and more", differs(place.call(word, "x"), shown([word, "x"]))


def words_as_they_are(place: Place, _: str) -> Iterator[tuple[str, str | None]]:
    """Words through its path, through a link, and with CDPATH."""
    place.built()
    yield "odd words", differs(place.call("run", *ODD), shown(["run", *ODD]))
    link = place.here / "link"
    link.symlink_to(os.path.relpath(place.top / "basin", place.here))
    yield "a link", differs(place.call("x", by=link), "<x>")
    found = subprocess.run(
        ["a b/basin", "x"], cwd=place.top.parent, capture_output=True, check=False,
        env={**place.environment, "CDPATH": str(place.top.parent)},
    )
    yield "with CDPATH", differs((found.stdout + found.stderr).decode(), "<x>")


def files_of_unproved(place: Place, _: str) -> Iterator[tuple[str, str | None]]:
    """The files that --unproved hands over: those of the words, and not such as are called as other words are."""
    for name in ("m $(touch pwned)", "p", "i\n", "e=`touch pwned`", "run", "--flags", "Dam.Outflow", "1", "newest"):
        (place.here / name).touch()
    real = {name: str(place.here.resolve() / name) for name in os.listdir(place.here)}
    edits = "e=`touch pwned`"
    data = ["--data", f"1-m___touch_pwned_={real['m $(touch pwned)']}", "--data", f"2-p={real['p']}"]
    data += ["--data", f"3-i_={real[chr(105) + chr(10)]}"]
    names = ["1-m___touch_pwned_", "2-p", "3-i_"]
    begin = ["try", "--seconds", "600"]
    calls = [
        (["run", "m $(touch pwned)", "p", "i\n", f"--edits={edits}", "--flags"],
         [*begin, *data, "--data", f"4-_touch_pwned_={real[edits]}", "--", "run", *names, "--edits=4-_touch_pwned_", "--flags"]),
        (["why", "m $(touch pwned)", "p", "i\n", "Dam.Outflow", "1"],
         [*begin, *data, "--", "why", *names, "Dam.Outflow", "1"]),
        (["simulate", "m $(touch pwned)", "--order", "newest"],
         [*begin, *data[:2], "--", "simulate", names[0], "--order", "newest"]),
        (["sample", "1"], [*begin, "--", "sample", "1"]),
    ]
    for words, wanted in calls:
        before = len(place.notes())
        place.call("--unproved", *words)
        yield f"--unproved {words[0]}", differs(place.notes()[before:], shown(wanted))


def unproved_goes_on(place: Place, _: str) -> Iterator[tuple[str, str | None]]:
    """That it goes on is told until it ends, and then no more."""
    place.executable(place.rt / "sleep", "#!/bin/sh\nexec /bin/sleep 0.1\n")
    first, *others = place.call("--unproved", "sample", "1", TAKES="1").splitlines()
    yield "--unproved says how long it takes", None if "1 to 5 minutes" in first else first
    ticks = [line for line in others if line.startswith("basin: .. ") and line.endswith(" minutes so far")]
    yield "--unproved goes on", None if ticks and ticks == others else f"{others}"


def one_build(place: Place, _: str) -> Iterator[tuple[str, str | None]]:
    """Of two first uses at once one builds, and both run what it built."""
    calls = [place.begun(word) for word in ("one", "two")]
    said = [call.communicate() for call in calls]
    yield "two first uses answer", differs("".join(output.decode() for output, _ in said), "<one><two>")
    yield "two first uses build once", differs(place.notes(), "<ci>")
    waits = sum(b"builds the program; this one waits" in errors for _, errors in said)
    yield "two first uses: one waits", None if waits == 1 else f"{waits} wait"


def limited_files(place: Place, basin: str) -> Iterator[tuple[str, str | None]]:
    """An output past the limit on the size of files is one that can't be written."""
    place.built()
    shutil.copy(basin, place.program)
    (place.here / "m").write_text(
        'format = 1\nrun = { start = "2024-01-01T00:00", step = "24h", steps = 4096 }\n'
        '[[object]]\nname = "Dam"\nkind = "reservoir"\ninitial_storage = 1000\n'
    )
    (place.here / "i").write_text("slot,step,value\nDam.Inflow,1-4096,100\nDam.Outflow,1-4096,50\n")
    command = 'ulimit -f 1; "$0" simulate m i > output; echo $?'
    done = subprocess.run(
        ["bash", "-c", command, place.top / "basin"], cwd=place.here, env=place.environment, capture_output=True, check=False
    )
    yield "a limit on the size of files", differs((done.stdout + done.stderr).decode(), "4\nbasin: cannot write\n")
