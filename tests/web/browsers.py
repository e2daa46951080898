"""The program for browsers in Chromium, Firefox and WebKitGTK, and the page basin.html in Chromium.

browsers.py ENGINE FOLDER.. [--pictures FOLDER]: ENGINE is what tools/web made, each other folder has calls that were kept. A page that has
the module, some of the calls and a script in it makes them again, and posts what it found to a server on this machine. Without a screen.
"""

from __future__ import annotations

import argparse
import base64
import contextlib
import json
import re
import subprocess
import sys
import tempfile
import threading
from collections.abc import Callable, Iterator
from http.server import BaseHTTPRequestHandler, HTTPServer
from pathlib import Path

HERE = Path(__file__).resolve().parent
sys.path.insert(0, str(HERE.parent))
sys.path.insert(0, str(HERE))

from basin_page import PageTrial  # noqa: E402
from report.browser import Browser  # noqa: E402

LONGEST = 100_000  # bytes of a call
SHARE = 8  # of so many calls one
SAMPLE = 100
SECONDS = 120
SCRIPT = """
const decode = text => Uint8Array.from(atob(text), letter => letter.charCodeAt(0));
(async () => {
  const basin = await load(decode(MODULE));
  const found = CALLS.map(call => difference(basin, decode(call))).filter(Boolean);
  await fetch('/found', { method: 'POST', body: JSON.stringify({ calls: CALLS.length, found }) });
})().catch(error => fetch('/found', { method: 'POST', body: JSON.stringify({ calls: 0, found: [String(error)] }) }));
"""


def plain(script: Path) -> str:
    """A module as a plain script."""
    return re.sub(r"^export ", "", script.read_text(encoding="utf-8"), flags=re.MULTILINE)


def page_of(engine: Path, calls: list[bytes]) -> bytes:
    """A page that makes these calls."""
    module = base64.b64encode((engine / "basin.wasm").read_bytes()).decode()
    listed = json.dumps([base64.b64encode(call).decode() for call in calls])
    scripts = plain(engine / "basin.js") + plain(HERE / "calls.js") + SCRIPT
    return f'<!doctype html><meta charset="utf-8"><script>const MODULE = "{module}"; const CALLS = {listed};{scripts}</script>'.encode()


@contextlib.contextmanager
def served(page: bytes) -> Iterator[tuple[str, Callable[[], dict[str, object]]]]:
    """The address of a page, and what it has posted."""
    posted: list[dict[str, object]] = []
    is_there = threading.Event()

    class Served(BaseHTTPRequestHandler):
        def do_GET(self) -> None:  # noqa: N802
            is_page = self.path == "/"
            self.send_response(200 if is_page else 404)
            self.send_header("Content-Type", "text/html")
            self.end_headers()
            self.wfile.write(page if is_page else b"")

        def do_POST(self) -> None:  # noqa: N802
            posted.append(json.loads(self.rfile.read(int(self.headers["Content-Length"]))))
            self.send_response(204)
            self.end_headers()
            is_there.set()

        def log_message(self, *_: object) -> None:
            """Says nothing."""

    def found() -> dict[str, object]:
        return posted[0] if is_there.wait(SECONDS) else {"calls": 0, "found": ["nothing was posted"]}

    server = HTTPServer(("127.0.0.1", 0), Served)
    threading.Thread(target=server.serve_forever, daemon=True).start()
    try:
        yield f"http://127.0.0.1:{server.server_port}/", found
    finally:
        server.shutdown()


def chromium(address: str, found: Callable[[], dict[str, object]]) -> dict[str, object]:
    """What the page finds in Chromium."""
    with Browser() as browser:
        browser.driver.get(address)
        return found()


def started(words: list[str], found: Callable[[], dict[str, object]]) -> dict[str, object]:
    """What the page finds in a browser that these words start, and which is then ended."""
    quiet = subprocess.DEVNULL
    with subprocess.Popen(words, stdin=quiet, stdout=quiet, stderr=quiet) as browser:
        try:
            return found()
        finally:
            browser.terminate()


def firefox(address: str, found: Callable[[], dict[str, object]]) -> dict[str, object]:
    """What the page finds in Firefox."""
    with tempfile.TemporaryDirectory(ignore_cleanup_errors=True) as profile:
        return started(["firefox-esr", "--headless", "--no-remote", "--profile", profile, address], found)


def webkit(address: str, found: Callable[[], dict[str, object]]) -> dict[str, object]:
    """What the page finds in WebKitGTK, which needs a screen."""
    return started(["xvfb-run", "-a", "/usr/bin/python3", str(HERE / "webkit.py"), address, str(SECONDS)], found)


def calls_in(folders: list[Path]) -> list[bytes]:
    """The calls that were kept and aren't too long, in the order of their names."""
    files = [file for folder in folders for file in sorted(folder.glob("*-*")) if file.stat().st_size < LONGEST]
    return [file.read_bytes() for file in files]


def main() -> int:
    """Tries all."""
    parser = argparse.ArgumentParser(description=__doc__)
    parser.add_argument("engine", type=Path)
    parser.add_argument("folders", type=Path, nargs="+")
    parser.add_argument("--pictures", type=Path)
    asked = parser.parse_args()
    calls = calls_in(asked.folders)
    share = calls[::SHARE]
    sample = calls[:: max(1, len(calls) // SAMPLE)]
    failed = 0
    for name, way, some in (("Chromium", chromium, share), ("Firefox", firefox, sample), ("WebKitGTK", webkit, sample)):
        with served(page_of(asked.engine, some)) as (address, found):
            said = way(address, found)
        differ = said["found"]
        assert isinstance(differ, list)
        print(f"{name}: {said['calls']} calls, {len(differ)} differ", *differ[:3], sep="\n  ")
        failed += int(said["calls"] != len(some) or not some or bool(differ))
    failed += PageTrial((asked.engine / "basin.html").resolve(), asked.pictures).failed()
    return int(bool(failed))


if __name__ == "__main__":
    sys.exit(main())
