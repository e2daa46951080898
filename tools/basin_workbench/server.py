"""The server of the page: on this computer alone, for one page of its own, by one key."""

import hmac
import json
import secrets
import sys
from http.server import BaseHTTPRequestHandler, ThreadingHTTPServer
from pathlib import Path
from threading import Thread
from typing import Any

from basin_files.program import Unable

from . import modelling, running
from .desk import Desk, Refused

HERE = Path(__file__).resolve().parent
REPORT = HERE.parent / "basin_report"
ADDRESS = "127.0.0.1"
LONGEST = 80_000_000  # bytes of a request: three files and what JSON makes of them
TYPES = {".html": "text/html", ".css": "text/css", ".js": "text/javascript"}
SHARED = ("charts.js", "why.js")  # the report's own scripts, as they stand
PAGES = {path.name: path for path in (HERE / "page").iterdir()} | {name: REPORT / name for name in SHARED}
HEADERS = {
    "Content-Security-Policy": "default-src 'none'; script-src 'self'; style-src 'self'; style-src-attr 'unsafe-inline'; img-src 'self' data:;"
    " connect-src 'self'; base-uri 'none'; form-action 'none'; frame-ancestors 'none'",
    "X-Content-Type-Options": "nosniff",
    "Referrer-Policy": "no-referrer",
    "Cross-Origin-Resource-Policy": "same-origin",
    "Cross-Origin-Opener-Policy": "same-origin",
    "Cache-Control": "no-store",
}


class Workbench(ThreadingHTTPServer):
    """The server, with the files that are worked on."""

    daemon_threads = True

    def __init__(self, desk: Desk, port: int = 0):
        super().__init__((ADDRESS, port), Handler)
        self.desk, self.key, self.runner = desk, secrets.token_urlsafe(32), running.Runner()
        self.host = f"{ADDRESS}:{self.server_address[1]}"

    @property
    def address(self) -> str:
        """Where the page is."""
        return f"http://{self.host}/{self.key}/"

    def handle_error(self, request: object, address: object) -> None:
        """Tells nothing of a browser that went away, as it does where something newer is asked for."""
        if not isinstance(sys.exception(), ConnectionError):
            super().handle_error(request, address)

    def serve(self) -> None:
        """Serves until it is interrupted."""
        Thread(target=running.warmed, daemon=True).start()
        try:
            self.serve_forever()
        except KeyboardInterrupt:
            pass
        finally:
            self.runner.end()


class Handler(BaseHTTPRequestHandler):
    """A request: one with the key, of the page's own."""

    server: Workbench
    protocol_version = "HTTP/1.1"
    server_version = sys_version = "workbench"
    timeout = 60

    def log_message(self, *_: object) -> None:
        """Tells nothing: an address has the key in it."""

    def asked(self) -> str | None:
        """The path behind the key, where the request is one of the page's own."""
        _, key, *rest = self.path.split("/", 2) + ["", ""]
        origin, site = self.headers.get("Origin"), self.headers.get("Sec-Fetch-Site", "none")
        is_mine = (
            self.headers.get("Host") == self.server.host
            and origin in (None, f"http://{self.server.host}")
            and site in ("same-origin", "none")
            and hmac.compare_digest(key.encode(), self.server.key.encode())
        )
        return rest[0] if is_mine else None

    def sent(self, status: int, kind: str, content: bytes, more: dict[str, str] | None = None) -> None:
        """Sends an answer."""
        self.send_response(status)
        for name, value in {**HEADERS, "Content-Type": kind, "Content-Length": str(len(content)), **(more or {})}.items():
            self.send_header(name, value)
        self.end_headers()
        if self.command != "HEAD":
            self.wfile.write(content)

    def sent_json(self, status: int, value: Any) -> None:
        """Sends a value."""
        self.sent(status, "application/json", json.dumps(value, separators=(",", ":")).encode())

    def refused(self, status: int) -> None:
        """Refuses, without a word more."""
        self.close_connection = True
        self.sent(status, "text/plain", b"refused\n", {"Connection": "close"})

    def do_GET(self) -> None:  # noqa: N802
        """A file of the page."""
        name = self.asked()
        if name is None:
            self.refused(403)
        elif (page := PAGES.get(name or "index.html")) is None:
            self.refused(404)
        else:
            self.sent(200, f"{TYPES[page.suffix]}; charset=utf-8", page.read_bytes())

    def do_POST(self) -> None:  # noqa: N802
        """Something that the page asks for."""
        name = self.asked()
        length = self.headers.get("Content-Length", "")
        is_json = self.headers.get("Content-Type") == "application/json" and self.headers.get("Origin")
        if name is None or not is_json:
            self.refused(403)
            return
        if not length.isdigit() or int(length) > LONGEST:
            self.refused(413)
            return
        answer = ANSWERS.get(name)
        if not answer:
            self.refused(404)
            return
        try:
            asked = json.loads(self.rfile.read(int(length)))
            answer(self, self.server, asked)
        except running.Ended:
            self.sent_json(409, {"sooner": True})
        except Refused as refused:
            self.sent_json(422, {"which": refused.which, "says": str(refused)})
        except modelling.Wrong as wrong:
            self.sent_json(422, {"which": "model", "says": str(wrong)})
        except (Unable, OSError) as error:
            self.sent_json(500, {"says": str(error)})
        except (KeyError, TypeError, ValueError, AttributeError) as error:
            self.sent_json(400, {"says": f"the request is not understood: {type(error).__name__} {error}"})


def texts_of(server: Workbench, asked: dict) -> running.Texts:
    """The texts of a request: of each part of the desk one."""
    texts = asked["texts"]
    if set(texts) != set(server.desk.parts) or not all(isinstance(text, str) for text in texts.values()):
        raise ValueError("texts")
    return running.Texts(texts["model"], texts.get("policy"), texts["inputs"])


def opened(handler: Handler, server: Workbench, asked: dict) -> None:
    """What was opened."""
    handler.sent_json(200, {**server.desk.opened(), "kinds": running.kinds()})


def run(handler: Handler, server: Workbench, asked: dict) -> None:
    """Runs texts. The answer has a line of JSON, and then what the program wrote. What is run is kept as a draft."""
    texts = texts_of(server, asked)
    keep(server, asked)
    told, output = running.ran(server.runner, texts)
    if running.good(texts.model):
        told |= running.rules_of(texts.policy, texts.model)
        if asked.get("shape"):
            told["shape"] = running.shape_of(texts.model)
    handler.sent(200, "text/plain; charset=utf-8", json.dumps(told, separators=(",", ":")).encode() + b"\n" + output)


def check(handler: Handler, server: Workbench, asked: dict) -> None:
    """Judges rules as they are typed."""
    texts = texts_of(server, asked)
    keep(server, asked)
    handler.sent_json(200, running.checked(server.runner, texts))


def remarks(handler: Handler, server: Workbench, asked: dict) -> None:
    """What to look at in rules that are accepted."""
    handler.sent_json(200, {"remarks": server.runner.apart("remarks", running.looked_at, texts_of(server, asked))})


def keep(server: Workbench, asked: dict) -> None:
    """Keeps the texts of a request as a draft, where it says of which moment they are."""
    if asked.get("keep"):
        server.desk.keep(asked["texts"], int(asked["keep"]))


def drawn(handler: Handler, server: Workbench, asked: dict) -> None:
    """The map."""
    handler.sent_json(200, {"svg": running.map_of(asked["model"]) if running.good(asked["model"]) else ""})


def why(handler: Handler, server: Workbench, asked: dict) -> None:
    """Why the cells of a timestep hold what they hold."""
    handler.sent(200, "application/json", running.why(server.runner, texts_of(server, asked), int(asked["step"])).encode())


def doctor(handler: Handler, server: Workbench, asked: dict) -> None:
    """What the doctor says."""
    handler.sent_json(200, {"lines": server.runner.apart("doctor", running.doctored, texts_of(server, asked))})


def effects(handler: Handler, server: Workbench, asked: dict) -> None:
    """What became of what rules wanted."""
    handler.sent_json(200, server.runner.apart("effects", running.effects, texts_of(server, asked)))


def reran(handler: Handler, server: Workbench, asked: dict) -> None:
    """Which timesteps a change touches."""
    handler.sent_json(200, running.reran(server.runner, texts_of(server, asked), str(asked["edits"])))


def changed(handler: Handler, server: Workbench, asked: dict) -> None:
    """A change of the model: its text after it, and those of rules and inputs where a name changed."""
    texts_of(server, asked)
    handler.sent_json(200, modelling.changed(asked["texts"], asked["change"]))


def save(handler: Handler, server: Workbench, asked: dict) -> None:
    """Saves."""
    texts_of(server, asked)
    handler.sent_json(200, server.desk.save(asked["texts"]))


def reread(handler: Handler, server: Workbench, asked: dict) -> None:
    """Reads the files again: what is saved later takes their place."""
    server.desk.reread()
    handler.sent_json(200, server.desk.opened())


def forget(handler: Handler, server: Workbench, asked: dict) -> None:
    """Forgets the draft."""
    server.desk.forget()
    handler.sent_json(200, {})


def take_up(handler: Handler, server: Workbench, asked: dict) -> None:
    """The draft is taken up: later ones take its place."""
    server.desk.is_found = False
    handler.sent_json(200, {})


ANSWERS = {
    "open": opened,
    "run": run,
    "check": check,
    "remarks": remarks,
    "map": drawn,
    "why": why,
    "doctor": doctor,
    "effects": effects,
    "reran": reran,
    "change": changed,
    "save": save,
    "reread": reread,
    "forget": forget,
    "take": take_up,
}
