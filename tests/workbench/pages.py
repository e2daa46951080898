"""The page of tools/workbench, tried in a browser: see `run` in this folder."""

import http.client
import json
import os
import re
import shutil
import signal
import subprocess
import sys
import tempfile
import time
from collections.abc import Iterator
from pathlib import Path

TOP = Path(__file__).resolve().parents[2]
BUILT = TOP / "crates/basin/out/basin"
sys.path[:0] = [str(TOP / "tests/report"), str(TOP / "tools")]

from browser import Browser  # noqa: E402
from selenium.webdriver.common.keys import Keys  # noqa: E402

Outcome = tuple[str, str | None]  # what was tried, and how it differs: nothing where it doesn't
PATIENCE = 60  # seconds, on a machine with other loads


class Bench:
    """A workbench on a copy of an example."""

    def __init__(self, folder: Path, program: str):
        self.folder, self.program = folder, program
        self.files = [folder / name for name in ("model.toml", "policy.rpl", "inputs.csv") if (folder / name).exists()]
        self.start()

    def start(self) -> None:
        """Starts it."""
        environment = {**os.environ, "BASIN": self.program, "PYTHONUNBUFFERED": "1"}
        words = [sys.executable, TOP / "tools/workbench", *self.files]
        # In the background of a shell the signal that ends it would be ignored.
        heeds = signal.signal(signal.SIGINT, signal.default_int_handler)
        self.running = subprocess.Popen(words, stdout=subprocess.PIPE, text=True, env=environment)
        signal.signal(signal.SIGINT, heeds)
        self.address = self.running.stdout.readline().split(" at ")[1].strip()
        self.host, self.key = re.fullmatch(r"http://([0-9.:]+)/([^/]+)/", self.address).groups()

    def end(self, how: int = signal.SIGINT) -> None:
        """Ends it."""
        self.running.send_signal(how)
        self.running.wait(30)
        self.running.stdout.close()

    def asked(self, method: str, path: str, body: bytes = b"", **headers: str) -> http.client.HTTPResponse:
        """What it answers to a request."""
        connection = http.client.HTTPConnection(self.host, timeout=30)
        connection.putrequest(method, path, skip_host=True)
        for name, value in {"Host": self.host, "Content-Length": str(len(body)), **headers}.items():
            connection.putheader(name.replace("_", "-"), value)
        connection.endheaders(body)
        return connection.getresponse()

    def table(self) -> str:
        """What the program writes of the files as they are."""
        words = ["run" if len(self.files) == 3 else "simulate", *self.files]
        return subprocess.run([self.program, *words], capture_output=True, text=True, check=False).stdout


def waited(browser: Browser, script: str) -> object:
    """What a script answers, once that is something."""
    end = time.monotonic() + PATIENCE
    while not (value := browser.run(f"return Boolean({script})")) and time.monotonic() < end:
        time.sleep(0.03)
    return value


def runs(browser: Browser) -> int:
    """How many runs were shown."""
    return browser.run("return window.lastTook ? window.lastTook.count : 0")


def after(browser: Browser, act, is_refused: bool = False) -> object:
    """Acts, and waits for the run that follows."""
    count = runs(browser)
    act()
    return waited(browser, f"window.lastTook.count > {count}" if not is_refused else "document.querySelector('#ending').className === 'fault'")


def press(browser: Browser, *keys: str) -> None:
    """Presses keys, one after another."""
    for key in keys:
        browser.driver.switch_to.active_element.send_keys(key)


def click(browser: Browser, selector: str, text: str = "") -> None:
    """Clicks the first of a selector that has a text in it."""
    node = next(one for one in browser.all(selector) if text in one.get_property("textContent"))
    browser.driver.execute_script("arguments[0].click()", node)


def choose(browser: Browser, name: str) -> None:
    """Chooses an object by its name."""
    browser.choose("search", name)
    waited(browser, f"document.querySelector('#chosen').textContent.startsWith({json.dumps(name)})")


def kept_table(browser: Browser) -> str:
    """The table of the run that is shown, as the program writes one."""
    return browser.run(
        "const r = D.runs[0]; const rows = [['step', 'stamp', ...r.slots].join(',')];"
        "for (let at = 0; at < r.closed; at += 1) rows.push([at + 1, D.stamps[at], ...r.slots.map((s) => r.values.get(s)[at])].join(','));"
        "return `# batch 0 ${r.ending}\\n${rows.join('\\n')}\\n`"
    )


def put(browser: Browser, step: int, column: int, text: str) -> None:
    """Writes a text into a cell of the grid of inputs, by keys."""
    browser.run("document.querySelector('#grid .sheet').focus()")
    press(browser, Keys.CONTROL + Keys.HOME)
    for _ in range(step - 1):
        press(browser, Keys.ARROW_DOWN)
    for _ in range(column):
        press(browser, Keys.ARROW_RIGHT)
    press(browser, Keys.F2)
    press(browser, Keys.CONTROL + "a")
    press(browser, text + Keys.ENTER)


def pasted(browser: Browser, text: str) -> None:
    """Pastes a text into the grid of inputs."""
    browser.run(
        "const s = document.querySelector('#grid .sheet'), d = new DataTransfer(); s.focus(); d.setData('text/plain', "
        f"{json.dumps(text)}); s.dispatchEvent(new ClipboardEvent('paste', {{ clipboardData: d, bubbles: true, cancelable: true }}))"
    )


# ---- what is tried


def of_requests(bench: Bench) -> Iterator[Outcome]:
    """Only the page's own requests are answered."""
    path, origin = f"/{bench.key}/", f"http://{bench.host}"
    texts = {name: file.read_text() for name, file in zip(("model", "policy", "inputs"), bench.files)}
    body = json.dumps({"texts": texts}).encode()
    json_type = {"Content_Type": "application/json"}
    for name, status, words in (
        ("the page", 200, ("GET", path)),
        ("no key", 403, ("GET", "/")),
        ("another key", 403, ("GET", f"/{'x' * len(bench.key)}/")),
        ("another file", 404, ("GET", f"{path}../desk.py")),
        ("another file, spelt otherwise", 404, ("GET", f"{path}%2e%2e/desk.py")),
        ("POST without an origin", 403, ("POST", f"{path}open", b"{}")),
    ):
        answer = bench.asked(*words, **(json_type if words[0] == "POST" else {}))
        yield f"requests: {name}", None if answer.status == status else f"status {answer.status}"
    for name, status, headers in (
        ("another host", 403, {"Host": "evil.example", "Origin": origin, **json_type}),
        ("localhost", 403, {"Host": bench.host.replace("127.0.0.1", "localhost"), "Origin": origin, **json_type}),
        ("another origin", 403, {"Origin": "http://evil.example", **json_type}),
        ("the origin null", 403, {"Origin": "null", **json_type}),
        ("another site", 403, {"Origin": origin, "Sec_Fetch_Site": "cross-site", **json_type}),
        ("a form", 403, {"Origin": origin, "Content_Type": "text/plain"}),
        ("its own", 200, {"Origin": origin, **json_type}),
    ):
        answer = bench.asked("POST", f"{path}run", body, **headers)
        yield f"requests: {name}", None if answer.status == status else f"status {answer.status}"
    own = {"Origin": origin, **json_type}
    for name, status, words in (
        ("no JSON", 400, ("POST", f"{path}run", b"{")),
        ("no texts", 400, ("POST", f"{path}save", b"{}")),
        ("a part more", 400, ("POST", f"{path}save", json.dumps({"texts": {**texts, "../x": ""}}).encode())),
        ("no such act", 404, ("POST", f"{path}nothing", b"{}")),
    ):
        answer = bench.asked(*words, **own)
        yield f"requests: {name}", None if answer.status == status else f"status {answer.status}"
    policy = bench.asked("GET", path).getheader("Content-Security-Policy") or ""
    yield "requests: nothing from elsewhere", None if "default-src 'none'" in policy and "http" not in policy else policy
    second = subprocess.run([sys.executable, TOP / "tools/workbench", *bench.files], capture_output=True, text=True, check=False, env={**os.environ, "BASIN": bench.program})
    yield "a second one", None if second.returncode == 2 and "another workbench" in second.stderr else f"{second.returncode} {second.stderr}"


def of_looking(browser: Browser, bench: Bench) -> Iterator[Outcome]:
    """The table is the program's; objects are chosen on the map; a value is asked why."""
    yield "the table", None if kept_table(browser) == bench.table() else "differs"
    waited(browser, "document.querySelector('#map svg')")
    for node in browser.all("#map g.node"):
        name = node.get_attribute("aria-label").split(",")[0]
        browser.driver.execute_script("arguments[0].dispatchEvent(new MouseEvent('click', { bubbles: true }))", node)
        told = browser.text("#chosen")
        yield f"map: {name}", None if told.startswith(f"{name} ") else told
    browser.run("document.querySelector('#map g.chosen').focus()")
    press(browser, Keys.ARROW_UP)
    yield "map: arrows", None if not browser.text("#chosen").startswith(f"{name} ") else "stay"
    browser.run("location.hash = 'slot=Lower.Outflow&step=140'")
    told = browser.said("#why", "took the place of 400", PATIENCE)
    yield "why", None if "rule 5" in told and "set 400" in told and "Lower.Storage 139" in told else told[:200]


def of_inputs(browser: Browser, bench: Bench) -> Iterator[Outcome]:
    """Cells are changed by keys and pasted; what isn't accepted is told by cell; all is undone."""
    before = browser.run("return D.runs[0].values.get('Upper.Storage').join()")
    choose(browser, "Upper")
    browser.one("#tab-inputs").click()
    after(browser, lambda: put(browser, 3, 0, "1234"))
    row = browser.run("return D.runs[0].values.get('Upper.Inflow').slice(0, 5).join()")
    yield "a cell", None if row == "300,300,1234,300,300" else row
    yield "differences", None if browser.run("return D.differs.get('Upper.Inflow').cells") == 1 else "other ones"
    yield "a title", None if browser.driver.title.startswith("• ") else browser.driver.title
    after(browser, lambda: put(browser, 5, 0, "0.01 m3/s"))
    yield "a unit", None if browser.run("return D.runs[0].values.get('Upper.Inflow')[4]") == "864" else "not converted"
    count = runs(browser)
    put(browser, 6, 0, "abc")
    yield "no number", None if "abc isn't a number" in browser.text("#wrongcells") and "timestep 6" in browser.text("#wrongcells") else browser.text("#wrongcells")
    put(browser, 7, 0, "-5")
    yield "out of bounds", None if "its bounds are" in browser.text("#wrongcells") else browser.text("#wrongcells")
    time.sleep(0.3)
    yield "no run of what isn't accepted", None if runs(browser) == count else "it is run"
    put(browser, 6, 0, "300")
    put(browser, 7, 0, "300")
    yield "mended", None if not browser.text("#wrongcells") else browser.text("#wrongcells")
    browser.run("document.querySelector('#grid .sheet').focus()")
    press(browser, Keys.CONTROL + Keys.HOME)
    after(browser, lambda: pasted(browser, "11\t\r\n12\tx\r\n1,300\t\r\n"))
    row = browser.run("return D.runs[0].values.get('Upper.Inflow').slice(0, 4).join()")
    yield "pasted", None if row == "11,12,1234,300" else row
    told = browser.text("#wrongcells")
    yield "pasted, and not accepted", None if "Upper.Outflow, timestep 2" in told and "1,300: write it without" in told else told
    for _ in range(3):
        after(browser, lambda: browser.one("#undo").click())
    yield "undone", None if browser.run("return D.runs[0].values.get('Upper.Storage').join()") == before and not browser.one("#save").is_enabled() else "differs"


def of_rules(browser: Browser, bench: Bench) -> Iterator[Outcome]:
    """Rules are judged as they are typed, at their line; what is refused keeps the table."""
    browser.one("#tab-rules").click()
    before = kept_table(browser)
    place = "const a = document.querySelector('#rules textarea'); const i = a.value.indexOf('60 \"dam3\" THEN'); a.focus(); a.setSelectionRange(i + {0}, i + {0})"
    browser.run(place.format(8))
    after(browser, lambda: press(browser, "/step"), is_refused=True)
    told = browser.said("#rulesfindings", "Line 20", PATIENCE)
    yield "a unit", None if "both sides of > must measure the same quantity" in told and "Hint" in told else told
    yield "at its line", None if "both sides" in browser.text("#rules .line.fault .says") and browser.text("#rules u") else "not there"
    yield "the table stays", None if kept_table(browser) == before else "differs"
    waited(browser, "document.querySelector('#banners').textContent.includes('last run that was accepted')")
    after(browser, lambda: press(browser, *[Keys.BACKSPACE] * 5))
    yield "mended", None if "settled" in browser.text("#ending") and not browser.all("#rulesfindings li.fault") else browser.text("#ending")
    browser.run(place.format(2))
    after(browser, lambda: press(browser, "000"))
    most = browser.run("return Math.max(...D.runs[0].values.get('Lower.Storage').map(Number))")
    yield "another rule", None if most > 60000 else f"{most}"
    yield "which object differs", None if waited(browser, "document.querySelectorAll('#map .badge').length") else "none"
    browser.one("#tab-changes").click()
    yield "changes", None if "Lower.Storage" in browser.said("#changes", "Lower.Storage", PATIENCE) else browser.text("#changes")
    browser.one("#tab-why").click()
    while browser.one("#undo").is_enabled():
        after(browser, lambda: browser.one("#undo").click())
    yield "undone", None if kept_table(browser) == before else "differs"


def of_faults(browser: Browser, bench: Bench) -> Iterator[Outcome]:
    """A run that ends in a fault says where, and keeps the table."""
    choose(browser, "Lower")
    browser.one("#tab-inputs").click()
    before = kept_table(browser)
    after(browser, lambda: put(browser, 6, 1, "99999999"))
    told = browser.said("#banners", "led there: it", PATIENCE)
    yield "a fault", None if "timestep 6, 2021-01-06 at Lower" in told and "Lower.Storage value" in told else told
    yield "what led there", None if "99999999 I0, an input" in told else told
    yield "the table stays", None if kept_table(browser) == before else "differs"
    click(browser, ".banner button", "up to the fault")
    yield "up to the fault", None if browser.run("return D.runs[0].closed") == 5 else "another table"
    after(browser, lambda: browser.one("#undo").click())
    yield "undone", None if kept_table(browser) == before and not browser.text("#banners") else browser.text("#banners")


def of_models(browser: Browser, bench: Bench) -> Iterator[Outcome]:
    """Objects are added, changed, renamed, linked and deleted, and what else stands in the text stays."""
    browser.one("#tab-model").click()
    first = bench.files[0].read_text()
    text = "document.querySelector('#model textarea').value"
    choose(browser, "Lower")
    field = browser.one("#form [name=initial_storage]")
    after(browser, lambda: field.send_keys(Keys.CONTROL + "a" + Keys.NULL, "41_000" + Keys.TAB))
    changed = browser.run(f"return {text}")
    yield "a key", None if changed == first.replace("initial_storage = 40000", "initial_storage = 41000") else "another text"
    field = browser.one("#form [name=initial_storage]")
    after(browser, lambda: field.send_keys(Keys.CONTROL + "a" + Keys.NULL, "-1" + Keys.TAB), is_refused=True)
    told = browser.said("#modelfindings", "initial_storage", PATIENCE)
    yield "a wrong key", None if "must be a whole number from 0" in told else told
    after(browser, lambda: browser.one("#undo").click())
    browser.one("#rename").click()
    browser.one("#dialog input").send_keys(Keys.CONTROL + "a" + Keys.NULL, "Town")
    browser.one("#dialog button[type=submit]").click()
    yield "a name that is taken", None if "already" in browser.said("#dialog .error", "already", PATIENCE) else browser.text("#dialog .error")
    after(browser, lambda: browser.one("#dialog input").send_keys(Keys.CONTROL + "a" + Keys.NULL, "LowerDam" + Keys.ENTER))
    yield "renamed", None if "settled" in browser.text("#ending") and browser.text("#chosen").startswith("LowerDam ") else browser.text("#ending")
    changed = browser.run(f"return {text}")
    yield "renamed in links", None if changed == re.sub(r"\bLower\b", "LowerDam", first).replace("= 40000", "= 41000") else "another text"
    browser.one("#add").click()
    browser.one("#dialog input").send_keys("Sea")
    browser.run("document.querySelector('#dialog select').value = 'gage'")
    after(browser, lambda: browser.one("#dialog input").send_keys(Keys.ENTER))
    yield "added", None if browser.text("#chosen").startswith("Sea ") else browser.text("#chosen")
    waited(browser, "[...document.querySelectorAll('#map g.node')].some((n) => n.getAttribute('aria-label').startsWith('Sea,'))")
    browser.one("#link").click()
    for name in ("Mouth", "Sea"):
        browser.run(f"[...document.querySelectorAll('#map g.node')].find((n) => n.getAttribute('aria-label').startsWith('{name},')).dispatchEvent(new MouseEvent('click'))")
    chosen = browser.run("return [...document.querySelectorAll('#dialog select')].map((s) => s.value).join()")
    yield "what is linked", None if chosen == "Mouth.GageOutflow,Sea.GageInflow" else chosen
    after(browser, lambda: browser.one("#dialog button[type=submit]").click())
    same = browser.run("return D.runs[0].values.get('Sea.GageOutflow').join() === D.runs[0].values.get('Mouth.GageOutflow').join()")
    yield "linked", None if same else "another flow"
    browser.one("#delete").click()
    after(browser, lambda: browser.one("#dialog button[type=submit]").click())
    yield "deleted", None if browser.run(f"return {text}") == changed else "another text"
    while browser.one("#undo").is_enabled():
        after(browser, lambda: browser.one("#undo").click(), is_refused=False)
    yield "undone", None if browser.run(f"return {text}") == first else "another text"


def of_saving(browser: Browser, bench: Bench) -> Iterator[Outcome]:
    """Files are written by a click alone, not over another's change; a draft outlives the server."""
    model, policy, inputs = bench.files
    choose(browser, "Upper")
    browser.one("#tab-inputs").click()
    before = inputs.read_text()
    after(browser, lambda: put(browser, 1, 0, "777"))
    yield "not before Save", None if inputs.read_text() == before else "written"
    yield "a draft", None if (bench.folder / ".workbench-draft.json").exists() else "none"
    os.chmod(inputs, 0o640)
    browser.one("#save").click()
    browser.said("#said", "Saved", PATIENCE)
    yield "saved", None if "Upper.Inflow,1,777" in inputs.read_text() and kept_table(browser) == bench.table() else "another text"
    yield "its rights", None if inputs.stat().st_mode & 0o777 == 0o640 else oct(inputs.stat().st_mode)
    yield "no draft", None if not (bench.folder / ".workbench-draft.json").exists() else "one"
    yield "nothing else", None if sorted(one.name for one in bench.folder.iterdir() if one.name.startswith(".")) == [] else "files"
    after(browser, lambda: put(browser, 2, 0, "888"))
    inputs.write_text(inputs.read_text().replace("Upper.Inflow,32-59,320", "Upper.Inflow,32-59,321"))
    browser.one("#save").click()
    told = browser.said("#banners", "changed by another program", PATIENCE)
    yield "not over another's", None if "changed by another program" in told and "888" not in inputs.read_text() else told
    click(browser, ".banner button", "Take what the disk has")
    waited(browser, "!document.querySelector('#save').disabled || D.runs[0].values.get('Upper.Inflow')[40] === '321'")
    yield "the disk's", None if waited(browser, "D.runs[0].values.get('Upper.Inflow')[40] === '321'") else "not taken"
    after(browser, lambda: put(browser, 3, 0, "999"))
    bench.end(signal.SIGKILL)
    put(browser, 4, 0, "1000")
    told = browser.said("#banners", "server has ended", PATIENCE)
    yield "the server's end", None if "Keep inputs.csv" in told else told
    bench.start()
    browser.run("window.onbeforeunload = null")
    browser.driver.get(bench.address)
    try:
        browser.driver.switch_to.alert.accept()
        yield "a warning before it is closed", None
    except Exception:
        yield "a warning before it is closed", None if browser.driver.current_url == bench.address else "none"
    waited(browser, "window.lastTook")
    told = browser.said("#banners", "draft", PATIENCE)
    yield "the draft is offered", None if "inputs.csv" in told else told
    after(browser, lambda: click(browser, ".banner button", "Take the draft up"))
    yield "the draft", None if browser.run("return D.runs[0].values.get('Upper.Inflow')[2]") == "999" else "not taken up"
    press(browser, Keys.CONTROL + "s")
    browser.said("#said", "Saved", PATIENCE)
    yield "saved by a key", None if "Upper.Inflow,3,999" in inputs.read_text() else "not"


def contrast(one: str, other: str) -> float:
    """The contrast of two colours of CSS."""
    def light(text: str) -> float:
        parts = [int(part) / 255 for part in re.findall("[0-9]+", text)[:3]]
        red, green, blue = [part / 12.92 if part <= 0.03928 else ((part + 0.055) / 1.055) ** 2.4 for part in parts]
        return 0.2126 * red + 0.7152 * green + 0.0722 * blue
    high, low = sorted((light(one), light(other)), reverse=True)
    return (high + 0.05) / (low + 0.05)


def of_access(browser: Browser, scheme: str) -> Iterator[Outcome]:
    """What can be used has a name; texts stand out; nothing hangs over the window; Tab goes through all."""
    places = {"results": ("#map g.node", ".plot", "#table .sheet"), "inputs": ("#grid .sheet",), "rules": ("#rules textarea",), "model": ("#form input", "#model textarea")}
    for name in places:
        browser.run(f"document.querySelector('#tab-{name}').click()")
        time.sleep(0.2)
        nameless = browser.run(
            "return [...document.querySelectorAll('button, input, select, textarea, [role=grid], [role=slider]')].filter((n) => n.offsetParent && "
            "!(n.getAttribute('aria-label') || n.textContent.trim() || n.title || n.labels?.[0]?.textContent.trim())).map((n) => n.outerHTML.slice(0, 90))"
        )
        yield f"{scheme} {name}: names", None if not nameless else str(nameless[:3])
        pairs = browser.run(
            "const of = (n) => { for (let m = n; m; m = m.parentElement) { const c = getComputedStyle(m).backgroundColor; if (!/, 0\\)$/.test(c)) return c; } return 'rgb(255,255,255)'; };"
            "return [...document.querySelectorAll('body *')].filter((n) => n.offsetParent && !n.closest('svg, textarea, :disabled') && [...n.childNodes].some((c) => c.nodeType === 3 && c.data.trim()))"
            ".map((n) => [getComputedStyle(n).color, of(n), n.textContent.slice(0, 30), n.className])"
        )
        weak = {(text, look, round(contrast(ink, paper), 1)) for ink, paper, text, look in pairs if contrast(ink, paper) < 4.5}
        yield f"{scheme} {name}: contrast", None if not weak else str(sorted(weak)[:5])
        wide = browser.run("return document.documentElement.scrollWidth > innerWidth || document.documentElement.scrollHeight > innerHeight")
        yield f"{scheme} {name}: fits", None if not wide else "hangs over"
        browser.run("document.querySelector('.skip').focus()")
        there = browser.tab_to(lambda node, last=places[name][-1]: browser.run(f"return document.activeElement.matches({json.dumps(last)})"), 90)
        yield f"{scheme} {name}: Tab goes to {places[name][-1]}", None if there else "not in 90 presses"


def all_of(program: str, pictures: Path | None, only: str) -> Iterator[Outcome]:
    """All that is tried."""
    with tempfile.TemporaryDirectory() as place:
        folder = Path(shutil.copytree(TOP / "examples/valley-rules", Path(place) / "valley-rules"))
        bench = Bench(folder, program)
        try:
            if not only:
                yield from of_requests(bench)
            with Browser(1280, 720) as browser:
                browser.driver.get(bench.address)
                waited(browser, "window.lastTook && D")
                for part in (of_looking, of_inputs, of_rules, of_faults, of_models, of_saving):
                    if only not in part.__name__:
                        continue
                    for name, wrong in part(browser, bench):
                        yield f"{part.__name__[3:]}: {name}", wrong
                yield from of_access(browser, "light")
                told = [one for one in browser.complaints() if "favicon" not in one and "ERR_CONNECTION_REFUSED" not in one and "status of 422" not in one and "status of 409" not in one]
                yield "the console", None if not told else str(told[:3])
            with Browser(1920, 1080, is_dark=True) as browser:
                browser.driver.get(bench.address)
                waited(browser, "window.lastTook && D")
                yield from of_access(browser, "dark")
                if pictures:
                    browser.picture(pictures / "dark.png")
        finally:
            bench.end()


def main() -> int:
    """Tries all, and tells."""
    words = sys.argv[1:]
    pictures = Path(words.pop(words.index("--pictures") + 1)) if "--pictures" in words else None
    words = [word for word in words if word != "--pictures"]
    passed = failed = 0
    only = words.pop(words.index("--only") + 1) if "--only" in words else ""
    words = [word for word in words if word != "--only"]
    for name, wrong in all_of(str(Path(words[0]).resolve()) if words else str(BUILT), pictures, only):
        passed, failed = passed + (wrong is None), failed + (wrong is not None)
        if wrong is not None:
            print(f"FAILED {name}: {wrong}", flush=True)
    print(f"{passed} passed, {failed} failed")
    return int(failed > 0)


if __name__ == "__main__":
    sys.exit(main())
