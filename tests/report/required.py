"""The section of requirements of a page of tools/report, tried in a browser: see `run` in this folder."""

import json
import subprocess
from collections.abc import Iterator
from pathlib import Path

from browser import Browser
from selenium.webdriver.common.action_chains import ActionChains
from selenium.webdriver.common.keys import Keys

TOP = Path(__file__).resolve().parents[2]
VALLEY = TOP / "examples/valley-rules"
FILES = [VALLEY / name for name in ("model.toml", "policy.rpl", "inputs.csv")]
EDITS = VALLEY / "edits.csv"
ODD = "<b id=obeyed> & '"
# The last one reads what is never known; the one before it has no margin; "july" applies in one month.
REQUIRED = f"""
REQUIRE "farms" HOLDS 90 %: Farms.Diversion[t] >= Farms.DiversionRequest[t];
REQUIRE "river": Lower.Outflow[t] >= 200 "m3/step";
REQUIRE "july" WHEN MONTH(t) = 7: Lower.Outflow[t] >= 250 "m3/step";
REQUIRE "{ODD}": Farms.Diversion[t] >= 900 "m3/step" OR Lower.Storage[t] > 20 "dam3";
REQUIRE "tomorrow": Lower.Storage[t + 1 "step"] >= 20 "dam3";
MEASURE "short" SUM: Farms.DiversionRequest[t] - Farms.Diversion[t];
"""
Outcome = tuple[str, str | None]


def of_required(folder: Path, pictures: Path | None) -> Iterator[Outcome]:
    """The table of the section is that of tools/require, the strips are the margins, and a click leads to the cell and why."""
    required, page, answer = folder / "valley.require", folder / "required.html", folder / "required.json"
    required.write_text(REQUIRED)
    words = [*FILES, "--edits", EDITS, "--require", required, "-o", page]
    done = subprocess.run([TOP / "tools/report", *words], capture_output=True, text=True, check=False)
    yield "requirements: page", None if done.returncode == 0 else done.stderr
    words = [*FILES, required, "--edits", EDITS, "--json", answer]
    subprocess.run([TOP / "tools/require", *words], capture_output=True, check=False)
    told = json.loads(answer.read_text())
    with Browser() as browser:
        browser.open(page)
        for run in (0, 1):
            browser.choose("run", run)
            mine = [one for one in told["requirements"] if one["run"] == run]
            yield from of_table(browser, mine, run)
            yield from of_strips(browser, mine, run)
            texts = [one["text"] for one in told["measures"] if one["run"] == run]
            found = [cell.get_property("textContent") for cell in browser.all("#required [aria-label=Measures] td:last-child")]
            yield f"requirements: measures of batch {run}", None if found == texts else f"{found} for {texts}"
        browser.choose("run", 0)
        yield from of_clicks(browser, told["requirements"][0])
        yield from of_keys_of_strips(browser)
        yield "requirements: names are texts", None if not browser.all("#obeyed") and ODD in browser.text("#required") else "an element"
        if pictures:
            browser.run("document.querySelector('#required').scrollIntoView()")
            browser.picture(pictures / "required.png")
        complaints = browser.complaints() + browser.requests()
        yield "requirements: console", f"{complaints}" if complaints else None
    yield from of_narrow(page)
    yield from of_refused(folder)


def of_table(browser: Browser, mine: list[dict], run: int) -> Iterator[Outcome]:
    """Names, verdicts, counts and first failures."""
    rows = [[cell.get_property("textContent") for cell in row.find_elements("css selector", "th, td")] for row in browser.all("#required [aria-label=Requirements] tbody tr")]
    found = [(row[0], row[1], row[2], row[3], row[4], row[-1].split(" ")[0]) for row in rows]
    due = [
        (one["requirement"], one["wanted"], one["verdict"], f"{one['held']:,}", f"{one['asked']:,}", str(one["first"] or "-"))
        for one in mine
    ]
    yield f"requirements: table of batch {run}", None if found == due and len(due) == 5 else f"{found} for {due}"
    verdicts = {row[2] for row in rows}
    yield f"requirements: batch {run} has all verdicts", None if verdicts >= {"held", "not held", "unknown"} else f"{verdicts}"


def of_strips(browser: Browser, mine: list[dict], run: int) -> Iterator[Outcome]:
    """The strips have so many timesteps of each state; a margin is a line where there is one."""
    browser.one("#whole").click()
    for place, one in enumerate(mine):
        counts = {"holds": 0, "fails": 0, "unknown": 0}
        plot = browser.all("#required .plot")[place]
        for title in plot.find_elements("css selector", "rect title"):
            state, _, span = title.get_property("textContent").rpartition(": ")[2].partition(", timesteps ")
            begin, end = map(int, span.split(" to "))
            counts[state] += end - begin + 1
        due = {"holds": one["held"], "fails": one["failed"], "unknown": one["unknown"]}
        yield f"requirements: strip of {one['requirement']}, batch {run}", None if counts == due else f"{counts} for {due}"
        lines = len(plot.find_elements("css selector", "path.margin"))
        yield f"requirements: margin of {one['requirement']}, batch {run}", None if lines == (one["requirement"] != ODD) else f"{lines}"


def of_clicks(browser: Browser, farms: dict) -> Iterator[Outcome]:
    """A click on a failing part of a strip, and the link in the table, lead to the cell and its why."""
    strip = browser.all("#required .plot")[0].find_element("css selector", "rect.fails")
    browser.run("document.querySelector('#required .plot').scrollIntoView({ block: 'center' })")
    ActionChains(browser.driver).move_to_element(strip).click().perform()
    slot, step = browser.run("return [state.slot.name, state.at + 1]")
    is_there = slot == "Farms.Diversion" and farms["first"] <= step < farms["first"] + farms["failed"]
    yield "requirements: a click", None if is_there else f"{slot} {step}"
    why = browser.text("#why")
    yield "requirements: its why", None if "Why Farms.Diversion" in why and f"Timestep {step}," in why and "farms, after the town" in why else why
    box = browser.run("const b = document.querySelector('#why').getBoundingClientRect(); return [b.top, b.bottom, innerHeight]")
    yield "requirements: why is on the screen", None if box[0] < box[2] and box[1] > 0 else f"{box}"
    words = browser.all("#required .plot")[0].get_attribute("aria-valuetext")
    yield "requirements: words of a timestep", None if f"Timestep {step}: farms fails, by " in words else words
    browser.run("document.querySelector('#required [aria-label=Requirements] a').click()")
    browser.said("#why", f"Timestep {farms['first']},")
    found = browser.run("return [state.slot.name, state.at + 1]")
    yield "requirements: a link", None if found == ["Farms.Diversion", farms["first"]] else f"{found}"


def of_keys_of_strips(browser: Browser) -> Iterator[Outcome]:
    """A strip is a slider for those who have no mouse."""
    browser.run("document.querySelectorAll('#required .plot')[1].focus()")
    before = browser.run("return state.at")
    browser.keys(Keys.ARROW_RIGHT)
    browser.keys(Keys.ARROW_RIGHT)
    found = browser.run("return [state.at, state.slot.name, document.activeElement.getAttribute('aria-label')]")
    yield "requirements: keys", None if found == [before + 2, "Lower.Outflow", "river: timestep"] else f"{found}"


def of_narrow(page: Path) -> Iterator[Outcome]:
    """The section fits on the screen of a telephone, and a page without requirements has none."""
    with Browser(width=360, height=740) as browser:
        browser.open(page)
        inner, outer = browser.run("return [document.documentElement.scrollWidth, innerWidth]")
        yield "requirements: narrow", None if inner <= outer else f"{inner} of {outer} pixels"
    subprocess.run([TOP / "tools/report", *FILES, "-o", page], check=False)
    with Browser() as browser:
        browser.open(page)
        yield "requirements: none", None if not browser.one("#required").is_displayed() else "an empty section"


def of_refused(folder: Path) -> Iterator[Outcome]:
    """Requirements that are refused are told with their place, and no page is written."""
    required, page = folder / "wrong.require", folder / "wrong.html"
    required.write_text('REQUIRE "river": Lower.Outflw[t] >= 200 "m3/step";\n')
    words = [*FILES, "--require", required, "-o", page]
    done = subprocess.run([TOP / "tools/report", *words], capture_output=True, text=True, check=False)
    is_told = "line 1, column 18" in done.stderr and "Did you mean Lower.Outflow?" in done.stderr
    yield "requirements: refused", None if done.returncode == 2 and is_told and not page.exists() else f"{done.returncode}: {done.stderr}"
