"""The pages of tools/report, tried in a browser: see `run` in this folder."""

import os
import random
import re
import subprocess
import sys
import tempfile
from collections.abc import Iterator
from dataclasses import dataclass
from pathlib import Path
from time import monotonic

from browser import Browser
from required import of_required
from selenium.webdriver.common.keys import Keys

TOP = Path(__file__).resolve().parents[2]
BUILT = TOP / "crates/basin/out/basin"
sys.path.insert(0, str(TOP / "tools"))

from basin_files.asking import asked_run  # noqa: E402
from basin_files.judging import read_model  # noqa: E402
from basin_files.reasons import LONG, plain  # noqa: E402
from basin_files.sections import Section, read_sections  # noqa: E402
from basin_files.walking import told_by  # noqa: E402

EXAMPLES = ("valley-rules", "power-plant", "drought")
SAMPLE = 60  # cells of an example that are compared
QUICK, SMALL = 2.0, 20_000_000  # seconds to open, and bytes
UNITS = {"m3/step": 1, "m3/s": None, "cfs": None, "m3": 1, "Mm3": 10**6, "mm": 1, "m": 1000, "kWh": 1, "MWh": 1000}
CUBIC_FOOT = 0.028316846592
Outcome = tuple[str, str | None]  # what was tried, and how it differs: nothing where it doesn't


@dataclass
class Shown:
    """An example, what the program writes for it, and its page."""

    name: str
    folder: Path
    page: Path
    sections: list[Section]
    is_asked: bool

    @property
    def model(self):
        """The example's model."""
        return read_model((self.folder / "model.toml").read_bytes())


def reported(words: list[str | Path], page: Path) -> str | None:
    """Why the tool didn't write a page."""
    done = subprocess.run([TOP / "tools/report", *words, "-o", page], capture_output=True, text=True, check=False)
    return None if done.returncode == 0 else f"status {done.returncode}: {done.stderr}"


def shown_of(name: str, folder: Path) -> Shown:
    """An example's page, made in a folder."""
    example = TOP / "examples" / name
    files = [example / one for one in ("model.toml", "policy.rpl", "inputs.csv")]
    edits = ["--edits", example / "edits.csv"] if (example / "edits.csv").exists() else []
    output, is_asked = asked_run("run", *files, "--flags", *edits)
    page = folder / f"{name}.html"
    wrong = reported([*files, *edits, "--title", f"The example {name}"], page)
    if wrong:
        raise ValueError(wrong)
    return Shown(name, example, page, read_sections(output), is_asked)


def number(text: str) -> int | None:
    """What a cell of the page says."""
    return None if text in ("unknown", "") else int(text.replace(",", ""))


# ---- parts 1 to 6


def of_head(browser: Browser, shown: Shown) -> Iterator[Outcome]:
    """The head: the title, how the run ended, dates, and what is proved."""
    first, timesteps = shown.sections[0], shown.model.timesteps
    head = browser.text("header")
    wanted = (f"The example {shown.name}", first.ending, f"{timesteps.count:,} timesteps of {timesteps.step}", "only tested", "model.toml")
    lacking = [one for one in wanted if one not in head]
    yield "head", f"no {lacking} in {head}" if lacking else None


def of_map(browser: Browser, shown: Shown) -> Iterator[Outcome]:
    """A click, Enter and a part of a name choose an object."""
    for thing in shown.model.objects:
        nodes = [node for node in browser.all("#map g.node") if node.get_attribute("aria-label").startswith(f"{thing.name},")]
        browser.driver.execute_script("arguments[0].dispatchEvent(new MouseEvent('click'))", nodes[0])
        told = browser.text("#charts h2")
        yield f"map: {thing.name}", None if told.startswith(f"{thing.name} (") else f"shows {told}"
        pressed = [node for node in browser.all("#map g.node") if node.get_attribute("aria-pressed") == "true"]
        yield f"map: {thing.name} is marked", None if pressed == nodes else f"{len(pressed)} are"
    last = shown.model.objects[-1].name
    browser.one("#map g.node").send_keys(Keys.ENTER)
    browser.choose("search", last[1:].upper())
    told = browser.text("#charts h2")
    yield "search", None if told.startswith(f"{last} (") else f"{last[1:].upper()} shows {told}"
    browser.choose("search", "no such object")
    yield "search in vain", None if "No object has" in browser.text("#said") else browser.text("#said")


def of_units(browser: Browser, shown: Shown) -> Iterator[Outcome]:
    """What stands above a hydrograph is what the table has, in each unit."""
    seconds = shown.model.timesteps.seconds(1)
    sizes = {**UNITS, "m3/s": seconds, "cfs": CUBIC_FOOT * seconds}
    slot = next(one for one in shown.model.slots.values() if one.unit == "m3/step" and shown.sections[0].rows[0].values[one.full_name])
    browser.run(f"go(SLOTS.get('{slot.full_name}'), 1)")
    for place, unit in enumerate(browser.all("#unit0 option")):
        name = unit.get_property("textContent")
        browser.choose("unit0", place)
        button = next(one for one in browser.all(".legend button") if one.text.startswith(f"{slot.full_name} "))
        found = re.search(r" ([-0-9.,]+) (\S+)$", button.text)
        if name in sizes:
            wanted = shown.sections[0].rows[0].values[slot.full_name] / sizes[name]
            is_right = found[2] == name and abs(float(found[1].replace(",", "")) - wanted) <= abs(wanted) * 1e-5
            yield f"units: {name}", None if is_right else f"{button.text}, and not {wanted}"
    browser.choose("unit0", 0)


def of_charts(browser: Browser, shown: Shown) -> Iterator[Outcome]:
    """Hydrographs, strips in the colours of who set what, and dates."""
    names = [thing.name for thing in shown.model.objects if thing.kind in ("reservoir", "power_reservoir")]
    browser.choose("search", names[0])
    flags = {row.get(f"{names[0]}.Storage") for row in shown.sections[0].flags.values()} - {None}
    told = " ".join(one.get_property("textContent") for one in browser.all(f".plot title") if f"{names[0]}.Storage:" in one.get_property("textContent"))
    lacking = [flag for flag in flags if f"({flag})" not in told]
    yield "strips", f"no {lacking} in the strip of {names[0]}.Storage" if lacking else None
    drawn = browser.run("return [...document.querySelectorAll('.plot path')].filter(p => p.getAttribute('d').length > 20).length")
    yield "lines", None if drawn >= 2 else f"{drawn} lines"
    begin = shown.model.timesteps.begin(3).date().isoformat()
    browser.choose("from", begin)
    span = browser.run("return [state.from, state.to]")
    yield "dates", None if span[0] <= 2 and browser.run("return beginOf(state.from)")[:10] == begin else f"from {span}"
    browser.one("#whole").click()
    yield "the whole run", None if browser.run("return [state.from, state.to]") == [0, shown.model.timesteps.count] else "another one"
    browser.one(".plot").click()
    yield "a click on a timestep", None if browser.run("return state.at") > 0 else "chooses none"


def of_batches(browser: Browser, shown: Shown) -> Iterator[Outcome]:
    """Batches over each other, and two of them side by side."""
    if len(shown.sections) == 1:
        yield "no batches", None if not browser.one("#beside").is_displayed() else "a choice of one"
        return
    browser.choose("beside", 1)
    yield "side by side", None if browser.all(".pair") and "The difference" in browser.text("#charts") else "not there"
    rows = [section.rows for section in shown.sections[:2]]
    slot, step = next(
        (name, row.step) for row, other in zip(*rows) for name in row.values if row.values[name] != other.values[name]
    )
    browser.run(f"go(SLOTS.get('{slot}'), {step})")
    cells = [one.text for one in browser.all("#table tr.now td")][1:]
    names = [one.full_name for one in shown.model.object_named(slot.split(".")[0]).slots]
    wanted = [row[step - 1].values[name] for row in rows for name in names]
    yield "two runs in the table", None if [number(cell) for cell in cells] == wanted else f"{cells} for {wanted}"
    browser.choose("beside", "all")
    thin = browser.run("return document.querySelectorAll('.plot path[opacity=\"0.45\"]').length")
    yield "over each other", None if thin >= len(shown.sections) - 1 else f"{thin} lines"
    browser.choose("run", 1)
    yield "the head of a batch", None if browser.text("#ending").startswith("batch 1: ") else browser.text("#ending")
    browser.choose("beside", "")
    browser.choose("run", 0)


def of_cells(browser: Browser, shown: Shown) -> Iterator[Outcome]:
    """A sample of cells: the table and the reason of the page have what the program wrote."""
    chosen = random.Random(59)
    browser.one("#whole").click()
    for section in shown.sections[:2]:
        browser.choose("run", shown.sections.index(section))
        wrong = []
        for _ in range(SAMPLE):
            name, row = chosen.choice(list(shown.model.slots)), chosen.choice(section.rows)
            browser.run(f"go(SLOTS.get('{name}'), {row.step})")
            cells = [one.get_property("textContent") for one in browser.all("#table tr.now td")][1:]
            wanted = [row.values[one.full_name] for one in shown.model.object_named(name.split(".")[0]).slots]
            if [number(cell) for cell in cells] != wanted:
                wrong.append(f"{name} {row.step}: the table has {cells}, and not {wanted}")
            value, flag = row.values[name], section.flags[row.step].get(name, "none")
            told, note = browser.text("#why h2"), browser.text("#why .note")
            amount = "unknown" if value is None else f"{value:,} "
            if f"Why {name} is {amount}" not in told or f"Flag {flag}:" not in note:
                wrong.append(f"{name} {row.step} is {value} {flag}, and the page says {told} {note}")
        yield f"{2 * SAMPLE} things of batch {section.batch}", "; ".join(wrong[:2]) or None
    browser.choose("run", 0)


FATES = {"written": "set", "kept": "was there already", "denied": "was denied", "again": "again in the same firing"}


def of_reasons(browser: Browser, shown: Shown) -> Iterator[Outcome]:
    """Why: all puts that the trace tells of a cell, in their order, with links to the cells that were looked at."""
    section, model, cells, asked = shown.sections[0], shown.model, {}, []
    for line in section.trace:
        if line.startswith("  ") and (put := told_by(line, asked)) and put.fate != "late":
            cells.setdefault((model.group(put.slot)[0].full_name, put.step), []).append(put)
    kinds = {}
    for cell, puts in cells.items():
        kinds.setdefault(tuple(sorted({put.fate for put in puts})) + (len(puts) > 1,), cell)
    for slot, step in kinds.values():
        browser.run(f"go(SLOTS.get('{slot}'), {step})")
        items = [one.text.split("\n")[0] for one in browser.all("#why > ol > li")]
        puts = cells[(slot, step)]
        is_right = len(items) == len(puts) and all(FATES[put.fate] in item and f"{put.value:,} " in item for put, item in zip(puts, items))
        yield f"why {slot} {step}", None if is_right else f"{items} for {puts}"
    links = browser.all("#why a")
    if links:
        wanted = links[0].text
        links[0].click()
        yield "a link", None if browser.text("#why h2").startswith(f"Why {wanted.split(' ')[0]}") else browser.text("#why h2")


def of_parts(browser: Browser, shown: Shown) -> Iterator[Outcome]:
    """What each rule did, the rules, the books, statistics, and the copied table."""
    files = [shown.folder / name for name in ("model.toml", "policy.rpl", "inputs.csv")]
    done = subprocess.run([TOP / "tools/effect", *files, "--csv"], capture_output=True, text=True, check=False)
    found = [[cell.get_property("textContent") for cell in row.find_elements("css selector", "th, td")] for row in browser.all("#effects tbody tr")]
    counts = [[cell.replace(",", "") for cell in row[2:]] for row in found]
    yield "what each rule did", None if counts == [line.split(",")[-len(counts[0]) :] for line in done.stdout.splitlines()[1:]] else f"{found}"
    told = [one.get_property("textContent") for one in browser.all("#policy li:not(.remark)")]
    lines = [re.sub("^[0-9]+", "", line) for line in told]
    yield "the rules", None if "\n".join(lines) == files[1].read_text() else "others"
    done = subprocess.run([os.environ["BASIN"], "balance", *files], capture_output=True, text=True, check=False)
    books = [[cell.get_property("textContent").replace(",", "") for cell in row.find_elements("css selector", "th, td")] for row in browser.all("#book .wide:first-of-type tbody tr")]
    wanted = [[word for word in line.split() if word not in ("initial", "in", "out", "final")] for line in done.stdout.splitlines()[1:]]
    if done.returncode > 1:
        yield "no books", None if "no command balance" in browser.text("#book") else browser.text("#book")
    else:
        yield "the books", None if books[: len(wanted)] == wanted else f"{books} for {wanted}"
    thing = browser.run("return state.thing.name")
    name = shown.model.object_named(thing).slots[0].full_name
    held = [row.values[name] for row in shown.sections[0].rows if row.values[name] is not None]
    sums = [cell.get_property("textContent") for cell in browser.all("#statistics tbody tr:first-child td")]
    yield "statistics", None if int(sums[1].replace(",", "")) == len(held) and sums[-1].startswith(f"{sum(held):,} ") else f"{sums}"
    copied = browser.run("return plainTable(columnsOf(state.thing, [0]), 0, STEPS)").splitlines()
    values = [shown.sections[0].rows[0].values[one.full_name] for one in shown.model.object_named(thing).slots]
    is_right = len(copied) == len(shown.sections[0].rows) + 1 and copied[1].split("\t")[2:] == ["" if value is None else str(value) for value in values]
    yield "the copied table", None if is_right else copied[1]
    browser.one("#copy").click()
    said = browser.said("#said", "is copied")
    yield "copy", None if "is copied" in said else said


def of_keys(browser: Browser, shown: Shown) -> Iterator[Outcome]:
    """All by keys alone: an object of the map, its slots, timesteps; what has the keys has a name."""
    browser.open(shown.page)
    browser.run("document.activeElement.blur()")
    is_there = browser.tab_to(lambda one: one.tag_name == "g")
    browser.keys(Keys.ENTER)
    yield "Tab to the map", None if is_there else "not there"
    is_there = browser.tab_to(lambda one: one.get_attribute("role") == "slider")
    before = browser.run("return state.at")
    browser.keys(Keys.ARROW_RIGHT)
    browser.keys(Keys.PAGE_DOWN)
    after, has_keys = browser.run("return [state.at, document.activeElement.getAttribute('role')]")
    wanted = min(before + 11, shown.model.timesteps.count - 1)
    yield "arrows", None if is_there and (after, has_keys) == (wanted, "slider") else f"timestep {after + 1}, {has_keys}"
    nameless = browser.run(
        "return [...document.querySelectorAll('button, input, select, [tabindex], [role=slider]')].filter((one) =>"
        " !(one.getAttribute('aria-label') || one.textContent.trim() || one.closest('label'))).map((one) => one.outerHTML.slice(0, 80))"
    )
    yield "names for a screen reader", f"{nameless}" if nameless else None


PARTS = (of_head, of_map, of_units, of_charts, of_batches, of_cells, of_reasons, of_parts, of_keys)


def of_example(shown: Shown, pictures: Path | None) -> Iterator[Outcome]:
    """An example's page: clicked through, and as it looks on other screens."""
    with Browser() as browser:
        browser.open(shown.page)
        for part in PARTS:
            for what, wrong in part(browser, shown):
                yield f"{shown.name}: {what}", wrong
        complaints = browser.complaints() + browser.requests()
        yield f"{shown.name}: console", f"{complaints}" if complaints else None
    yield from of_looks(shown, pictures)


def of_looks(shown: Shown, pictures: Path | None) -> Iterator[Outcome]:
    """Screens of 1,400 and 360 pixels, in dark and in light, paper, and no script: nothing is wider than the screen."""
    for name, options in (("wide", {}), ("narrow", {"width": 360, "height": 740}), ("dark", {"is_dark": True})):
        with Browser(**options) as browser:
            browser.open(shown.page)
            inner, outer = browser.run("return [document.documentElement.scrollWidth, innerWidth]")
            yield f"{shown.name}, {name}: fits", None if inner <= outer else f"{inner} of {outer} pixels"
            inks = browser.run("const s = getComputedStyle(document.body); return [s.color, s.backgroundColor]")
            yield f"{shown.name}, {name}: contrast", None if contrast(*inks) >= 7 else f"{inks}"
            if pictures:
                browser.picture(pictures / f"{shown.name}-{name}.png")
                browser.picture(pictures / f"{shown.name}-{name}-whole.png", True)
            if name == "wide":
                paper = browser.printed()
                yield f"{shown.name}: on paper", None if paper.startswith(b"%PDF") and len(paper) > 20_000 else "nothing"
                if pictures:
                    (pictures / f"{shown.name}.pdf").write_bytes(paper)
    with Browser(has_script=False) as browser:
        browser.open(shown.page)
        cells = len(browser.all("noscript td"))
        rows, slots = len(shown.sections[0].rows), len(shown.sections[0].slots)
        is_there = browser.all("#map svg") and browser.all(".still svg") and shown.sections[0].ending in browser.text("#ending")
        whole = min(rows, max(1, 20_000 // slots)) * (slots + 1)
        yield f"{shown.name}: without script", None if is_there and cells == whole else f"{cells} of {whole} cells"
        if pictures:
            browser.picture(pictures / f"{shown.name}-plain.png", True)


def contrast(ink: str, paper: str) -> float:
    """The contrast of two colours, as the rules for web pages reckon it."""
    lights = []
    for colour in (ink, paper):
        parts = [int(part) / 255 for part in re.findall(r"\d+", colour)[:3]]
        red, green, blue = (part / 12.92 if part <= 0.03928 else ((part + 0.055) / 1.055) ** 2.4 for part in parts)
        lights.append(0.2126 * red + 0.7152 * green + 0.0722 * blue)
    return (max(lights) + 0.05) / (min(lights) + 0.05)


# ---- a fault, hostile names, a long run

SMALL_MODEL = """format = 1
run = { start = "2024-03-30T00:00", step = "24h", steps = 3 }
[[object]]
name = "Dam"
kind = "reservoir"
initial_storage = 1000
"""
HOSTILE = "</script><img src=x onerror=\"document.title='obeyed'\"><!-- <script> & ' ` ${1} \\ @DATA@ \u2028"


def of_faults(folder: Path) -> Iterator[Outcome]:
    """A run that ends by a fault before its first timestep is closed, and rules that are refused."""
    for name, rules, wanted in (
        ("fault", 'RULE "keep": Dam.Storage[t] := 1020 "m3"; ENDRULE\n', "out of range object Dam slot Dam.Outflow"),
        ("refused", 'RULE "keep": Dam.Storag[t] := 1020 "m3"; ENDRULE\n', "basin: rules: declaration 1"),
    ):
        paths = [folder / one for one in ("model.toml", "policy.rpl", "inputs.csv")]
        for path, text in zip(paths, (SMALL_MODEL, rules, "slot,step,value\nDam.Inflow,1-3,5\n")):
            path.write_text(text)
        page = folder / f"{name}.html"
        done = subprocess.run([TOP / "tools/report", *paths, "-o", page], capture_output=True, text=True, check=False)
        yield f"{name}: status", None if done.returncode == (name == "refused") else done.stderr
        with Browser() as browser:
            browser.open(page)
            yield f"{name}: head", None if wanted in browser.text("#ending.fault") else browser.text("#ending")
            yield f"{name}: words", None if browser.text("#doctor") else "none"
            if name == "refused":
                yield "refused: at its place", None if browser.all("#policy .remark.fault") else "no remark"
            complaints = browser.complaints()
            yield f"{name}: console", f"{complaints}" if complaints else None


def of_denials(folder: Path) -> Iterator[Outcome]:
    """A rule that a higher one denies: the page says so, or that the program doesn't tell it."""
    files = [TOP / "tests/language/confirms" / name for name in ("model.toml", "policy.rpl", "inputs.csv")]
    page = folder / "denials.html"
    yield "denials: page", reported(files, page)
    is_asked = asked_run("run", *files)[1]
    with Browser() as browser:
        browser.open(page, "#slot=Lower.Outflow&step=2")
        told = [one.text.split(". It looked at")[0].replace("\n", " ") for one in browser.all("#why > ol > li")]
        wanted = ['rule 3 "pass on" set 50 m3/step (R3)', 'rule 2 "least" set 50 m3/step (R2), which holds']
        if is_asked:
            wanted.append('rule 3 "pass on" asked for 100 m3/step (R3) and was denied: the cell has 50 of rule 2 "least" (R2)')
        yield "denials: why", None if told == wanted else f"{told}"
        note = "no --asked" in browser.text("#why")
        yield "denials: note", None if note != is_asked else "says nothing of --asked, or too much"
        browser.open(page, "#slot=Lower.Outflow&step=2.5")
        shown = browser.text("#why h2")
        yield "denials: a timestep that is no whole number", None if shown == "Why Lower.Outflow is 50 m3/step" else shown
        found = browser.text("#effects")
        yield "denials: effects", None if "so its later values were denied, in 3 timesteps" in found else found


def of_hostile(folder: Path) -> Iterator[Outcome]:
    """Names that a browser might obey are texts."""
    rule = HOSTILE.replace('"', "'")
    texts = {
        "model.toml": SMALL_MODEL,
        "policy.rpl": f'# {HOSTILE}\nRULE "{rule}": Dam.Outflow[t] := 5 "m3/step"; ENDRULE\n',
        "inputs.csv": "slot,step,value\nDam.Inflow,1-3,5\n",
    }
    whose = folder / "<b id=obeyed>&amp; '"
    whose.mkdir()
    for name, text in texts.items():
        (whose / name).write_text(text)
    page = folder / "hostile.html"
    yield "hostile: page", reported([*(whose / name for name in texts), f"--title={HOSTILE}"], page)
    with Browser() as browser:
        browser.open(page, "#slot=Dam.Outflow&step=2")
        yield "hostile: title", None if browser.driver.title == plain(HOSTILE, LONG) else browser.driver.title
        made = browser.run("return [...document.querySelectorAll('img, #obeyed')].length")
        yield "hostile: elements", f"{made} were made" if made else None
        told = browser.text("#why")
        yield "hostile: a rule's name", None if "</script><img" in told and "onerror" in told else told
        yield "hostile: the rules", None if "<!-- <script>" in browser.text("#policy") else "not shown"
        complaints = browser.complaints()
        yield "hostile: console", f"{complaints}" if complaints else None
    with Browser(has_script=False) as browser:
        browser.open(page)
        yield "hostile: without script", None if not browser.all("img, #obeyed") else "an element was made"


def long_run(folder: Path, objects: int, days: int) -> list[Path]:
    """A cascade of reservoirs and reaches, under two rules."""
    model = ["format = 1", f'run = {{ start = "2010-01-01T00:00", step = "24h", steps = {days} }}']
    rules, inputs = [], ["slot,step,value"]
    for number in range(1, objects // 2 + 1):
        model += ["[[object]]", f'name = "Dam{number}"', 'kind = "reservoir"', "initial_storage = 5000000"]
        model += ["[[object]]", f'name = "River{number}"', 'kind = "reach"', "lag = 1", "history = [40000]"]
        model += ["[[link]]", f'slots = ["Dam{number}.Outflow", "River{number}.Inflow"]']
        if number > 1:
            model += ["[[link]]", f'slots = ["River{number - 1}.Outflow", "Dam{number}.Inflow"]']
        rules.append(f'RULE "dam {number}": Dam{number}.Outflow[t] := Dam{number}.Storage[t - 1 "step"] / 100 "step"; ENDRULE')
    chosen = random.Random(1)
    inputs += [f"Dam1.Inflow,{step},{chosen.randrange(20_000, 90_000)}" for step in range(1, days + 1)]
    paths = [folder / name for name in ("long.toml", "long.rpl", "long.csv")]
    for path, lines in zip(paths, (model, rules, inputs)):
        path.write_text("\n".join(lines) + "\n")
    return paths


def opened(browser: Browser, page: Path, address: str) -> float:
    """Returns how many seconds a page takes until it can be used."""
    browser.driver.get("about:blank")
    began = monotonic()
    browser.open(page, address)
    return monotonic() - began


def least_opened(browser: Browser, page: Path, tries: int) -> float:
    """Returns the least of several such times, since other work of the machine adds to each. It ends once one is short enough."""
    least = opened(browser, page, "#slot=Dam50.Outflow&step=3000")
    for step in range(3001, 3000 + tries):
        if least <= QUICK:
            break
        least = min(least, opened(browser, page, f"#slot=Dam50.Outflow&step={step}"))
    return least


def of_long(folder: Path, pictures: Path | None) -> Iterator[Outcome]:
    """Ten years of days and a hundred objects: the page's size, and how long it takes until it can be used."""
    page = folder / "long.html"
    yield "long: page", reported(long_run(folder, 100, 3650), page)
    size = page.stat().st_size
    yield f"long: {size:,} bytes", None if size <= SMALL else "too large"
    with Browser() as browser:
        taken = least_opened(browser, page, 12)
        yield f"long: opens in {taken:.1f} s", None if taken <= QUICK else "too slow"
        told = browser.text("#why")
        yield "long: what is left out is said", None if "The page says who set each value" in told or "set" in told else told
        began = monotonic()
        browser.choose("search", "River20")
        taken = monotonic() - began
        yield f"long: another object in {taken:.1f} s", None if taken <= QUICK else "too slow"
        complaints = browser.complaints()
        yield "long: console", f"{complaints}" if complaints else None
        if pictures:
            browser.picture(pictures / "long.png")


def main() -> int:
    """Runs all tests."""
    words = sys.argv[1:]
    pictures = Path(words.pop(words.index("--pictures") + 1)) if "--pictures" in words else None
    words = [word for word in words if word != "--pictures"]
    os.environ["BASIN"] = str(Path(words[0] if words else BUILT).resolve())
    passed = failed = 0
    with tempfile.TemporaryDirectory() as name:
        folder = Path(name)
        if pictures:
            pictures.mkdir(exist_ok=True)
        tests = [of_example(shown_of(example, folder), pictures) for example in EXAMPLES]
        tests += [of_required(folder, pictures), of_faults(folder), of_denials(folder), of_hostile(folder), of_long(folder, pictures)]
        for outcomes in tests:
            for what, wrong in outcomes:
                passed, failed = (passed + 1, failed) if wrong is None else (passed, failed + 1)
                if wrong is not None:
                    print(f"{what}: {wrong}", flush=True)
    print(f"{passed} passed, {failed} failed")
    return 0 if passed and not failed else 1


if __name__ == "__main__":
    sys.exit(main())
