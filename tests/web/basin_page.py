"""The page basin.html, opened from the disk in Chromium and clicked through."""

from __future__ import annotations

from pathlib import Path

from report.browser import Browser
from selenium.webdriver.common.keys import Keys

TOP = Path(__file__).resolve().parents[2]
EXAMPLES = ("lake-levels", "lake-rules", "valley-rules")
MOST_BYTES = 3_000_000
TABLE = "return [...document.querySelectorAll('#table tr')].map(row => [...row.children].map(cell => cell.textContent).join(',')).join('\\n')"
FETCH = "return fetch('ADDRESS').then(() => 'it was sent', error => `blocked: ${error}`)"


class PageTrial:
    """A trial of the page; pictures are left in a folder, if there is one."""

    def __init__(self, page: Path, pictures: Path | None) -> None:
        self.page = page
        self.pictures = pictures
        self.wrong: list[str] = []

    def failed(self) -> int:
        """Goes through the page, and says how much of it is wrong."""
        self.see("the size", self.page.stat().st_size <= MOST_BYTES)
        for width, is_dark in ((1400, False), (360, True)):
            with Browser(width, 1000, is_dark) as browser:
                browser.open(self.page)
                self.newcomer(browser)
                if self.pictures:
                    browser.picture(self.pictures / f"page-{width}.png")
                self.see("as wide as the screen", browser.run("return document.documentElement.scrollWidth <= innerWidth"))
        with Browser() as browser:
            browser.open(self.page)
            self.examples(browser)
            self.stopped(browser)
            self.see("nothing in the console", not browser.complaints())
            self.offline(browser)
        print(f"basin.html: {len(self.wrong)} things wrong", *self.wrong, sep="\n  ")
        return len(self.wrong)

    def see(self, what: str, is_so: object) -> None:
        """Notes what isn't so."""
        if not is_so:
            self.wrong.append(what)

    def chosen(self, browser: Browser, example: str) -> None:
        """Chooses an example, and waits for its run."""
        option = f"[...document.getElementById('example').options].find(one => one.text === '{example}')"
        browser.choose("example", browser.run(f"return {option}.value"))
        said = browser.said("#said", "settled")
        self.see(f"{example} is run: {said}", "settled" in said)

    def newcomer(self, browser: Browser) -> None:
        """Changes one number by the keys, sees the difference, asks why, and undoes it."""
        self.chosen(browser, "lake-rules")
        first = browser.run(TABLE)
        field = next(one for one in browser.all("#numbers label") if "initial storage" in one.text).find_element("css selector", "input")
        field.send_keys(Keys.CONTROL, "a")
        field.send_keys("44_000_000", Keys.ENTER)
        self.see("the number is in the text", "44_000_000  # at 372 m" in str(browser.run("return document.getElementById('model').value")))
        self.see("cells that differ are marked", browser.said("#said", "settled") and browser.all("td.differs"))
        self.see("the chart has both runs", len(browser.all("#chart polyline[points*=',']")) == 2)
        browser.one("#table tbody tr:nth-child(3) td:nth-child(4) button").click()
        why = browser.said("#why", "The cell holds")
        self.see(f"why: {why}", "The cell holds" in why)
        browser.one("#undo").click()
        browser.said("#said", "settled")
        self.see("all is undone", browser.run(TABLE) == first)
        self.refused(browser, first)

    def refused(self, browser: Browser, first: object) -> None:
        """A model that is refused is said, with what the program says, and the table stays."""
        browser.run("const text = document.getElementById('model'); text.value += '<b>'; text.dispatchEvent(new Event('change'))")
        said = browser.said("#said", "basin: model: ")
        self.see(f"refused: {said}", "basin: model: " in said)
        self.see("the table stays", browser.run(TABLE) == first)
        browser.one("#undo").click()
        said = browser.said("#said", "settled")
        self.see(f"undone after a refusal: {said}", "settled" in said)

    def examples(self, browser: Browser) -> None:
        """Each table is the one that is shipped."""
        for example in EXAMPLES:
            self.chosen(browser, example)
            _, heads, *rows = (TOP / "examples" / example / "table.csv").read_text().rstrip("\n").split("\n")
            shown = str(browser.run(TABLE)).split("\n")
            same = shown[0].split(",")[2:] == heads.split(",")[2:] and [row.replace(" ", "T") for row in shown[1:]] == rows
            self.see(f"the table of {example}", same)

    def stopped(self, browser: Browser) -> None:
        """A run that is stopped says so, and another one follows."""
        browser.run("document.getElementById('run').click(); document.getElementById('stop').click()")
        said = browser.said("#said", "Stopped")
        self.see(f"stopped: {said}", "Stopped" in said)
        browser.one("#run").click()
        self.see("a run after it", "settled" in browser.said("#said", "settled"))

    def offline(self, browser: Browser) -> None:
        """Nothing is asked for, and nothing can be."""
        self.see("nothing was asked for", not browser.requests())
        for address in ("https://example.org/", "http://127.0.0.1:9/", "data:text/plain,a"):
            answer = str(browser.run(FETCH.replace("ADDRESS", address)))
            self.see(f"fetch of {address}: {answer}", answer.startswith("blocked"))
        self.see("the policy has blocked it", any("Content Security Policy" in line for line in browser.complaints()))
