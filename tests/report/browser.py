"""Chromium without a screen, with a page that tools/report wrote."""

import base64
import time
from collections.abc import Callable
from pathlib import Path

from selenium import webdriver
from selenium.webdriver.chrome.options import Options
from selenium.webdriver.chrome.service import Service
from selenium.webdriver.common.by import By
from selenium.webdriver.common.keys import Keys
from selenium.webdriver.remote.webelement import WebElement

WORDS = ("--headless=new", "--no-sandbox", "--disable-gpu", "--disable-dev-shm-usage", "--hide-scrollbars")
NO_SCRIPT = {"profile.managed_default_content_settings.javascript": 2}


class Browser:
    """A browser with one page."""

    def __init__(self, width: int = 1400, height: int = 1000, is_dark: bool = False, has_script: bool = True):
        options = Options()
        for word in (*WORDS, f"--window-size={width},{height}"):
            options.add_argument(word)
        if not has_script:
            options.add_experimental_option("prefs", NO_SCRIPT)
        options.set_capability("goog:loggingPrefs", {"browser": "ALL", "performance": "ALL"})
        self.driver = webdriver.Chrome(service=Service("/usr/bin/chromedriver"), options=options)
        self.driver.execute_cdp_cmd(
            "Emulation.setDeviceMetricsOverride",
            {"width": width, "height": height, "deviceScaleFactor": 1, "mobile": width < 600},
        )
        scheme = "dark" if is_dark else "light"
        self.driver.execute_cdp_cmd(
            "Emulation.setEmulatedMedia", {"features": [{"name": "prefers-color-scheme", "value": scheme}]}
        )

    def __enter__(self) -> "Browser":
        return self

    def __exit__(self, *_: object) -> None:
        self.driver.quit()

    def open(self, page: Path, address: str = "") -> None:
        """Opens a page."""
        self.driver.get(f"file://{page}{address}")

    def run(self, script: str) -> object:
        """What a script in the page answers."""
        return self.driver.execute_script(script)

    def one(self, selector: str) -> WebElement:
        """The first element of a selector."""
        return self.driver.find_element(By.CSS_SELECTOR, selector)

    def all(self, selector: str) -> list[WebElement]:
        """All of them."""
        return self.driver.find_elements(By.CSS_SELECTOR, selector)

    def text(self, selector: str) -> str:
        """The text of the first one, also where it doesn't stand on the screen."""
        return self.one(selector).get_property("textContent")

    def said(self, selector: str, wanted: str, seconds: float = 10) -> str:
        """The text of an element once it has what is wanted, or as it is when the time is over."""
        end = time.monotonic() + seconds
        while wanted not in (text := self.text(selector)) and time.monotonic() < end:
            time.sleep(0.05)
        return text

    def choose(self, name: str, value: object) -> None:
        """Chooses a value of a list, or gives one to a field, as a reader does."""
        element = self.one(f"#{name}")
        self.driver.execute_script(
            "arguments[0].value = arguments[1]; arguments[0].dispatchEvent(new Event('change'))", element, str(value)
        )

    def keys(self, *keys: str) -> None:
        """Presses keys where the page stands."""
        self.driver.switch_to.active_element.send_keys(*keys)

    def tab_to(self, is_there: Callable[[WebElement], bool], most: int = 200) -> bool:
        """Presses Tab until what has the keys is what is wanted."""
        for _ in range(most):
            self.keys(Keys.TAB)
            if is_there(self.driver.switch_to.active_element):
                return True
        return False

    def picture(self, path: Path, is_whole: bool = False) -> None:
        """Leaves a picture of what is seen, or of the whole page."""
        shot = self.driver.execute_cdp_cmd("Page.captureScreenshot", {"captureBeyondViewport": is_whole})
        path.write_bytes(base64.b64decode(shot["data"]))

    def printed(self) -> bytes:
        """The page as it is printed."""
        return base64.b64decode(self.driver.print_page())

    def complaints(self) -> list[str]:
        """What the console was told."""
        return [entry["message"] for entry in self.driver.get_log("browser")]

    def requests(self) -> list[str]:
        """What was asked for from elsewhere."""
        log = [entry["message"] for entry in self.driver.get_log("performance")]
        return [one for one in log if '"Network.requestWillBeSent"' in one and '"url":"file:' not in one and '"url":"data:' not in one]
