"""A headless browser of 1280 x 800, and what tests do with the page in it."""

from __future__ import annotations

import time
from collections.abc import Callable, Iterator
from contextlib import contextmanager
from typing import Any

from selenium import webdriver
from selenium.common.exceptions import (
    ElementClickInterceptedException,
    ElementNotInteractableException,
    NoSuchElementException,
    StaleElementReferenceException,
)
from selenium.webdriver.common.action_chains import ActionChains
from selenium.webdriver.common.by import By
from selenium.webdriver.common.keys import Keys

__all__ = ["Keys", "Page", "browser", "until"]

PATIENCE = 180.0  # seconds
AWAY = (
    ElementClickInterceptedException,
    ElementNotInteractableException,
    NoSuchElementException,
    StaleElementReferenceException,
)
WORDS = (
    "--headless=new",
    "--no-sandbox",
    "--disable-gpu",
    "--disable-dev-shm-usage",
    "--disable-extensions",
    "--no-first-run",
    "--window-size=1280,800",
    "--force-device-scale-factor=1",
)


def until(holds: Callable[[], Any], what: str = "") -> Any:
    """Waits until something holds, and gives it."""
    end = time.monotonic() + PATIENCE
    while True:
        try:
            found = holds()
        except StaleElementReferenceException:
            found = None
        if found:
            return found
        assert time.monotonic() < end, what or "it didn't come to that"
        time.sleep(0.02)


class Page:
    """The operators' page in a browser."""

    def __init__(self, driver: Any) -> None:
        self.driver = driver

    def open(self, url: str) -> None:
        self.driver.get(url)

    def run(self, script: str, *given: Any) -> Any:
        """Runs JavaScript in the page, and gives what it returns."""
        return self.driver.execute_script(script, *given)

    def text(self, css: str) -> str:
        """The text of the first element, empty where there is none or it isn't seen."""
        return str(
            self.run(
                "const e = document.querySelector(arguments[0]);"
                "return e && e.getClientRects().length ? e.innerText : ''",
                css,
            )
        )

    def rows(self, screen: str = "#alarms") -> list[tuple[str, str]]:
        """Tag and code of the rows that are drawn, from above."""
        found = self.run(
            "return [...document.querySelectorAll(arguments[0] + ' .rows .row')]"
            ".sort((a, b) => a.getBoundingClientRect().top - b.getBoundingClientRect().top)"
            ".map((row) => [row.dataset.tag, row.dataset.code])",
            screen,
        )
        return [(str(tag), str(code)) for tag, code in found]

    def click(self, css: str) -> None:
        """Clicks what can be seen and isn't disabled."""

        def clicked() -> bool:
            if not self.run(ENABLED, css):
                return False
            try:
                self.driver.find_element(By.CSS_SELECTOR, css).click()
            except AWAY:  # it was drawn anew meanwhile
                return False
            return True

        until(clicked, f"{css} can be clicked")

    def choose(self, tag: str, screen: str = "#alarms") -> None:
        """Clicks the row of an alarm."""
        self.click(f"{screen} .row[data-tag='{tag}']")

    def keys(self, *keys: str) -> None:
        """Types, wherever the focus is."""
        self.chain().send_keys(*keys).perform()

    def back(self) -> None:
        """To the field or button before."""
        self.chain().key_down(Keys.SHIFT).send_keys(Keys.TAB).key_up(Keys.SHIFT).perform()

    def chain(self) -> Any:
        """Keys that are to be typed."""
        return ActionChains(self.driver)  # type: ignore[no-untyped-call]

    def login(self, name: str) -> None:
        until(lambda: self.run("return document.activeElement.id === 'login-name'"))
        self.keys(name, Keys.TAB, name * 2, Keys.ENTER)

    def live(self) -> bool:
        """Whether the page says that it is live."""
        return self.text("#link") == "● live"

    def until_live(self) -> None:
        until(self.live, "the page is live")

    def faults(self) -> list[str]:
        """What the browser has told since the last call, but for connections that were refused."""
        told = [str(entry["message"]) for entry in self.driver.get_log("browser")]
        return [text for text in told if "ERR_CONNECTION" not in text and "WebSocket" not in text]


ENABLED = """
const e = document.querySelector(arguments[0]);
return e && !e.disabled && e.getClientRects().length > 0"""


@contextmanager
def browser(cookies: bool = True) -> Iterator[Page]:
    """Starts a browser, which takes cookies or doesn't, and ends it."""
    options: Any = webdriver.ChromeOptions()
    for word in WORDS:
        options.add_argument(word)
    if not cookies:
        blocked = {"profile.default_content_setting_values.cookies": 2}
        options.add_experimental_option("prefs", blocked)
    options.binary_location = "/usr/bin/chromium"
    options.set_capability("goog:loggingPrefs", {"browser": "ALL"})
    service = webdriver.chrome.service.Service("/usr/bin/chromedriver")
    driver = webdriver.Chrome(options=options, service=service)
    try:
        size = {"width": 1280, "height": 800, "deviceScaleFactor": 1, "mobile": False}
        driver.execute_cdp_cmd("Emulation.setDeviceMetricsOverride", size)
        driver.set_script_timeout(PATIENCE)
        yield Page(driver)
    finally:
        driver.quit()
