"""A headless Chromium by Selenium and Debian's chromium-driver, for the tests of pages."""

from __future__ import annotations

import importlib
import json
import os
import pathlib
import shutil
import time
from typing import Any, List

import pytest

CHROMES = ("chromium", "chromium-browser", "google-chrome", "google-chrome-stable", "chrome")
FLAGS = ["--headless=new", "--no-sandbox", "--disable-gpu", "--disable-dev-shm-usage", "--no-first-run", "--disable-extensions", "--hide-scrollbars"]


def module(name: str) -> Any:
    """A module of Selenium's, which has no types."""
    return importlib.import_module(name)


class Browser:
    """A browser of its own, with one page."""

    def __init__(self, width: int = 1280, height: int = 800) -> None:
        try:
            webdriver = module("selenium.webdriver")
        except ImportError:
            pytest.skip("tests of the page, since there is no selenium: `apt-get install python3-selenium`")
        chrome = next((found for name in (os.environ.get("CHROMIUM", ""), *CHROMES) if name and (found := shutil.which(name))), None)
        driver = shutil.which(os.environ.get("CHROMEDRIVER", "chromedriver"))
        if chrome is None or driver is None:
            pytest.skip("tests of the page, since there is no Chromium with its driver: `apt-get install chromium chromium-driver`")
        options = webdriver.ChromeOptions()
        options.binary_location = chrome
        for flag in [*FLAGS, f"--window-size={width},{height}"]:
            options.add_argument(flag)
        options.set_capability("goog:loggingPrefs", {"browser": "ALL", "performance": "ALL"})
        self.driver = webdriver.Chrome(service=module("selenium.webdriver.chrome.service").Service(driver), options=options)
        self.driver.set_script_timeout(120)
        self.driver.set_page_load_timeout(120)
        self.resize(width, height)

    def resize(self, width: int, height: int) -> None:
        """The page's width and height, whatever the window's frame takes."""
        metrics = {"width": width, "height": height, "deviceScaleFactor": 1, "mobile": False}
        self.driver.execute_cdp_cmd("Emulation.setDeviceMetricsOverride", metrics)

    def media(self, scheme: str) -> None:
        """Light or dark."""
        self.driver.execute_cdp_cmd("Emulation.setEmulatedMedia", {"features": [{"name": "prefers-color-scheme", "value": scheme}]})

    def open(self, path: str) -> float:
        """Opens a file, and answers how many seconds that took."""
        begun = time.monotonic()
        self.driver.get(pathlib.Path(path).resolve().as_uri())
        return time.monotonic() - begun

    def js(self, text: str) -> Any:
        """The value of an expression; that of a promise once it is kept."""
        return self.driver.execute_script(f"return ({text})")

    def actions(self) -> Any:
        """Of the mouse and the keys, with no time between."""
        return module("selenium.webdriver.common.action_chains").ActionChains(self.driver, duration=0)

    def click(self, selector: str, shift: bool = False) -> None:
        """Presses the mouse in the middle of an element, once that is in sight."""
        self.js(f"document.querySelector({json.dumps(selector)}).scrollIntoView({{block: 'center', inline: 'center'}})")
        element = self.driver.find_element("css selector", selector)
        chain, keys = self.actions(), module("selenium.webdriver.common.keys").Keys
        if shift:
            chain.key_down(keys.SHIFT)
        chain.move_to_element(element).click()
        if shift:
            chain.key_up(keys.SHIFT)
        chain.perform()

    def key(self, name: str) -> None:
        keys = module("selenium.webdriver.common.keys").Keys
        names = {"ArrowLeft": keys.ARROW_LEFT, "ArrowUp": keys.ARROW_UP, "ArrowRight": keys.ARROW_RIGHT, "ArrowDown": keys.ARROW_DOWN}
        names.update(Home=keys.HOME, End=keys.END, Escape=keys.ESCAPE, Enter=keys.ENTER)
        self.actions().send_keys(names.get(name, name)).perform()

    write = key

    def picture(self, path: str) -> None:
        self.driver.save_screenshot(path)

    def is_in_dialog(self) -> bool:
        try:
            self.driver.switch_to.alert.dismiss()
        except module("selenium.common.exceptions").NoAlertPresentException:
            return False
        return True

    def troubles(self) -> List[str]:
        """What the page has complained of, and what it has fetched, since it was last asked."""
        self.js("0")
        told = [each["message"] for each in self.driver.get_log("browser") if each["level"] in ("SEVERE", "WARNING")]
        for each in self.driver.get_log("performance"):
            event = json.loads(each["message"])["message"]
            if event["method"] == "Network.requestWillBeSent" and not event["params"]["request"]["url"].startswith(("file:", "data:,")):
                told.append("a request: " + event["params"]["request"]["url"][:100])
        return told

    def close(self) -> None:
        self.driver.quit()
