"""Headless Chromium by Selenium, for the scripts of this folder that look at pages: what they ask of it, in few
words."""
from __future__ import annotations

import base64
import json
import os
import shutil
import sys
from pathlib import Path
from typing import Any

try:
    from selenium import webdriver
    from selenium.webdriver.chrome.service import Service
    from selenium.webdriver.common.action_chains import ActionChains
    from selenium.webdriver.common.by import By
    from selenium.webdriver.common.keys import Keys
    from selenium.webdriver.support.ui import WebDriverWait
except ImportError:
    sys.exit("the package selenium isn't here: apt-get install python3-selenium")

KEYS = {"Enter": Keys.ENTER, "Tab": Keys.TAB, "Escape": Keys.ESCAPE}
# seconds for a page to be there
PATIENCE = 300
SWITCHES = (
    "--headless=new",
    "--disable-gpu",
    "--disable-dev-shm-usage",
    "--no-first-run",
    "--disable-extensions",
    "--hide-scrollbars",
    "--disable-background-networking",
    "--disable-component-update",
    # no page reaches a network
    "--host-resolver-rules=MAP * ~NOTFOUND",
)


def options(profile: str) -> webdriver.ChromeOptions:
    """How Chromium is started: with a profile of its own, and a log of what the page asks for and complains of."""
    found = webdriver.ChromeOptions()
    found.binary_location = program("chromium", "chromium-browser", "google-chrome")
    # the sandbox of Chromium doesn't start as root
    for it in (*SWITCHES, f"--user-data-dir={profile}", *(["--no-sandbox"] if os.geteuid() == 0 else [])):
        found.add_argument(it)
    found.set_capability("goog:loggingPrefs", {"performance": "ALL", "browser": "ALL"})
    return found


def program(*names: str) -> str:
    for it in names:
        if found := shutil.which(it):
            return found
    sys.exit(f"{names[0]} isn't here: apt-get install chromium chromium-driver")


class Browser:
    """A browser whose profile is in a folder, with one page that reaches no network."""

    def __init__(self, room: str):
        service = Service(program("chromedriver"), log_path=os.devnull)
        self.driver = webdriver.Chrome(options=options(os.path.join(room, "chromium")), service=service)
        self.driver.set_page_load_timeout(PATIENCE)
        self.driver.set_script_timeout(PATIENCE)

    def ask(self, method: str, **given: Any) -> dict[str, Any]:
        """What WebDriver has no words for, in those of Chromium itself."""
        return self.driver.execute_cdp_cmd(method, given)

    def load(self, file: str) -> None:
        """Opens a file, and waits until it is there."""
        self.complaints()
        wanted = Path(file).absolute().as_uri()
        self.driver.get(wanted)
        WebDriverWait(self.driver, PATIENCE).until(
            lambda it: it.execute_script("return document.readyState") == "complete"
        )

    def run(self, text: str) -> Any:
        """The value of a text of JavaScript."""
        return self.driver.execute_script(f"return eval({json.dumps(text)})")

    def key(self, key: str, text: str | None = None) -> None:
        ActionChains(self.driver, duration=0).send_keys(KEYS.get(key, key)).perform()

    def click(self, selector: str) -> None:
        """A click of the mouse into the middle of an element."""
        element = self.driver.find_element(By.CSS_SELECTOR, selector)
        self.driver.execute_script("arguments[0].scrollIntoView({block: 'center'})", element)
        ActionChains(self.driver, duration=0).move_to_element(element).click().perform()

    def size(self, width: int, height: int = 900) -> None:
        self.ask("Emulation.setDeviceMetricsOverride", width=width, height=height, deviceScaleFactor=1, mobile=False)

    def look(self, scheme: str, media: str = "") -> None:
        features = [{"name": "prefers-color-scheme", "value": scheme}]
        self.ask("Emulation.setEmulatedMedia", media=media, features=features)

    def picture(self, file: str, width: int = 1400, height: int | None = None) -> None:
        """A picture of the page in a window of this width, down to its end or this height."""
        self.size(width)
        # what is as tall as a part of the window grows with it
        for _ in range(1 if height else 3):
            self.size(width, height or self.run("document.documentElement.scrollHeight"))
        Path(file).write_bytes(base64.b64decode(self.ask("Page.captureScreenshot", format="png")["data"]))

    def printed(self) -> bytes:
        """The page as a PDF document."""
        return base64.b64decode(self.ask("Page.printToPDF", printBackground=True, preferCSSPageSize=True)["data"])

    def complaints(self) -> list[str]:
        """Errors of the console and of scripts since the page was opened, and whatever is asked for beside the page
        itself."""
        found = [it["message"] for it in self.driver.get_log("browser") if it["level"] in ("WARNING", "SEVERE")]
        for entry in self.driver.get_log("performance"):
            it = json.loads(entry["message"])["message"]
            if it["method"] == "Network.requestWillBeSent":
                given = it["params"]
                url = given["request"]["url"]
                if not (url.startswith("data:") or given.get("type") == "Document"):
                    found.append(f"asks for {url}")
        return found

    def close(self) -> None:
        self.driver.quit()
