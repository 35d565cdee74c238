"""Chromium with the page in it, driven by Debian's python3-selenium and chromium-driver."""
import base64
import os
from typing import Any, Callable, List, Optional, TypeVar

from selenium import webdriver
from selenium.webdriver.chrome.options import Options
from selenium.webdriver.chrome.service import Service

HERE = os.path.dirname(os.path.abspath(__file__))
FLAGS = ("--headless=new", "--no-sandbox", "--disable-gpu", "--hide-scrollbars",
         "--disable-dev-shm-usage")
SECONDS = 120
# The numbers of keys that do something by themselves, and the texts that they write.
KEYS = {"Tab": (9, ""), "Enter": (13, "\r"), "Space": (32, " ")}
ASKED = """const done = arguments[arguments.length - 1];
Promise.resolve(examine.%s(...[...arguments].slice(0, -1)))
  .then((found) => done([true, found]), (error) => done([false, String(error.stack)]));"""
# The longest that the window may wait, in milliseconds; and how often is tried, since other work on
# the machine holds up a window that waits for nothing.
SMOOTH, TRIES = 100, 8
Took = TypeVar("Took")


class Wrong(Exception):
    """What the page did that no function of examine.js expects, as that it never answered."""


def soonest(once: Callable[[], Took], waited: Callable[[Took], float]) -> Took:
    """What took the least of a few tries; the first that is in time is the last."""
    tried = [once()]
    while waited(tried[-1]) >= SMOOTH and len(tried) < TRIES:
        tried.append(once())
    return min(tried, key=waited)


class Browser:
    """A window on a page, with the functions of examine.js and looks.js in it, and without a name
    that older browsers lack."""

    def __init__(self, page: str, without: Optional[str] = None) -> None:
        options = Options()
        for flag in FLAGS:
            options.add_argument(flag)
        options.set_capability("goog:loggingPrefs", {"browser": "ALL"})
        service = Service("/usr/bin/chromedriver")
        self.driver = webdriver.Chrome(service=service, options=options)
        self.driver.set_script_timeout(SECONDS)
        self.page, self.url = page, f"file://{page}"
        for name in ("examine", "looks"):
            with open(f"{HERE}/{name}.js", encoding="utf-8") as script:
                self.before(script.read())
        if without:
            self.before(f"delete globalThis.{without};")

    def before(self, script: str) -> None:
        """Runs a script in front of those of the page."""
        self.driver.execute_cdp_cmd("Page.addScriptToEvaluateOnNewDocument", {"source": script})

    def open(self, behind: str = "") -> Any:
        """Opens the page, and answers true or why it did not begin."""
        self.driver.get("about:blank")
        self.driver.get(self.url + behind)
        return self.call("ready")

    def call(self, name: str, *words: Any) -> Any:
        """What a function of examine.js answers."""
        is_right, found = self.driver.execute_async_script(ASKED % name, *words)
        if not is_right:
            raise Wrong(f"{name}: {found}")
        return found

    def paste(self, text: str, order: str = "little") -> Any:
        """What the page says of a text."""
        self.call("order", order)
        return self.call("paste", text)

    def file(self, data: bytes, order: str = "little") -> Any:
        """What the page says of a file that is dropped."""
        self.call("order", order)
        return self.call("drop", base64.b64encode(data).decode())

    def choose(self, path: str) -> Any:
        """What the page says of a file that is opened, which needn't be one."""
        root = self.driver.execute_cdp_cmd("DOM.getDocument", {})["root"]["nodeId"]
        asked = {"nodeId": root, "selector": "#file"}
        node = self.driver.execute_cdp_cmd("DOM.querySelector", asked)["nodeId"]
        self.call("mark")
        self.driver.execute_cdp_cmd("DOM.setFileInputFiles", {"files": [path], "nodeId": node})
        return self.call("opened")

    def copied(self, button: str = "copy") -> str:
        return str(self.call("copied", button))

    def size(self, width: int, height: int) -> None:
        words = {"width": width, "height": height, "deviceScaleFactor": 1, "mobile": False}
        self.driver.execute_cdp_cmd("Emulation.setDeviceMetricsOverride", words)

    def scheme(self, name: str) -> None:
        words = {"features": [{"name": "prefers-color-scheme", "value": name}]}
        self.driver.execute_cdp_cmd("Emulation.setEmulatedMedia", words)

    def press(self, *keys: str) -> None:
        """Presses keys, one after another, as a hand does."""
        for key in keys:
            code, text = KEYS.get(key, (0, ""))
            name = " " if key == "Space" else key
            words = {"key": name, "code": key, "windowsVirtualKeyCode": code}
            words.update({"text": text} if text else {})
            for kind in ("keyDown", "keyUp"):
                self.driver.execute_cdp_cmd("Input.dispatchKeyEvent", {"type": kind, **words})
            self.call("idle")

    def picture(self) -> bytes:
        """A PNG of the window."""
        return bytes(self.driver.get_screenshot_as_png())

    def complaints(self) -> List[str]:
        """What the browser wrote of errors and of what a policy forbade."""
        return [str(entry["message"]) for entry in self.driver.get_log("browser")]

    def close(self) -> None:
        self.driver.quit()
