"""A headless browser, driven by chromedriver (in Debian: chromium-driver) with the standard library alone."""

from __future__ import annotations

import base64
import json
import os
import shutil
import subprocess
import tempfile
import time
import urllib.error
import urllib.request
from collections.abc import Callable, Sequence
from typing import Any

from patience import PATIENCE, waited

# Keys, as the driver has them.
KEYS = {"Control": "\ue009", "Shift": "\ue008", "Alt": "\ue00a", "Enter": "\ue007", "Backspace": "\ue003", "End": "\ue010", "Home": "\ue011",
        "Left": "\ue012", "Up": "\ue013", "Right": "\ue014", "Down": "\ue015", "Delete": "\ue017", "Escape": "\ue00c", "Tab": "\ue004"}
# Seconds for which the driver waits for a script or a page.
LONGEST = 10 * PATIENCE
ELEMENT = "element-6066-11e4-a52e-4f735466cecf"


def is_there() -> bool:
    """Whether there is a driver. Nothing is installed."""
    return bool(shutil.which("chromedriver"))


class Browser:
    """A session of the driver. Files that a page lets one have come into `folder`."""

    def __init__(self) -> None:
        self.folder = tempfile.mkdtemp(prefix="lsys-browser-")
        self.driver = subprocess.Popen(["chromedriver", "--port=0"], stdout=subprocess.PIPE, stderr=subprocess.DEVNULL, text=True)
        assert self.driver.stdout
        self.session, self.told = "", self.driver.stdout
        try:
            self.begin()
        except (OSError, RuntimeError):
            self.close()
            raise

    def begin(self) -> None:
        line = ""
        while "started successfully" not in line:
            line = self.told.readline()
            if not line:
                raise OSError("chromedriver ended")
        self.address = "http://127.0.0.1:%s/session" % line.rstrip(".\n").split()[-1]
        words = ["--headless=new", "--no-sandbox", "--disable-gpu", "--window-size=1400,1000"]
        chosen = {"args": words, "prefs": {"download.default_directory": self.folder, "download.prompt_for_download": False}}
        value = self.call("", {"capabilities": {"alwaysMatch": {"goog:chromeOptions": chosen, "goog:loggingPrefs": {"browser": "ALL"},
                                                                "timeouts": {"script": 1000 * LONGEST, "pageLoad": 1000 * LONGEST},
                                                                "unhandledPromptBehavior": "ignore"}}})
        self.session = "/" + value["sessionId"]
        self.tell("Emulation.setFocusEmulationEnabled", {"enabled": True})

    def call(self, path: str, body: Any = None, method: str | None = None) -> Any:
        request = urllib.request.Request(self.address + self.session + path, method=method, data=None if body is None else json.dumps(body).encode(),
                                         headers={"Content-Type": "application/json"})
        try:
            with urllib.request.urlopen(request) as answer:
                return json.load(answer)["value"]
        except urllib.error.HTTPError as error:
            raise RuntimeError(json.load(error)["value"]["message"].split("\n")[0]) from None

    def cookies(self) -> str:
        """The page's cookies, as a request has them."""
        return "; ".join("%s=%s" % (cookie["name"], cookie["value"]) for cookie in self.call("/cookie"))

    def open(self, address: str) -> None:
        self.call("/url", {"url": address})

    def run(self, script: str, *words: Any) -> Any:
        return self.call("/execute/sync", {"script": script, "args": list(words)})

    def element(self, selector: str) -> str:
        return next(iter(self.call("/element", {"using": "css selector", "value": selector}).values()))

    def click(self, selector: str) -> Any:
        """Clicks an element, which is waited for where it isn't there yet."""
        return self.once(lambda: self.call("/element/%s/click" % self.element(selector), {}))

    def once(self, deed: Callable[[], Any]) -> Any:
        """Does something as soon as it can be done."""
        until = time.monotonic() + PATIENCE
        while True:
            try:
                return deed()
            except RuntimeError:
                if time.monotonic() > until:
                    raise
                time.sleep(0.1)

    def act(self, kind: str, actions: list[dict[str, Any]]) -> None:
        self.call("/actions", {"actions": [{"type": kind, "id": kind, "actions": actions}]})

    def keys(self, *names: str) -> None:
        """Presses keys one after another; those of `Control+z` together."""
        actions = []
        for name in names:
            parts = name.split("+") if len(name) > 1 else [name]
            values = [KEYS.get(part, part) for part in parts]
            actions += [{"type": "keyDown", "value": value} for value in values] + [{"type": "keyUp", "value": value} for value in reversed(values)]
        self.act("key", actions)

    def type(self, text: str) -> None:
        self.keys(*text)

    def drag(self, begin: Sequence[int], steps: Sequence[tuple[int, int]], selector: str | None = None) -> None:
        """Pulls the mouse from a place of the window, or from the middle of an element, by these steps."""
        origin = {ELEMENT: self.element(selector)} if selector else "viewport"
        actions = [{"type": "pointerMove", "x": begin[0], "y": begin[1], "origin": origin, "duration": 0}, {"type": "pointerDown", "button": 0}]
        actions += [{"type": "pointerMove", "x": x, "y": y, "origin": "pointer", "duration": 30} for x, y in steps]
        self.act("pointer", actions + [{"type": "pointerUp", "button": 0}])

    def size(self, width: int, height: int) -> None:
        """Lets the page be as wide as that of a screen."""
        self.tell("Emulation.setDeviceMetricsOverride", {"width": width, "height": height, "deviceScaleFactor": 1, "mobile": width < 500})

    def dark(self, is_dark: bool) -> None:
        self.tell("Emulation.setEmulatedMedia", {"features": [{"name": "prefers-color-scheme", "value": "dark" if is_dark else "light"}]})

    def tell(self, command: str, words: dict[str, Any]) -> None:
        self.call("/goog/cdp/execute", {"cmd": command, "params": words})

    def picture_of_page(self, path: str) -> None:
        with open(path, "wb") as file:
            file.write(base64.b64decode(self.call("/screenshot")))

    def windows(self) -> list[str]:
        return self.call("/window/handles")

    def new_window(self) -> str:
        handle = self.call("/window/new", {"type": "tab"})["handle"]
        self.use(handle)
        return handle

    def use(self, handle: str) -> None:
        self.call("/window", {"handle": handle})

    def close_window(self) -> None:
        self.call("/window", method="DELETE")

    def prompted(self, text: str | None = None) -> None:
        """Answers a question of the browser's own."""
        if text is not None:
            self.once(lambda: self.call("/alert/text", {"text": text}))
        self.once(lambda: self.call("/alert/accept", {}))
        # The keys that opened it are held no longer.
        self.once(lambda: self.call("/actions", method="DELETE"))

    def downloaded(self, name: str) -> bytes:
        """The bytes of a file that a page let one have, once it is whole."""
        path = os.path.join(self.folder, name)
        if not waited(lambda: os.path.exists(path) and not any(part.endswith(".crdownload") for part in os.listdir(self.folder)), bool):
            return b""
        with open(path, "rb") as file:
            data = file.read()
        os.unlink(path)
        return data

    def errors(self) -> list[str]:
        """What pages complained of since this was asked last."""
        return [entry["message"] for entry in self.call("/se/log", {"type": "browser"}) if entry["level"] == "SEVERE"]

    def close(self) -> None:
        try:
            if self.session:
                self.call("", method="DELETE")
        except (OSError, RuntimeError):
            pass
        self.driver.terminate()
        self.driver.wait()
        self.told.close()
        shutil.rmtree(self.folder, ignore_errors=True)
