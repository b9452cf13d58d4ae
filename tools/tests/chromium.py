"""A headless Chromium, driven by its DevTools protocol over two pipes, with the standard library alone."""

from __future__ import annotations

import base64
import itertools
import json
import os
import pathlib
import select
import shutil
import subprocess
import tempfile
import time

PATIENCE = 60
PROBLEMS = ("Runtime.exceptionThrown", "Runtime.consoleAPICalled", "Log.entryAdded")


class Chromium:
    """One browser with one page. What its console says is kept in `problems`."""

    def __init__(self, width: int = 1024, height: int = 768) -> None:
        self.profile = tempfile.mkdtemp()
        hears, self.says = os.pipe()
        self.told, tells = os.pipe()
        words = ["chromium", "--headless=new", "--no-sandbox", "--disable-gpu", "--remote-debugging-pipe"]
        words += [f"--user-data-dir={self.profile}", f"--window-size={width},{height}", "about:blank"]
        shell = f'exec "$@" 3<&{hears} 4>&{tells}'
        self.process = subprocess.Popen(
            ["bash", "-c", shell, "bash", *words],
            pass_fds=(hears, tells),
            stdout=subprocess.DEVNULL,
            stderr=subprocess.DEVNULL,
        )
        os.close(hears)
        os.close(tells)
        self.rest = b""
        self.problems: list[str] = []
        self.numbers = itertools.count(1)
        self.session = ""
        self.attach()

    def attach(self) -> None:
        targets = self.call("Target.getTargets")["targetInfos"]
        page = next(target["targetId"] for target in targets if target["type"] == "page")
        self.session = self.call("Target.attachToTarget", targetId=page, flatten=True)["sessionId"]
        for name in ("Page.enable", "Runtime.enable", "Log.enable"):
            self.call(name)

    def close(self) -> None:
        try:
            self.call("Browser.close")
            self.process.wait(PATIENCE)
        except (OSError, RuntimeError, subprocess.TimeoutExpired):
            self.process.kill()
            self.process.wait()
        os.close(self.says)
        os.close(self.told)
        shutil.rmtree(self.profile, ignore_errors=True)

    def call(self, name: str, **given: object) -> dict:
        """Asks the browser, and gives its answer."""
        number = next(self.numbers)
        asked = {"id": number, "method": name, "params": given}
        if self.session:
            asked["sessionId"] = self.session
        os.write(self.says, json.dumps(asked).encode() + b"\0")
        while True:
            told = self.message()
            if told.get("id") == number:
                if "error" in told:
                    raise RuntimeError(f"{name}: {told['error']}")
                return told["result"]

    def message(self) -> dict:
        """The next message; what the console says is kept."""
        while b"\0" not in self.rest:
            if not select.select([self.told], [], [], PATIENCE)[0]:
                raise RuntimeError("Chromium doesn't answer")
            piece = os.read(self.told, 1 << 16)
            if not piece:
                raise RuntimeError("Chromium ended")
            self.rest += piece
        text, _, self.rest = self.rest.partition(b"\0")
        told = json.loads(text)
        if told.get("method") in PROBLEMS:
            self.problems.append(json.dumps(told["params"])[:600])
        return told

    def value(self, expression: str) -> object:
        """What an expression is in the page; a promise is waited for."""
        told = self.call("Runtime.evaluate", expression=expression, returnByValue=True, awaitPromise=True)
        if "exceptionDetails" in told:
            raise RuntimeError(json.dumps(told["exceptionDetails"])[:600])
        return told["result"].get("value")

    def until(self, expression: str, patience: float = PATIENCE) -> object:
        """Waits until an expression is true in the page, and gives its value."""
        end = time.monotonic() + patience
        while time.monotonic() < end:
            value = self.value(expression)
            if value:
                return value
            time.sleep(0.05)
        raise AssertionError(f"not within {patience} seconds: {expression}")

    def open(self, address: str) -> None:
        """Opens an address anew, also where it differs from the one before by its fragment alone."""
        self.call("Page.navigate", url="about:blank")
        self.until("location.href === 'about:blank'")
        self.call("Page.navigate", url=address)
        self.until("location.href !== 'about:blank' && document.readyState === 'complete'")

    def key(self, name: str, code: int, text: str = "") -> None:
        """Presses a key, as a keyboard does."""
        known = {"key": name, "code": name, "windowsVirtualKeyCode": code}
        self.call("Input.dispatchKeyEvent", type="keyDown", text=text, **known)
        self.call("Input.dispatchKeyEvent", type="keyUp", **known)

    def click(self, expression: str) -> None:
        """Clicks an element in its middle, as a mouse does."""
        box = self.value(
            f"(() => {{ const one = {expression}; one.scrollIntoView({{ block: 'center' }}); "
            "const box = one.getBoundingClientRect(); return [box.x + box.width / 2, box.y + box.height / 2]; })()"
        )
        where = {"x": box[0], "y": box[1], "button": "left", "clickCount": 1}
        self.call("Input.dispatchMouseEvent", type="mousePressed", **where)
        self.call("Input.dispatchMouseEvent", type="mouseReleased", **where)

    def resize(self, width: int, height: int, is_phone: bool = False) -> None:
        size = {"width": width, "height": height, "deviceScaleFactor": 1, "mobile": is_phone}
        self.call("Emulation.setDeviceMetricsOverride", **size)

    def picture(self, target: pathlib.Path) -> None:
        target.write_bytes(base64.b64decode(self.call("Page.captureScreenshot", format="png")["data"]))
