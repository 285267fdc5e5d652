"""Drives Chromium without a window, over its DevTools protocol on two pipes: what a page shows, clicks, keys, pictures."""
from __future__ import annotations

import base64
import contextlib
import fcntl
import json
import os
import shutil
import signal
import subprocess
import tempfile
from collections.abc import Iterator
from typing import Any

NAME = "chromium"
# where the browser reads what it is told, and writes what it says
READS, WRITES = 3, 4
WORDS = ["--headless=new", "--no-sandbox", "--disable-gpu", "--remote-debugging-pipe", "--no-first-run", "--hide-scrollbars",
         "--disable-background-networking", "--disable-component-update", "--disable-sync", "--force-device-scale-factor=1"]
KEYS = {"ArrowDown": 40, "ArrowUp": 38, "Enter": 13, "Escape": 27, "Tab": 9, "/": 191}


def is_there() -> bool:
    return shutil.which(NAME) is not None


def high(descriptor: int) -> int:
    """The same descriptor under a number that is no browser's."""
    made = fcntl.fcntl(descriptor, fcntl.F_DUPFD_CLOEXEC, 10)
    os.close(descriptor)
    return made


def put(descriptors: list[int]) -> None:
    for descriptor, number in zip(descriptors, (READS, WRITES)):
        os.dup2(descriptor, number)


class Browser:
    """A browser with one page."""

    def __init__(self, folder: str) -> None:
        ours, theirs = [], []
        for is_read in (True, False):
            reads, writes = map(high, os.pipe())
            theirs.append(reads if is_read else writes)
            ours.append(writes if is_read else reads)
        self.process = subprocess.Popen([NAME, *WORDS, f"--user-data-dir={folder}", "about:blank"], stdin=subprocess.DEVNULL,
                                        stdout=subprocess.DEVNULL, stderr=subprocess.DEVNULL, start_new_session=True,
                                        close_fds=False, preexec_fn=lambda: put(theirs))
        for descriptor in theirs:
            os.close(descriptor)
        self.to, self.of = os.fdopen(ours[0], "wb", buffering=0), os.fdopen(ours[1], "rb")
        self.number, self.rest = 0, b""
        self.session: str | None = None
        self.events: list[dict[str, Any]] = []
        target = self.tell("Target.createTarget", url="about:blank")["targetId"]
        self.session = self.tell("Target.attachToTarget", targetId=target, flatten=True)["sessionId"]
        for part in ("Page", "Runtime", "Log", "Network"):
            self.tell(f"{part}.enable")

    def close(self) -> None:
        os.killpg(self.process.pid, signal.SIGKILL)
        self.process.wait()
        self.to.close()
        self.of.close()

    def read(self) -> dict[str, Any]:
        """The next thing that the browser says."""
        while b"\0" not in self.rest:
            octets = os.read(self.of.fileno(), 1 << 16)
            if not octets:
                raise EOFError(f"{NAME} ended with {self.process.wait()}")
            self.rest += octets
        one, _, self.rest = self.rest.partition(b"\0")
        said: dict[str, Any] = json.loads(one)
        if "method" in said:
            self.events.append(said)
        return said

    def tell(self, method: str, **words: Any) -> dict[str, Any]:
        """Tells the browser something, and returns its answer."""
        self.number += 1
        asked = {"id": self.number, "method": method, "params": words}
        self.to.write(json.dumps(asked | ({"sessionId": self.session} if self.session else {})).encode() + b"\0")
        said = self.read()
        while said.get("id") != self.number:
            said = self.read()
        if "error" in said:
            raise RuntimeError(f"{method}: {said['error']}")
        return dict(said["result"])

    def open(self, path: str, fragment: str = "") -> None:
        """Opens a file, and waits until it has come as a whole."""
        self.events.clear()
        self.tell("Page.navigate", url="about:blank")
        self.tell("Page.navigate", url=f"file://{os.path.abspath(path)}{fragment}")
        self.value("document.readyState === 'complete' || new Promise(done => addEventListener('load', done)).then(() => true)")
        self.settle()

    def value(self, script: str) -> Any:
        """What a script is on the page."""
        said = self.tell("Runtime.evaluate", expression=script, returnByValue=True, awaitPromise=True)
        if "exceptionDetails" in said:
            raise RuntimeError(said["exceptionDetails"].get("exception", {}).get("description", said["exceptionDetails"]))
        return said["result"].get("value")

    def settle(self) -> None:
        """Waits until what was done is drawn."""
        self.value("new Promise(done => requestAnimationFrame(() => requestAnimationFrame(() => done(true))))")

    def click(self, selector: str) -> None:
        """Clicks on the middle of an element."""
        place = self.value(f"""(() => {{ const it = document.querySelector({json.dumps(selector)}).getBoundingClientRect();
            return [it.x + it.width / 2, it.y + it.height / 2]; }})()""")
        for kind in ("mousePressed", "mouseReleased"):
            self.tell("Input.dispatchMouseEvent", type=kind, x=place[0], y=place[1], button="left", clickCount=1)
        self.settle()

    def key(self, name: str) -> None:
        """Presses a key."""
        known = {"key": name, "code": name, "windowsVirtualKeyCode": KEYS[name]}
        text = {"text": "\r"} if name == "Enter" else {}
        self.tell("Input.dispatchKeyEvent", type="keyDown", **known, **text)
        self.tell("Input.dispatchKeyEvent", type="keyUp", **known)
        self.settle()

    def write(self, text: str) -> None:
        """Types a text where the cursor stands."""
        self.tell("Input.insertText", text=text)
        self.settle()

    def size(self, width: int, height: int) -> None:
        self.tell("Emulation.setDeviceMetricsOverride", width=width, height=height, deviceScaleFactor=1, mobile=False)
        self.settle()

    def is_dark(self, is_dark: bool) -> None:
        self.tell("Emulation.setEmulatedMedia",
                  features=[{"name": "prefers-color-scheme", "value": "dark" if is_dark else "light"}])
        self.settle()

    def picture(self) -> bytes:
        """What is seen, as PNG."""
        return base64.b64decode(self.tell("Page.captureScreenshot", format="png")["data"])

    def printed(self) -> bytes:
        """What is printed, as PDF."""
        return base64.b64decode(self.tell("Page.printToPDF", printBackground=True, preferCSSPageSize=True)["data"])


@contextlib.contextmanager
def browser() -> Iterator[Browser]:
    """A browser, which is closed at the end."""
    with tempfile.TemporaryDirectory(ignore_cleanup_errors=True) as folder:
        made = Browser(folder)
        try:
            yield made
        finally:
            made.close()
