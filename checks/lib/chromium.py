"""Drives headless Chromium over a pipe, without packages."""
import base64
import json
import os
import select
import signal
import subprocess
import time
from pathlib import Path

from .checks import Lost

FLAGS = ("--headless=new", "--no-sandbox", "--disable-gpu", "--disable-dev-shm-usage",
         "--no-first-run", "--hide-scrollbars", "--remote-debugging-pipe",
         "--disable-background-networking", "--disable-component-update", "--disable-sync",
         "--window-size=1280,1000")
SECONDS = 90        # that it may take


def plain(text: str) -> str:
    """A text with one space between its words."""
    return " ".join(text.split())


class Chromium:
    """A headless Chromium that speaks over a pipe, until the `with` ends."""

    def __init__(self, folder: Path, *more: str):
        """`more` are flags beside those that it always has."""
        theirs, ours = os.pipe()            # its descriptors 3 and 4
        self.read_from, other = os.pipe()
        line = f"exec chromium {' '.join((*FLAGS, *more))} '--user-data-dir={folder}' " \
               f"about:blank 3<&{theirs} 4>&{other}"
        self.child = subprocess.Popen(["bash", "-c", line], pass_fds=(theirs, other),
                                      stdin=subprocess.DEVNULL, stdout=subprocess.DEVNULL,
                                      stderr=subprocess.DEVNULL, start_new_session=True)
        os.close(theirs), os.close(other)
        self.to, self.had, self.count, self.events = ours, b"", 0, []
        self.session = None

    def __enter__(self) -> "Chromium":
        return self

    def __exit__(self, *_) -> None:
        os.killpg(self.child.pid, signal.SIGKILL)
        self.child.wait()
        os.close(self.to), os.close(self.read_from)

    def message(self) -> dict:
        until = time.monotonic() + SECONDS
        while b"\0" not in self.had:
            ready, _, _ = select.select([self.read_from], [], [], max(0, until - time.monotonic()))
            more = os.read(self.read_from, 1 << 20) if ready else b""
            if not more:
                raise Lost("Chromium has ended, or does not answer")
            self.had += more
        text, _, self.had = self.had.partition(b"\0")
        return json.loads(text)

    def ask(self, method: str, **words) -> dict:
        self.count += 1
        asked = {"id": self.count, "method": method, "params": words}
        if self.session:
            asked["sessionId"] = self.session
        os.write(self.to, json.dumps(asked).encode() + b"\0")
        while True:
            told = self.message()
            if told.get("id") == self.count:
                if "error" in told:
                    raise Lost(f"Chromium: {method}: {told['error']}")
                return told["result"]
            self.events.append(told)

    def wait_for(self, method: str) -> None:
        while not any(event.get("method") == method for event in self.events):
            self.events.append(self.message())

    def open(self, path: Path) -> None:
        target = self.ask("Target.createTarget", url="about:blank")["targetId"]
        self.session = self.ask("Target.attachToTarget", targetId=target,
                                flatten=True)["sessionId"]
        for domain in ("Page", "Network", "Log", "Runtime"):
            self.ask(f"{domain}.enable")
        self.events.clear()
        self.ask("Page.navigate", url=path.as_uri())
        self.wait_for("Page.loadEventFired")

    def value(self, expression: str):
        return self.ask("Runtime.evaluate", expression=expression, awaitPromise=True,
                        returnByValue=True)["result"].get("value")

    def choose(self, files: list) -> None:
        """Gives the first chooser of files these."""
        root = self.ask("DOM.getDocument")["root"]["nodeId"]
        found = self.ask("DOM.querySelector", nodeId=root, selector="input[type=file]")
        self.ask("DOM.setFileInputFiles", nodeId=found["nodeId"], files=list(map(str, files)))

    def texts(self, selector: str) -> list:
        return [plain(text) for text in self.value(
            f"[...document.querySelectorAll({json.dumps(selector)})].map(it => it.innerText)")]

    def asked_for(self) -> list:
        """What the page asked for, but for what it has itself."""
        return [event["params"]["request"]["url"] for event in self.events
                if event.get("method") == "Network.requestWillBeSent"
                and not event["params"]["request"]["url"].startswith("data:")]

    def screenshot(self, path: Path) -> None:
        size = self.ask("Page.getLayoutMetrics")["cssContentSize"]
        shot = self.ask("Page.captureScreenshot", captureBeyondViewport=True,
                        clip={"x": 0, "y": 0, "width": size["width"],
                              "height": min(size["height"], 16_000), "scale": 1})
        path.write_bytes(base64.b64decode(shot["data"]))
