"""Drives WebKit by Debian's webkit2gtk-driver, with the standard library alone. Where no display is
named it starts Xvfb.

It differs from the other browsers: names of files that have a line end can't be sent, a folder
can't be chosen, and no window is narrower than 447 pixels. Each download takes some of the window's
height, and without any left no screenshot comes.
"""
from __future__ import annotations

import base64
import json
import os
import signal
import socket
import subprocess
import time
import urllib.error
import urllib.request
from pathlib import Path
from typing import Any

from .checks import Lost

ELEMENT = "element-6066-11e4-a52e-4f735466cecf"
BROWSERS = "*/webkit2gtk-4.1/MiniBrowser"       # below /usr/lib, for each architecture
SECONDS = 600           # that an answer may take
STARTS = 30             # seconds that the driver may take to begin
SCREEN = "1600x4000x24"
WIDTH, HEIGHT = 1280, 1600
PROMISE = """const end = arguments[arguments.length - 1];
(async () => (EXPRESSION))().then((it) => end([JSON.stringify(it ?? null)]),
  (fault) => end({ fault: String(fault) }));"""


def free_port() -> int:
    with socket.socket() as it:
        it.bind(("127.0.0.1", 0))
        return int(it.getsockname()[1])


class WebKit:
    """A window of WebKit, until the `with` ends."""

    def __init__(self, folder: Path, **more: str) -> None:
        """`more` are variables, such as JSC_useWasm=0, or GTK_THEME=Adwaita:dark."""
        folder.mkdir(parents=True, exist_ok=True)
        (folder / "downloads").mkdir(exist_ok=True)
        self.folder, self.more, self.session = folder, more, ""
        self.running: list[subprocess.Popen[bytes]] = []

    def __enter__(self) -> WebKit:
        try:
            self.begin()
        except BaseException:
            self.__exit__()
            raise
        return self

    def begin(self) -> None:
        own = {"HOME": str(self.folder / "downloads"),
               "XDG_DOWNLOAD_DIR": str(self.folder / "downloads"), **self.more}
        env = {**os.environ, **own}
        if "DISPLAY" not in env:
            env["DISPLAY"] = self.display()
        port = free_port()
        self.address = f"http://127.0.0.1:{port}"
        self.start(["WebKitWebDriver", f"--port={port}"], env=env)
        until = time.monotonic() + STARTS
        while not self.is_ready():
            if time.monotonic() > until:
                raise Lost("WebKitWebDriver does not begin")
            time.sleep(0.1)
        browser = str(next(Path("/usr/lib").glob(BROWSERS)))
        options = {"binary": browser, "args": ["--automation", f"--geometry={WIDTH}x{HEIGHT}"]}
        made = self.ask("POST", "/session", {"capabilities": {"alwaysMatch": {
            "webkitgtk:browserOptions": options}}})
        self.session, self.capabilities = f"/session/{made['sessionId']}", made["capabilities"]
        self.ask("POST", "/timeouts", {"script": 1000 * SECONDS, "pageLoad": 1000 * SECONDS})

    def start(self, words: list[str], **more: Any) -> None:
        self.running.append(subprocess.Popen(
            words, stdin=subprocess.DEVNULL, stdout=subprocess.DEVNULL,
            stderr=subprocess.DEVNULL, start_new_session=True, **more))

    def display(self) -> str:
        """A display of its own."""
        read, write = os.pipe()
        self.start(["Xvfb", "-displayfd", str(write), "-screen", "0", SCREEN, "-nolisten", "tcp"],
                   pass_fds=[write])
        os.close(write)
        with os.fdopen(read) as printed:
            return f":{printed.readline().strip()}"

    def is_ready(self) -> bool:
        try:
            return bool(self.ask("GET", "/status")["ready"])
        except OSError:
            return False

    def __exit__(self, *_: object) -> None:
        try:
            if self.session:
                self.ask("DELETE", "")
        except (OSError, Lost):
            pass
        for process in reversed(self.running):
            os.killpg(process.pid, signal.SIGKILL)
            process.wait()

    def ask(self, method: str, path: str, body: Any = None) -> Any:
        """One command of WebDriver, of the session where there is one."""
        data = None if method in ("GET", "DELETE") else json.dumps(body or {}).encode()
        request = urllib.request.Request(self.address + self.session + path, data,
                                         {"Content-Type": "application/json"}, method=method)
        try:
            with urllib.request.urlopen(request, timeout=SECONDS + 30) as answer:
                return json.load(answer)["value"]
        except urllib.error.HTTPError as error:
            value = json.load(error)["value"]
            raise Lost(f"WebKit: {value['error']}: {value['message']:.300}") from error

    def open(self, path: Path) -> None:
        self.ask("POST", "/url", {"url": path.as_uri()})

    def value(self, expression: str) -> Any:
        """What a script says, which goes through a text; a promise is waited for."""
        answer = self.ask("POST", "/execute/async", {
            "script": PROMISE.replace("EXPRESSION", expression), "args": []})
        if isinstance(answer, dict):
            raise Lost(f"WebKit: {expression:.200}: {answer['fault']}")
        return json.loads(answer[0])

    def element(self, selector: str) -> str:
        it = self.ask("POST", "/element", {"using": "css selector", "value": selector})
        return f"/element/{it[ELEMENT]}"

    def choose(self, files: list[Any], chooser: str = "input[type=file]") -> None:
        """Gives the first chooser of files these, or that one."""
        self.ask("POST", f"{self.element(chooser)}/value",
                 {"text": "\n".join(str(Path(it).resolve()) for it in files)})

    def asked_for(self) -> Any:
        return self.value('performance.getEntriesByType("resource").map((it) => it.name)')

    def screenshot(self, path: Path) -> None:
        path.write_bytes(base64.b64decode(self.ask("GET", "/screenshot")))

    def processes(self) -> list[int]:
        """The processes of the browser that have pages."""
        return [pid for pid, name in below(self.running[-1].pid)
                if name.startswith("WebKitWebProces")]


def below(pid: int) -> list[tuple[int, str]]:
    """The processes below one, each with its name."""
    found: list[tuple[int, str]] = []
    for task in Path(f"/proc/{pid}/task").glob("*/children"):
        for child in map(int, task.read_text().split()):
            found += [(child, Path(f"/proc/{child}/comm").read_text().strip()), *below(child)]
    return found
