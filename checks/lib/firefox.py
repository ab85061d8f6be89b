"""A headless Firefox that is asked over its own debugging port, without packages."""
import base64
import json
import os
import signal
import socket
import struct
import subprocess
import time
from pathlib import Path

from .checks import Lost

FLAGS = ("--headless", "--no-remote", "--remote-allow-system-access", "--window-size=1280,1000")
SECONDS = 120       # that Firefox may take to answer
STARTS = 60         # seconds that it may take to begin
# No traffic of its own, what is saved goes to a folder without a question, and a script beside the
# page may give it a folder
SETTINGS = """\
user_pref("app.update.enabled", false);
user_pref("browser.download.always_ask_before_handling_new_types", false);
user_pref("browser.download.alwaysOpenPanel", false);
user_pref("browser.download.folderList", 2);
user_pref("browser.download.manager.addToRecentDocs", false);
user_pref("browser.safebrowsing.malware.enabled", false);
user_pref("browser.safebrowsing.phishing.enabled", false);
user_pref("browser.shell.checkDefaultBrowser", false);
user_pref("browser.startup.homepage_override.mstone", "ignore");
user_pref("datareporting.policy.dataSubmissionEnabled", false);
user_pref("dom.filesystem.pathcheck.disabled", true);
user_pref("extensions.getAddons.cache.enabled", false);
user_pref("network.captive-portal-service.enabled", false);
user_pref("network.connectivity-service.enabled", false);
user_pref("network.dns.disablePrefetch", true);
user_pref("services.settings.server", "http://127.0.0.1:9/");
user_pref("toolkit.telemetry.enabled", false);
"""


def free_port() -> int:
    with socket.socket() as it:
        it.bind(("127.0.0.1", 0))
        return it.getsockname()[1]


class Talk:
    """The client's side of a WebSocket on this machine: texts, each whole."""

    def __init__(self, port: int, path: str):
        self.socket = socket.create_connection(("127.0.0.1", port), timeout=SECONDS)
        key = base64.b64encode(os.urandom(16)).decode()
        self.socket.sendall((f"GET {path} HTTP/1.1\r\nHost: 127.0.0.1:{port}\r\n"
                             "Upgrade: websocket\r\nConnection: Upgrade\r\n"
                             f"Sec-WebSocket-Key: {key}\r\nSec-WebSocket-Version: 13\r\n\r\n")
                            .encode())
        self.had = b""
        while b"\r\n\r\n" not in self.had:
            self.more()
        head, _, self.had = self.had.partition(b"\r\n\r\n")
        if b" 101 " not in head.partition(b"\r\n")[0]:
            raise Lost(f"Firefox refused to talk: {head[:200]!r}")

    def more(self) -> None:
        try:
            got = self.socket.recv(1 << 20)
        except TimeoutError as error:
            raise Lost(f"Firefox does not answer in {SECONDS} s") from error
        if not got:
            raise Lost("Firefox has ended")
        self.had += got

    def send(self, text: str) -> None:
        body, mask = text.encode(), os.urandom(4)
        size = len(body)
        if size < 126:
            head = struct.pack("!BB", 0x81, 0x80 | size)
        elif size < 65_536:
            head = struct.pack("!BBH", 0x81, 0xFE, size)
        else:
            head = struct.pack("!BBQ", 0x81, 0xFF, size)
        masked = bytes(byte ^ mask[at & 3] for at, byte in enumerate(body))
        self.socket.sendall(head + mask + masked)

    def take(self, size: int) -> bytes:
        parts, left = [], size
        while left:
            if not self.had:
                self.more()
            parts.append(self.had[:left])
            self.had = self.had[len(parts[-1]):]
            left -= len(parts[-1])
        return b"".join(parts)

    def frame(self) -> tuple:
        first, second = self.take(2)
        size = second & 127
        if size == 126:
            size = struct.unpack("!H", self.take(2))[0]
        elif size == 127:
            size = struct.unpack("!Q", self.take(8))[0]
        return first & 128, first & 15, self.take(size)

    def message(self) -> str:
        """The next text; pings are none."""
        text = b""
        while True:
            is_last, kind, body = self.frame()
            if kind < 3:
                text += body
                if is_last:
                    return text.decode()


class Firefox:
    """A headless Firefox, until the `with` ends."""

    def __init__(self, folder: Path, **more):
        """`more` are further settings, with `_` in place of each dot."""
        folder.mkdir(exist_ok=True)
        told = {"browser_download_dir": f"{folder}/downloads"} | more
        (folder / "user.js").write_text(SETTINGS + "".join(
            f'user_pref("{name.replace("_", ".")}", {json.dumps(value)});\n'
            for name, value in told.items()))
        port = free_port()
        self.child = subprocess.Popen(
            ["firefox-esr", *FLAGS, "--profile", folder, "--remote-debugging-port", str(port)],
            stdin=subprocess.DEVNULL, stdout=subprocess.DEVNULL, stderr=subprocess.DEVNULL,
            env={**os.environ, "HOME": str(folder)}, start_new_session=True)
        self.count, self.events = 0, []
        self.port = port

    def __enter__(self) -> "Firefox":
        try:
            self.begin()
        except BaseException:
            self.__exit__()
            raise
        return self

    def begin(self) -> None:
        self.talk = self.connected(self.port)
        self.ask("session.new", capabilities={
            "alwaysMatch": {"unhandledPromptBehavior": {"file": "dismiss"}}})
        # The first tab never has the focus, without which no key presses a button
        self.context = self.ask("browsingContext.create", type="tab")["context"]
        self.ask("session.subscribe", events=["network.beforeRequestSent", "log.entryAdded"])

    def __exit__(self, *_) -> None:
        os.killpg(self.child.pid, signal.SIGKILL)
        self.child.wait()

    def connected(self, port: int) -> Talk:
        until = time.monotonic() + STARTS
        while True:
            try:
                return Talk(port, "/session")
            except OSError as error:
                if time.monotonic() > until:
                    raise Lost(f"Firefox does not begin: {error}") from error
                time.sleep(0.2)

    def ask(self, method: str, **words) -> dict:
        self.count += 1
        self.talk.send(json.dumps({"id": self.count, "method": method, "params": words}))
        while True:
            told = json.loads(self.talk.message())
            if told.get("id") == self.count:
                if told["type"] == "error":
                    raise Lost(f"Firefox: {method}: {told['error']}: {told['message']:.300}")
                return told["result"]
            self.events.append(told)

    def open(self, path: Path) -> None:
        self.events.clear()
        self.ask("browsingContext.navigate", context=self.context, url=path.as_uri(),
                 wait="complete")

    def value(self, expression: str):
        """What a script says, which goes through a text."""
        told = self.ask("script.evaluate", target={"context": self.context}, awaitPromise=True,
                        expression=f"(async () => JSON.stringify(await ({expression})))()")
        if told["type"] != "success":
            raise Lost(f"Firefox: {expression:.200}: {told['exceptionDetails']['text']}")
        text = told["result"].get("value")
        return None if text is None else json.loads(text)

    def do_beside(self, script: str) -> None:
        """Has a script of Firefox itself run beside the page, which it knows as `content`."""
        windows = self.ask("browsingContext.getTree", **{"moz:scope": "chrome"})["contexts"]
        address = "data:text/javascript;base64," + base64.b64encode(script.encode()).decode()
        told = self.ask("script.evaluate", target={"context": windows[0]["context"]},
                        awaitPromise=False, expression="gBrowser.selectedBrowser.messageManager."
                        f"loadFrameScript({json.dumps(address)}, false)")
        if told["type"] != "success":
            raise Lost(f"Firefox: {told['exceptionDetails']['text']}")

    def choose(self, files: list, chooser: str = "input[type=file]") -> None:
        """Gives the first chooser of files these, or that one."""
        found = self.ask("browsingContext.locateNodes", context=self.context,
                         locator={"type": "css", "value": chooser})
        self.ask("input.setFiles", context=self.context,
                 element={"sharedId": found["nodes"][0]["sharedId"]}, files=list(map(str, files)))

    def asked_for(self) -> list:
        """What the page asked for, but for what it has itself."""
        asked = [event["params"]["request"]["url"] for event in self.events
                 if event.get("method") == "network.beforeRequestSent"]
        return [url for url in asked if not url.startswith(("data:", "blob:", "file:"))]

    def screenshot(self, path: Path) -> None:
        shot = self.ask("browsingContext.captureScreenshot", context=self.context,
                        origin="document")
        path.write_bytes(base64.b64decode(shot["data"]))
