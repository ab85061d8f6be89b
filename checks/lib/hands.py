"""What a person does with a page: keys, files that are chosen or dropped, the screen, and what a
screen reader is told, in Chromium and in Firefox, by the browsers' own ways."""
import base64
import json
import time
from pathlib import Path

from .checks import Lost

MOST_TABS = 120         # until a control has the focus
KEYS = {"Tab": ("\ue004", 9, ""), "Enter": ("\ue007", 13, "\r"), "Escape": ("\ue00c", 27, ""),
        "Backspace": ("\ue003", 8, ""), " ": (" ", 32, " ")}
ROLES = ("button", "checkbox", "textbox", "link", "progressbar", "image", "heading")
# Where the first of these elements is from the one with the focus: 0 there, 1 behind it, else -1
WHERE = """(...all) => {
  const at = document.activeElement;
  if (all.includes(at)) return 0;
  return at === document.body || (all[0].compareDocumentPosition(at) & 2) ? 1 : -1;
}"""
OPENED = """addEventListener("click", ({ target }) => {
  if (target.type === "file") window.opened = target.id;
}, true)"""
# Of Firefox itself, beside the page: it drops files and folders that lie at these paths. They are
# Firefox's own, the event is the script's.
DROP = """
const { classes, interfaces, utils } = Components, page = content.wrappedJSObject;
const given = utils.cloneInto({}, page);
[given.items, given.files] = [new page.Array(), new page.Array()];
for (const path of PATHS) {
  const own = classes["@mozilla.org/file/local;1"].createInstance(interfaces.nsIFile);
  own.initWithPath(path);
  const transfer = new content.DataTransfer();
  transfer.mozSetDataAt("application/x-moz-file", own, 0);
  const item = utils.cloneInto({ kind: "file" }, page);
  const entry = transfer.items[0].webkitGetAsEntry();
  utils.exportFunction(() => entry, item, { defineAs: "webkitGetAsEntry" });
  given.items.push(item);
  given.files.push(transfer.files[0]);
}
for (const type of ["dragenter", "dragover", "drop"]) {
  const event = new page.Event(type, utils.cloneInto({ bubbles: true, cancelable: true }, page));
  event.dataTransfer = given;
  page.document.getElementById("give").dispatchEvent(event);
}
"""


class Hands:
    """What all browsers have."""
    has_folders = True
    has_colours = False     # whether a page is told of other colours than those at first

    def __init__(self, browser, downloads: Path):
        self.browser, self.downloads = browser, downloads
        downloads.mkdir(parents=True, exist_ok=True)

    def go(self, role: str, name: str) -> None:
        """Presses Tab, or Shift and Tab, until the control of this role and name has the focus."""
        for _ in range(MOST_TABS):
            where = self.where(role, name)
            if where == 0:
                return
            self.press("Tab", shift=where < 0)
        raise Lost(f"no {role} {name!r} within {MOST_TABS} presses of Tab")

    def write(self, text: str) -> None:
        for letter in text:
            self.press(letter)

    def use(self, role: str, name: str, key: str = "Enter") -> None:
        self.go(role, name)
        self.press(key)

    def printed(self) -> bytes:
        """The page on paper, as a PDF; nothing where the browser's driver can't print."""
        return b""

    def saved(self, name: str, seconds: float = 20) -> bytes:
        """The bytes of what was saved under this name, which goes. No such file is empty but while
        a browser writes it."""
        path, until = self.downloads / name, time.monotonic() + seconds
        parts = ("*.crdownload", "*.part", "*.wkdownload")
        while (not path.is_file() or path.stat().st_size == 0
               or any(list(self.downloads.glob(it)) for it in parts)):
            if time.monotonic() > until:
                there = sorted(it.name for it in self.downloads.iterdir())
                raise Lost(f"{name} was not saved; there are {there}")
            time.sleep(0.05)
        data = path.read_bytes()
        path.unlink()
        return data


class ChromiumHands(Hands):
    has_colours = True

    def begin(self) -> None:
        """Once a page is open."""
        ask, session = self.browser.ask, self.browser.session
        self.browser.session = None
        ask("Browser.setDownloadBehavior", behavior="allow", downloadPath=str(self.downloads))
        self.browser.session = session
        ask("Page.setInterceptFileChooserDialog", enabled=True)
        ask("Accessibility.enable")

    def press(self, key: str, shift: bool = False) -> None:
        plain = "", ord(key.upper()[0]) if key.isalnum() else 0, key
        _, code, text = KEYS.get(key, plain)
        words = {"key": key, "code": {" ": "Space"}.get(key, key), "windowsVirtualKeyCode": code,
                 "modifiers": 8 * shift}
        self.browser.ask("Input.dispatchKeyEvent", type="keyDown" if text else "rawKeyDown",
                         text=text, **words)
        self.browser.ask("Input.dispatchKeyEvent", type="keyUp", **words)

    def found(self, role: str, name: str) -> list:
        """The elements of this role and name, by their objects."""
        root = self.browser.ask("Runtime.evaluate", expression="document")["result"]["objectId"]
        nodes = self.browser.ask("Accessibility.queryAXTree", objectId=root, role=role,
                                 accessibleName=name)["nodes"]
        return [self.browser.ask("DOM.resolveNode", backendNodeId=it["backendDOMNodeId"])
                ["object"]["objectId"] for it in nodes if not it.get("ignored")]

    def where(self, role: str, name: str) -> int:
        found = self.found(role, name)
        if not found:
            raise Lost(f"Chromium: no {role} {name!r}: {self.controls()}")
        return self.browser.ask("Runtime.callFunctionOn", objectId=found[0], returnByValue=True,
                                functionDeclaration=WHERE, arguments=[
                                    {"objectId": it} for it in found])["result"]["value"]

    @staticmethod
    def text(node: dict, part: str) -> str:
        return node.get(part, {}).get("value", "")

    def controls(self) -> list:
        """The role and the name of each control, as a screen reader is told them."""
        nodes = self.browser.ask("Accessibility.getFullAXTree")["nodes"]
        return [(self.text(it, "role"), self.text(it, "name")) for it in nodes
                if not it.get("ignored") and self.text(it, "role") in ROLES]

    def nameless(self) -> list:
        """The roles of what a screen reader has no name for."""
        return [role for role, name in self.controls() if not name]

    def has(self, role: str, name: str) -> bool:
        return bool(self.found(role, name))

    def give(self, paths: list) -> None:
        """Answers the dialog for files that a key opened."""
        self.browser.wait_for("Page.fileChooserOpened")
        opened = next(it for it in self.browser.events
                      if it.get("method") == "Page.fileChooserOpened")
        self.browser.events.remove(opened)
        self.browser.ask("DOM.setFileInputFiles", files=list(map(str, paths)),
                         backendNodeId=opened["params"]["backendNodeId"])

    def drop(self, paths: list) -> None:
        for kind in ("dragEnter", "dragOver", "drop"):
            self.browser.ask("Input.dispatchDragEvent", type=kind, x=300, y=200, data={
                "items": [], "files": list(map(str, paths)), "dragOperationsMask": 1})

    def screen(self, width: int, height: int, is_dark: bool) -> None:
        self.browser.ask("Emulation.setDeviceMetricsOverride", width=width, height=height,
                         deviceScaleFactor=1, mobile=width < 600)
        self.colours("prefers-color-scheme", "dark" if is_dark else "light")

    def colours(self, name: str, value: str) -> None:
        self.browser.ask("Emulation.setEmulatedMedia", features=[{"name": name, "value": value}])

    def printed(self) -> bytes:
        told = self.browser.ask("Page.printToPDF", preferCSSPageSize=True, printBackground=True)
        return base64.b64decode(told["data"])


class FirefoxHands(Hands):
    def begin(self) -> None:
        """Once a page is open. A headless Firefox tells of the first dialog alone of a chooser,
        so that its clicks are told by the page."""
        self.browser.value(OPENED)

    def press(self, key: str, shift: bool = False) -> None:
        keys = [KEYS.get(key, (key,))[0]]
        if shift:
            keys.insert(0, "\ue008")
        actions = [{"type": "keyDown", "value": it} for it in keys]
        actions += [{"type": "keyUp", "value": it} for it in reversed(keys)]
        self.browser.ask("input.performActions", context=self.browser.context, actions=[
            {"type": "key", "id": "keys", "actions": actions}])

    def found(self, role: str, name: str) -> list:
        locator = {"type": "accessibility", "value": {"role": role, "name": name}}
        return self.browser.ask("browsingContext.locateNodes", context=self.browser.context,
                                locator=locator)["nodes"]

    def has(self, role: str, name: str) -> bool:
        return bool(self.found(role, name))

    def nameless(self) -> list:
        """The roles of what a screen reader has no name for."""
        return [role for role in ROLES if self.found(role, "")]

    def where(self, role: str, name: str) -> int:
        nodes = [{"sharedId": it["sharedId"]} for it in self.found(role, name)]
        if not nodes:
            raise Lost(f"Firefox: no {role} {name!r}")
        told = self.browser.ask("script.callFunction", target={"context": self.browser.context},
                                awaitPromise=False, arguments=nodes, functionDeclaration=WHERE)
        return told["result"]["value"]

    def give(self, paths: list) -> None:
        """Answers the dialog for files that a key opened."""
        until = time.monotonic() + 10
        while not self.browser.value("window.opened ?? null"):
            if time.monotonic() > until:
                raise Lost("Firefox: no dialog for files")
            time.sleep(0.05)
        self.browser.choose(paths, "#" + self.browser.value("window.opened"))
        self.browser.value("window.opened = null")

    def drop(self, paths: list) -> None:
        """By an event of a script, since nothing else can drop here."""
        self.browser.do_beside(DROP.replace("PATHS", json.dumps(list(map(str, paths)))))

    def printed(self) -> bytes:
        told = self.browser.ask("browsingContext.print", context=self.browser.context,
                                background=True, page={"width": 21.0, "height": 29.7})
        return base64.b64decode(told["data"])

    def screen(self, width: int, height: int, is_dark: bool) -> None:
        """The colours are those that Firefox began with."""
        self.browser.ask("browsingContext.setViewport", context=self.browser.context,
                         viewport={"width": width, "height": height})
