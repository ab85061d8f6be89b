"""What a person does with a page in WebKit: keys alone, and what a screen reader is told."""
from __future__ import annotations

import base64
import json
import time
from pathlib import Path
from typing import Any

from .checks import Lost
from .hands import KEYS, MOST_TABS, OPENED, ROLES, WHERE, Hands
from .webkit import ELEMENT

# Elements that may have these roles; WebDriver tells the name of each.
MAY = {"button": "button, input[type=submit]", "checkbox": "input[type=checkbox]",
       "textbox": "input[type=text], textarea", "link": "a[href]", "progressbar": "progress",
       "image": "img", "heading": "h1, h2, h3, h4, h5"}
SEEN = """return [...document.querySelectorAll(MAY)].filter((it) => it.checkVisibility())"""
DROPPED = """(() => {
  const transfer = new DataTransfer();
  for (const [name, text] of FILES) {
    const bytes = Uint8Array.from(atob(text), (it) => it.charCodeAt(0));
    transfer.items.add(new File([bytes], name));
  }
  for (const type of ["dragenter", "dragover", "drop"]) {
    byId("give").dispatchEvent(new DragEvent(type,
      { bubbles: true, cancelable: true, dataTransfer: transfer }));
  }
})()"""


class WebKitHands(Hands):
    has_folders = False     # none can be chosen or dropped

    def begin(self) -> None:
        """Once a page is open. The driver answers the dialog of a chooser with no file."""
        self.browser.value(OPENED.replace("addEventListener", "void addEventListener", 1))

    def press(self, key: str, shift: bool = False) -> None:
        keys = [*["\ue008"] * shift, KEYS.get(key, (key,))[0]]
        actions = [{"type": "keyDown", "value": it} for it in keys]
        actions += [{"type": "keyUp", "value": it} for it in reversed(keys)]
        self.browser.ask("POST", "/actions", {"actions": [
            {"type": "key", "id": "keys", "actions": actions}]})

    def do(self, script: str, *given: Any) -> Any:
        return self.browser.ask("POST", "/execute/sync", {"script": script, "args": list(given)})

    def named(self, role: str) -> list[tuple[Any, str]]:
        """The elements of a role, each with its name."""
        found = self.do(SEEN.replace("MAY", json.dumps(MAY[role])))
        return [(it, self.browser.ask("GET", f"/element/{it[ELEMENT]}/computedlabel"))
                for it in found]

    def found(self, role: str, name: str) -> list[Any]:
        return [it for it, own in self.named(role) if own == name]

    def where(self, role: str, name: str) -> int:
        found = self.found(role, name)
        if not found:
            raise Lost(f"WebKit: no {role} {name!r}: {[own for _, own in self.named(role)]}")
        return int(self.do(f"return ({WHERE})(...arguments)", *found))

    def go(self, role: str, name: str) -> None:
        """The same, but names are asked for once, since each takes a call."""
        found = self.found(role, name)
        if not found:
            raise Lost(f"WebKit: no {role} {name!r}: {[own for _, own in self.named(role)]}")
        for _ in range(MOST_TABS):
            where = self.do(f"return ({WHERE})(...arguments)", *found)
            if where == 0:
                return
            self.press("Tab", shift=where < 0)
        raise Lost(f"WebKit: no {role} {name!r} within {MOST_TABS} presses of Tab")

    def has(self, role: str, name: str) -> bool:
        return bool(self.found(role, name))

    def nameless(self) -> list[str]:
        """The roles of what a screen reader has no name for."""
        return [role for role in ROLES for _, name in self.named(role) if not name]

    def give(self, paths: list[Any]) -> None:
        """Answers the dialog for files that a key opened."""
        until = time.monotonic() + 10
        while not self.browser.value("window.opened ?? null"):
            if time.monotonic() > until:
                raise Lost("WebKit: no dialog for files")
            time.sleep(0.05)
        self.browser.choose(paths, "#" + self.browser.value("window.opened"))
        self.browser.value("window.opened = null")

    def drop(self, paths: list[Any]) -> None:
        """By an event of a script."""
        files = [[it.name, base64.b64encode(it.read_bytes()).decode()] for it in map(Path, paths)]
        self.browser.value(DROPPED.replace("FILES", json.dumps(files)))

    def screen(self, width: int, height: int, is_dark: bool) -> None:
        """The colours are those that it began with. Each download takes some of the height."""
        self.browser.ask("POST", "/window/rect", {"width": width, "height": height + 600})
