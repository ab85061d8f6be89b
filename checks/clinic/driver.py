"""Runs edfclinic from a folder, with short waits; ends it, as a kill does, before or behind the
nth call that changes the file system.

    python3 -I driver.py SOURCE HOW WORDS...

HOW is JSON: `kill` [N, "before" or "behind"]; `calls` a file that gets a line for each such call. A
call of a program counts as one, too. `exchange` [NAME, OTHER]: while NAME is opened, and only then,
it is the other file. `over` [NAME, OTHER]: before NAME is removed or gets another name, OTHER is
renamed over it. `set` has other values of constants, as {"programs.MOST_RUNS": 10}; `clock` is a
file with the seconds by which the host's clock is set on. `attended`: as where a receive runs.
"""
import ctypes
import json
import os
import signal
import subprocess
import sys
from collections.abc import Callable
from datetime import datetime, timedelta
from pathlib import Path
from typing import Any

CHANGING = ("mkdir", "rename", "unlink", "rmdir", "write", "ftruncate", "fsync", "open")
MADE, RENAME_EXCHANGE = os.O_CREAT | os.O_TRUNC, 2


class Counter:
    """Counts calls, and ends at one of them."""

    def __init__(self, how: dict[str, Any]):
        self.count, self.kill_at = 0, tuple(how.get("kill", ()))
        self.lines = os.open(how["calls"], os.O_WRONLY | os.O_CREAT, 0o666) \
            if "calls" in how else None
        self.own = {name: getattr(os, name) for name in CHANGING}

    def around(self, what: str, call: Callable[[], Any]) -> Any:
        self.count += 1
        nth = self.count
        if self.lines is not None:
            self.own["write"](self.lines, f"{nth} {what}\n".encode())
        if (nth, "before") == self.kill_at:
            os.kill(os.getpid(), signal.SIGKILL)
        try:
            return call()
        finally:
            if (nth, "behind") == self.kill_at:
                os.kill(os.getpid(), signal.SIGKILL)

    def watch(self) -> None:
        for name in CHANGING:
            setattr(os, name, self.watched(name, self.own[name]))
        begin = subprocess.Popen.__init__

        def begun(child: Any, words: Any, *rest: Any, **options: Any) -> None:
            self.around(f"program {' '.join(map(str, words[:2]))}",
                        lambda: begin(child, words, *rest, **options))
        setattr(subprocess.Popen, "__init__", begun)

    def watched(self, name: str, own: Callable[..., Any]) -> Callable[..., Any]:
        def call(*words: Any, **options: Any) -> Any:
            is_made = name != "open" or len(words) > 1 and words[1] & MADE
            if not is_made or words[0] == self.lines:
                return own(*words, **options)
            return self.around(f"{name} {words[0]}", lambda: own(*words, **options))
        return call


def shift(path: str) -> None:
    """The host's clock is set forward by the seconds that stand in this file."""
    class Shifted(datetime):
        @classmethod
        def now(cls, tz: Any = None) -> Any:
            return datetime.now(tz) + timedelta(seconds=float(Path(path).read_text()))
    setattr(sys.modules["edfclinic.text"], "datetime", Shifted)


def around(calls: tuple[str, ...], name: str, before: Callable[[int], None],
           behind: Callable[[int], None] = lambda _: None) -> None:
    """Does that with the folder where one of these calls of a name of it is made."""
    for call in calls:
        def called(path: Any, *words: Any, own: Any = getattr(os, call), **options: Any) -> Any:
            folder = options.get("src_dir_fd", options.get("dir_fd"))
            if path != name or folder is None:
                return own(path, *words, **options)
            before(folder)
            try:
                return own(path, *words, **options)
            finally:
                behind(folder)
        setattr(os, call, called)


def exchange(name: str, other: str) -> None:
    def swap(folder: int) -> None:
        ctypes.CDLL(None).renameat2(folder, name.encode(), folder, other.encode(), RENAME_EXCHANGE)
    around(("open",), name, swap, swap)


def rename_over(name: str, other: str) -> None:
    def over(folder: int, rename: Any = os.rename) -> None:
        if other in os.listdir(folder):
            rename(other, name, src_dir_fd=folder, dst_dir_fd=folder)
    around(("rename", "unlink"), name, over)


def main() -> None:
    source, how = sys.argv[1], json.loads(sys.argv[2])
    sys.argv = ["edfclinic", *sys.argv[3:]]
    sys.path.insert(0, source)
    sys.dont_write_bytecode = True
    from edfclinic import __main__, morning, receive   # type: ignore[import]
    morning.RUNS = 0.3
    receive.TICK, receive.RESTART, receive.AGAIN = 0.05, 0.2, 0.3
    if how.get("attended"):
        setattr(morning, "is_receiving", lambda _: True)
    for name, value in how.get("set", {}).items():
        module, _, key = name.partition(".")
        setattr(sys.modules[f"edfclinic.{module}"], key, value)
    if "clock" in how:
        shift(how["clock"])
    if "exchange" in how:
        exchange(*how["exchange"])
    if "over" in how:
        rename_over(*how["over"])
    if how.keys() & {"kill", "calls"}:
        Counter(how).watch()
    sys.exit(__main__.main())


main()
