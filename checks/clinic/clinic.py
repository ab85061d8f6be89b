"""A clinic in a folder: its three trees, a service's user, uploaders, and edfclinic as they call
it. Waits are scaled: what takes minutes in a clinic takes tenths of a second here."""
import json
import os
import shutil
import signal
import subprocess
import sys
import time
from collections.abc import Callable, Iterator
from contextlib import contextmanager, suppress
from pathlib import Path
from typing import Any

import pytest

from checks.lib import disks
from checks.lib.arguments import TOP
from checks.lib.measure import Ran, done

SERVICE, UPLOADER = 61_001, 61_100      # users without a name; r01's is the next one, and so on
LONGEST = 120           # seconds of a command
DRIVER = Path(__file__).with_name("driver.py")
QUICK = {"still": "0.2 s", "unclosed": "1 s", "refuse": "0.6 s", "free_space": "1 kB",
         "watch": "00:00-24:00"}
Process = subprocess.Popen[bytes]


class Clinic:
    def __init__(self, folder: Path, programs: Path, source: Path = TOP / "clinic",
                 recorders: tuple[str, ...] = ("r01",), tables: Any = None, **config: Any):
        self.folder, self.programs, self.source = folder, programs, source
        self.inboxes, self.data = folder / "inbox", folder / "data"
        self.nights, self.config = folder / "nights", folder / "edfclinic.toml"
        self.recorders = recorders
        self.path = f"{programs}:/usr/sbin:/usr/bin:/sbin:/bin"
        self.running: list[Process] = []
        self.receiving: list[Process] = []
        for path, owner, group, mode in ((self.inboxes, 0, 0, 0o755),
                                         (self.data, SERVICE, SERVICE, 0o700),
                                         (self.nights, SERVICE, SERVICE, 0o2750)):
            self.make(path, owner, group, mode)
        for name in recorders:
            self.make(self.inboxes / name, SERVICE, self.uploader(name), 0o3770)
        self.write_config(tables or {}, **config)

    def make(self, path: Path, owner: int, group: int, mode: int) -> None:
        path.mkdir(exist_ok=True)
        os.chown(path, owner, group)
        path.chmod(mode)

    def uploader(self, recorder: str) -> int:
        """The number of its user and its group."""
        return UPLOADER + self.recorders.index(recorder) + 1

    def write_config(self, tables: dict[str, dict[str, Any]], **config: Any) -> None:
        given = {**QUICK, "inboxes": str(self.inboxes), "data": str(self.data),
                 "nights": str(self.nights), **config}
        lines = [f"{key} = {json.dumps(value)}" for key, value in given.items()]
        for name in self.recorders:
            lines += [f"[recorder.{name}]", *(f"{key} = {json.dumps(value)}"
                                              for key, value in tables.get(name, {}).items())]
        self.config.write_text("\n".join(lines) + "\n")

    def words(self, *words: Any, **how: Any) -> list[Any]:
        """The words of a process, by the driver: `how` is what it does besides."""
        return [sys.executable, "-I", DRIVER, self.source, json.dumps(how), "--config",
                self.config, *words]

    def started(self, *words: Any, uid: int = SERVICE, **how: Any) -> Process:
        groups = [self.uploader(name) for name in self.recorders] if uid else []
        child = subprocess.Popen(
            list(map(str, self.words(*words, **how))), stdin=subprocess.DEVNULL,
            stdout=subprocess.PIPE, stderr=subprocess.PIPE, cwd="/", user=uid, group=uid,
            extra_groups=groups, start_new_session=True,
            env={"PATH": self.path, "LC_ALL": "C.UTF-8"})
        self.running.append(child)
        return child

    def run(self, *words: Any, **options: Any) -> Ran:
        begun, child = time.monotonic(), self.started(*words, **options)
        try:
            out, err = child.communicate(timeout=LONGEST)
        except subprocess.TimeoutExpired:
            self.stop(child, number=signal.SIGKILL)
            raise AssertionError(f"{words} took over {LONGEST} s") from None
        self.running.remove(child)
        return Ran(child.returncode, out, err, time.monotonic() - begun)

    def done(self, *words: Any, status: int = 0, alone: bool = False, **options: Any) -> str:
        """The same; it must end with this status. It is as where a receive runs, unless this is
        alone."""
        ran = self.run(*words, attended=not alone and not self.receiving, **options)
        assert ran.status == status, f"{words}: {ran}"
        return ran.out.decode()

    def morning(self, *cards: bytes | Path, recorder: str = "r01", **options: Any) -> str:
        """What it says; a card of bytes is called card0.edf, and so on."""
        paths = [it if isinstance(it, Path) else self.card(it, f"card{nth}.edf")
                 for nth, it in enumerate(cards)]
        words = [word for path in paths for word in ("--card", path)]
        return self.done("morning", recorder, *words, **options)

    def calls(self, *words: Any, **options: Any) -> list[str]:
        """Of a command that runs through: its calls that change the file system, in their order."""
        path = self.folder / "calls"
        path.touch()
        path.chmod(0o666)
        self.done(*words, calls=str(path), **options)
        return path.read_text().splitlines()

    def wrap(self, program: str, first: str) -> None:
        """From now on this program does that first, by a shell."""
        folder = self.folder / f"first-{program}"
        folder.mkdir()
        (folder / program).write_text(f"#!/bin/sh\n{first}\n"
                                      f'exec {self.programs}/{program} "$@"\n')
        (folder / program).chmod(0o755)
        self.path = f"{folder}:{self.path}"

    @contextmanager
    def disk(self, place: Path, kilobytes: int = 8_192) -> Iterator[disks.Disk]:
        """A small disk on one of the trees, or on a folder; it is the service's."""
        if not disks.may_mount():
            pytest.skip("no tmpfs can be mounted here")
        place.mkdir(exist_ok=True)
        mode = place.stat().st_mode & 0o7777
        with disks.Disk(place, kilobytes) as made:
            self.make(place, SERVICE, SERVICE, mode)
            yield made

    def copied(self, name: str) -> "Clinic":
        """The same clinic in another folder, as it is now."""
        folder = self.folder / name
        folder.mkdir()
        other = Clinic(folder, self.programs, self.source)
        for tree_of in ("data", "nights"):
            shutil.rmtree(folder / tree_of)
            done("cp", "-a", self.folder / tree_of, folder)
        return other

    def receive(self, recorder: str = "r01", **how: Any) -> Process:
        """A receive that looks twenty times a second."""
        self.receiving.append(self.started("receive", recorder, **how))
        return self.receiving[-1]

    def stop(self, *children: Process, number: int = signal.SIGTERM) -> None:
        """Ends each, and what it began where it is killed; without a name, each receive."""
        for child in children or [*self.receiving]:
            with suppress(ProcessLookupError):
                if number == signal.SIGKILL:
                    os.killpg(child.pid, number)
                else:
                    child.send_signal(number)
            child.communicate(timeout=30)
            for running in (self.running, self.receiving):
                if child in running:
                    running.remove(child)

    def end(self) -> None:
        for child in [*self.running]:
            self.stop(child, number=signal.SIGKILL)

    def put(self, name: str | bytes, data: bytes, recorder: str = "r01") -> Path:
        """Uploads a file, as a client does that gives it its name at the end."""
        path, part = (self.inboxes / recorder / os.fsdecode(it) for it in (name, ".uploaded"))
        part.write_bytes(data)
        part.chmod(0o640)
        os.chown(part, self.uploader(recorder), self.uploader(recorder))
        return part.rename(path)

    def inbox(self, recorder: str = "r01") -> list[str]:
        return sorted(it for it in os.listdir(self.inboxes / recorder) if not it.startswith("."))

    def status(self, **how: Any) -> Any:
        ran = self.run("status", "--json", **how)
        assert ran.status in (0, 1), ran
        return json.loads(ran.out)

    def state(self, recorder: str = "r01", **how: Any) -> str:
        return str(self.status(**how)["recorders"][recorder]["state"])

    def causes(self, **how: Any) -> dict[str, str]:
        """The text of each."""
        return {it["cause"]: it["text"] for it in self.status(**how)["causes"]}

    def told(self, recorder: str = "r01") -> Any:
        """What receive wrote last, read here without a process."""
        try:
            return json.loads((self.data / recorder / "now.json").read_text())
        except FileNotFoundError:
            return {}

    def until(self, holds: Callable[[], object], what: str, seconds: float = 60) -> float:
        begun = time.monotonic()
        while not holds():
            assert time.monotonic() - begun < seconds, f"not within {seconds} s: {what}"
            time.sleep(0.02)
        return time.monotonic() - begun

    def until_taken(self, recorder: str = "r01", seconds: float = 60) -> float:
        """Till nothing is left in the inbox."""
        return self.until(lambda: not self.inbox(recorder), f"{recorder} is empty", seconds)

    def until_told(self, **wanted: object) -> Any:
        """Till receive tells these values, True for any but an empty one; then what it tells."""
        def is_so() -> bool:
            told = self.told()
            return bool(told) and all(bool(told.get(key)) if it is True else told.get(key) == it
                                      for key, it in wanted.items())
        self.until(is_so, f"{wanted or 'a first word'}")
        return self.told()

    def until_answered(self, count: int) -> None:
        """Till the log has so many lines."""
        self.until(lambda: len(self.log()) == count, f"{count} answers")

    def night_took(self, *files: dict[str, bytes]) -> None:
        """A session that takes these files, and ends; those that stand apart one after another."""
        child = self.receive()
        for those in files:
            for name, data in those.items():
                self.put(name, data)
            self.until_taken()
        self.stop(child)

    def put_away(self, files: dict[str, bytes], *cards: bytes, status: int = 0) -> list[Path]:
        """The nights after these files, and a morning with these cards."""
        self.night_took(files)
        self.morning(*cards, status=status)
        return self.archive()

    def log(self) -> list[list[str]]:
        """The lines of r01's log, as lists of their fields."""
        path = self.data / "r01/tonight/answers.log"
        return [line.split("\t") for line in path.read_text().splitlines()] if path.exists() else []

    def archive(self) -> list[Path]:
        """The folders of r01's nights, by their names."""
        return sorted(self.nights.glob("r01/[0-9]*"))

    def card(self, data: bytes, name: str = "card.edf") -> Path:
        """A card that the service's user may read."""
        path = self.folder / name
        path.write_bytes(data)
        path.chmod(0o644)
        return path


def laid(folder: Path, programs: dict[str, Path]) -> Path:
    """Copies of the programs under their names, for the service's user may not enter the folder of
    what was unpacked."""
    folder.chmod(0o755)
    for name, path in programs.items():
        shutil.copy(path.resolve(), folder / name)
        (folder / name).chmod(0o755)
    return folder


def facts(night: Path) -> Any:
    return json.loads((night / "night.json").read_text())


def tree(folder: Path) -> dict[str, tuple[str, bytes]]:
    """All that is below a folder: of each path its kind, its mode and its bytes."""
    found = {}
    for above, folders, names in os.walk(folder):
        for name in folders + names:
            path = Path(above) / name
            mode = path.lstat().st_mode
            data = path.read_bytes() if path.is_file() and not path.is_symlink() else b""
            found[str(path.relative_to(folder))] = (oct(mode), data)
    return found
