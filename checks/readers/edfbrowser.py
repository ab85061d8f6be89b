"""What EDFbrowser reads of a file, without a person or a display: it runs on a screen of Xvfb,
opens the file over its remote control, and its tools "Export EDF/BDF to ASCII", "Export
annotations/events" and "Convert EDF+D to EDF+C" are called by their keys.

It needs edfbrowser, xvfb, xdotool and x11-utils. Only the programs that are started here are ended
here, with all that they started, and each file has a limit of time.
"""
import os
import shutil
import signal
import socket
import subprocess
import tempfile
import time
from collections.abc import Callable
from datetime import datetime
from pathlib import Path
from typing import Any

from checks.lib import measure
from checks.readers import reading

numpy = reading.numpy       # type: ignore[attr-defined]

NEEDED = ("edfbrowser", "Xvfb", "xdotool", "xwininfo")
PATIENCE = 600      # seconds for a file
SHORT = 120         # the same of a short one
TRIES = 3           # of a short one, where a window is so slow that it gets no key
ROUNDED = 1e-6      # the tool adds up steps between samples that are cut off at some digit
# from the first of the menu of tools to this one
DOWN_TO_ANNOTATIONS, DOWN_TO_ASCII, DOWN_TO_CONTINUOUS = 5, 6, 18
DURATIONS = ("30", "565")       # the box that asks for durations of annotations
CONVERTER = "EDF+D/BDF+D to EDF+C/BDF+C converter"
ERRORS = {"107": "discontinuous"}
Note = tuple[float, float, str]


def ended(child: subprocess.Popen[bytes]) -> None:
    """Ends a program that leads a group, and all that is in it."""
    os.killpg(child.pid, signal.SIGTERM)
    try:
        child.wait(5)
    except subprocess.TimeoutExpired:
        os.killpg(child.pid, signal.SIGKILL)
        child.wait()


class Browser:
    """EDFbrowser on a screen of its own: both end with it."""

    def __init__(self, folder: Path, patience: float = PATIENCE):
        self.patience, self.folder = patience, folder / "edfbrowser"
        self.children: list[subprocess.Popen[bytes]] = []
        self.has_durations = False      # the box stays as it was clicked
        self.folder.mkdir()
        self.begin()
        try:
            self._start()
        except BaseException:
            self.end()
            raise

    def __enter__(self) -> "Browser":
        return self

    def __exit__(self, *_: object) -> None:
        self.end()

    def begin(self) -> None:
        """A file, with all of the time that one has."""
        self.ends = time.monotonic() + self.patience

    def left(self) -> float:
        """Seconds that the file still has."""
        return max(self.ends - time.monotonic(), 0.1)

    def waited(self, what: str, is_so: Callable[[], object]) -> None:
        while not is_so():
            if time.monotonic() > self.ends:
                raise TimeoutError(f"{what} did not come in {self.patience} s")
            time.sleep(0.2)

    def _started(self, *words: str, **options: Any) -> None:
        self.children.append(subprocess.Popen(words, stderr=subprocess.DEVNULL,
                                              start_new_session=True, **options))

    def _start(self) -> None:
        reads, writes = os.pipe()
        self._started("Xvfb", "-displayfd", str(writes), "-screen", "0", "1280x900x24", "-nolisten",
                      "tcp", pass_fds=[writes])
        os.close(writes)
        with os.fdopen(reads) as number:
            self.place = {"DISPLAY": f":{number.readline().strip()}", "HOME": str(self.folder),
                          "QT_QPA_PLATFORM": "xcb", "XDG_RUNTIME_DIR": str(self.folder),
                          "LC_ALL": "C.UTF-8"}
        with socket.create_server(("127.0.0.1", 0)) as free:
            port = free.getsockname()[1]
        self._started("edfbrowser", f"--rc-host-port={port}", env=os.environ | self.place,
                      cwd=self.folder, stdout=subprocess.DEVNULL)
        self.waited("the program", lambda: self._connects(port))
        self.name = "EDFbrowser " + self.asked("*IDN?").split(",")[1]

    def _connects(self, port: int) -> bool:
        try:
            self.line = socket.create_connection(("127.0.0.1", port), timeout=PATIENCE)
        except ConnectionRefusedError:
            return False
        return True

    def end(self) -> None:
        while self.children:
            ended(self.children.pop())

    def sent(self, words: str) -> None:
        self.line.sendall(words.encode() + b"\n")
        self.waited(words, lambda: self.asked("*OPC?") == "1")

    def asked(self, words: str) -> str:
        self.line.settimeout(self.left())
        self.line.sendall(words.encode() + b"\n")
        return self.line.recv(4096).decode().strip()

    def windows(self, title: str) -> list[str]:
        """The windows of this title, the newest first. A window that ends while they are listed is
        a fault of xwininfo: it lists again."""
        for _ in range(20):
            listed = measure.ran("xwininfo", "-root", "-tree", added=self.place, most=self.left())
            if listed.status == 0:
                break
            time.sleep(0.1)
        else:
            raise RuntimeError("the windows can't be listed")
        lines = listed.out.decode(errors="replace").splitlines()
        return [line.split()[0] for line in lines if f'"{title}"' in line]

    def pressed(self, window: str, *keys: str) -> None:
        self._did(window, "key", "--delay", "60", *keys)

    def _did(self, window: str, *words: str) -> None:
        ran = measure.ran("xdotool", "windowfocus", "--sync", window, *words, added=self.place,
                          most=self.left())
        if ran.status:
            raise TimeoutError(f"xdotool: {ran}")

    def open(self, path: Path) -> str:
        """Opens the file alone; the number of its error, 0 where there is none."""
        self.begin()
        self.sent("*RST")
        self.asked("SYSTEM:ERROR?")
        self.sent(f"FILE:OPEN {path}")
        return self.asked("SYSTEM:ERROR?")

    def exported(self, path: Path) -> None:
        """The open file as text files beside it, by the tool of the menu."""
        self._called(path, DOWN_TO_ASCII)
        for windows in (1, 2):
            # the tool's window, and the one that asks for the name of the file
            self.waited("the window of the tool",
                        lambda: len(self.windows("Export to ASCII")) == windows)
            time.sleep(1)
            self.pressed(self.windows("Export to ASCII")[0], "Return")
        self.waited("the end of the export", lambda: not self.windows("Export to ASCII"))

    def annotated(self, path: Path) -> None:
        """The annotations of the open file, which has some, beside it, in UTF-8 and with durations.
        What the other tool wrote of them, in Latin-1, is away."""
        self._called(path, DOWN_TO_ANNOTATIONS)
        for title in ("Export annotations", "Output file", "Ready"):
            self.waited(f"the window {title}", lambda: self.windows(title))
            time.sleep(1)
            window = self.windows(title)[0]
            if title == "Export annotations" and not self.has_durations:
                self._did(window, "mousemove", "--window", window, *DURATIONS, "click", "1")
                self.has_durations = True
            self.pressed(window, "Return")
        self.waited("the end of the tool", lambda: not self.windows("Export annotations"))

    def _called(self, path: Path, down: int) -> None:
        """Calls the tool that stands so far down in the menu."""
        title = f"{path.name} - EDFbrowser"
        self.waited("the window of the file", lambda: self.windows(title))
        time.sleep(1)
        self.pressed(self.windows(title)[0], "alt+o", *["Down"] * down, "Return")

    def converted(self, path: Path) -> list[Path]:
        """The files that the tool makes of an EDF+D file, beside it, in order. No file is open."""
        self.begin()
        self.sent("*RST")
        self.waited("the window", lambda: self.windows("EDFbrowser"))
        time.sleep(1)
        down = ["Down"] * DOWN_TO_CONTINUOUS
        self.pressed(self.windows("EDFbrowser")[0], "alt+o", *down, "Return")
        for title in (CONVERTER, "Select inputfile"):
            self.waited(f"the window {title}", lambda: self.windows(title))
            time.sleep(1)
            if title == CONVERTER:
                self.pressed(self.windows(title)[0], "Return")
        asking = self.windows("Select inputfile")[0]
        self._did(asking, "type", "--delay", "40", str(path))
        self.pressed(asking, "Return")
        self.waited("the end of the conversion", lambda: self._is_at_rest(path))
        self.pressed(self.windows(CONVERTER)[0], "Escape")
        self.waited("the end of the tool", lambda: not self.windows(CONVERTER))
        return self._made_of(path)

    def _made_of(self, path: Path) -> list[Path]:
        return sorted(path.parent.glob(f"{path.stem}_*.edf"))

    def _is_at_rest(self, path: Path) -> bool:
        """Whether the tool made files that did not grow in two seconds."""
        before = [made.stat().st_size for made in self._made_of(path)]
        time.sleep(2)
        return bool(before) and before == [made.stat().st_size for made in self._made_of(path)]


def alone(path: Path, folder: Path, samples: tuple[int, ...]) -> reading.Content:
    """The same as below, by an EDFbrowser for this short file alone."""
    nth = 1
    while True:
        try:
            with tempfile.TemporaryDirectory(dir=folder) as name, \
                    Browser(Path(name), SHORT) as browser:
                return by_edfbrowser(path, browser, samples)
        except TimeoutError:
            if nth == TRIES:
                raise
        nth += 1


def by_edfbrowser(path: Path, browser: Browser, samples: tuple[int, ...]) -> reading.Content:
    """Samples, their times and annotations, as the tools write them. A comma in a text is a dot
    there."""
    copy = browser.folder / path.name
    shutil.copy(path, copy)
    error = browser.open(copy)
    if error != "0":
        raise ValueError(f"error {error}, {ERRORS.get(error, 'another')}")
    browser.exported(copy)
    header, data, notes, signals = (copy.with_name(f"{path.stem}_{part}.txt")
                                    for part in ("header", "data", "annotations", "signals"))
    fields = header.read_text("latin-1").splitlines()[1].split(",")
    begun = datetime.strptime(f"{fields[3]} {fields[4]}", "%d.%m.%y %H.%M.%S")
    values, times = read_rows(data, samples, int(fields[7]), float(fields[8]))
    has_some = notes.read_bytes().count(b"\n") > 1
    notes.unlink()
    read = notes_of(browser, copy, notes, times[0]) if has_some else []
    for made in (copy, header, data, signals):
        made.unlink()
    return reading.Content(reading.since_epoch(begun), values, times, read)


def notes_of(browser: Browser, path: Path, made: Path, first: float) -> list[Note]:
    """The annotations of the open file by the tool for them, which counts from the first data
    record. The other one cuts a text at a character that is not in Latin-1."""
    browser.annotated(path)
    lines = [line.split(",", 2) for line in made.read_text("utf-8").splitlines()[1:]]
    made.unlink()
    return [(float(onset) + first, float(duration or 0), text) for onset, duration, text in lines]


def read_rows(data: Path, samples: tuple[int, ...], records: int,
              duration: float) -> tuple[list[Any], list[float]]:
    """Digital samples by signal, and the start of each data record. A row has a time, and each
    signal that has a sample then; each sample of a signal must be at its time in its data
    record."""
    times: list[list[float]] = [[] for _ in samples]
    values: list[list[float]] = [[] for _ in samples]
    with open(data, encoding="ascii") as rows:
        next(rows)
        for row in rows:
            at, *texts = row.rstrip("\n").split(",")
            for nth, text in enumerate(texts):
                if text:
                    times[nth].append(float(at))
                    values[nth].append(float(text))
    starts = numpy.array(times[0])[::samples[0]]
    for nth, (found, count) in enumerate(zip(times, samples), 1):
        wanted = starts[:, None] + numpy.arange(count) * duration / count
        if abs(numpy.array(found).reshape(records, count) - wanted).max() > ROUNDED:
            raise ValueError(f"samples of signal {nth} at other times")
    return [reading.digital(numpy.array(column)) for column in values], list(starts)
