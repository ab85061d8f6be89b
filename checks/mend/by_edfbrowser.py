"""A file of EDFbrowser's converter of ASCII, made in a window that nobody sees."""
import math
import os
import subprocess
import time
from collections.abc import Iterator
from contextlib import contextmanager
from pathlib import Path
from typing import Any

TOOLS = ("edfbrowser", "Xvfb", "xdotool")
CONVERTER = "ASCII to EDF/BDF converter"
PATIENCE = 60       # seconds for a window
# Places in the converter's window, which is moved to the corner of the screen
FREQUENCY, SUBJECT, RECORDING, START = ("225", "126"), ("425", "177"), ("425", "208"), ("50", "488")


@contextmanager
def running(words: list[str], environment: dict[str, str], **given: Any) -> Iterator[Any]:
    """A program, which is ended afterwards."""
    with subprocess.Popen(words, env=environment, stderr=subprocess.DEVNULL, **given) as program:
        try:
            yield program
        finally:
            program.kill()


class Screen:
    """What is typed and clicked on a screen."""

    def __init__(self, environment: dict[str, str]):
        self.environment = environment

    def do(self, *words: str) -> str:
        return subprocess.run(["xdotool", *words], env=self.environment, check=True, text=True,
                              capture_output=True, timeout=30).stdout

    def window(self, name: str) -> str:
        """The window of that name, once it is there. Where another one ends meanwhile, xdotool
        fails: then it is searched again."""
        ends = time.monotonic() + PATIENCE
        while True:
            try:
                found = self.do("search", "--onlyvisible", "--name", name).split()[-1]
                break
            except subprocess.CalledProcessError:
                if time.monotonic() > ends:
                    raise
                time.sleep(0.2)
        self.do("windowfocus", "--sync", found)
        time.sleep(0.5)
        return found

    def write(self, place: tuple[str, str], text: str) -> None:
        self.do("mousemove", *place, "click", "--repeat", "3", "1")
        self.do("type", text)

    def answer(self, name: str, path: Path) -> None:
        """Names a file where a window asks for one."""
        self.window(name)
        self.do("key", "ctrl+a")
        self.do("type", str(path))
        self.do("key", "Return")


def convert(screen: Screen, source: Path, made: Path) -> None:
    screen.window("^EDFbrowser")
    screen.do("key", "alt+o")
    time.sleep(0.5)
    screen.do("key", "--repeat", "11", "--delay", "60", "Down")     # the twelfth tool
    screen.do("key", "Return")
    screen.do("windowmove", "--sync", screen.window(CONVERTER), "0", "0")
    screen.write(FREQUENCY, "200")
    screen.write(SUBJECT, "Haagse Harry")
    screen.write(RECORDING, "Night 1")
    screen.do("mousemove", *START, "click", "1")
    screen.answer("Open ASCII file", source)
    screen.answer("Output file", made)
    screen.window("Ready")


def by_edfbrowser(folder: Path) -> Path:
    """Five seconds of one signal, as plain EDF."""
    source, made = folder / "ascii.txt", folder / "edfbrowser.edf"
    source.write_text("".join(f"{round(1000 * math.sin(nth / 10))}\n" for nth in range(1000)))
    reading, writing = os.pipe()
    environment = {**os.environ, "HOME": str(folder)}
    words = ["Xvfb", "-displayfd", str(writing), "-screen", "0", "1024x768x24"]
    with running(words, environment, pass_fds=(writing,)):
        os.close(writing)
        with os.fdopen(reading) as told:
            environment["DISPLAY"] = ":" + told.readline().strip()
        with running(["edfbrowser"], environment):
            convert(Screen(environment), source, made)
    return made


if __name__ == "__main__":
    import sys
    print(by_edfbrowser(Path(sys.argv[1])).stat().st_size)
