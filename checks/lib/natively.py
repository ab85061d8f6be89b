"""What the programs give of files, as the page `edfstore.html` is to give it."""
import hashlib
from dataclasses import dataclass
from pathlib import Path

from . import measure
from .checks import compare


def sum_of(data: bytes) -> str:
    return hashlib.sha256(data).hexdigest()


@dataclass
class Native:
    """The programs, and in how many seconds they gave the last answer."""
    edfstore: Path
    edfruns: Path
    edfmend: Path = None
    seconds: float = 0.0

    def run(self, program: Path, folder: Path, *words, statuses=(0,), **options) -> bytes:
        ran = measure.done(program, *words, folder=folder, statuses=statuses, **options)
        self.seconds += ran.seconds
        return ran.out

    def recording(self, folder: Path, place: int) -> list:
        self.run(self.edfstore, folder, "export", "held.db", place, out=folder / "export.edf")
        data = (folder / "export.edf").read_bytes()
        runs = self.run(self.edfruns, folder, "list", "export.edf")
        return [sum_of(data), runs.decode(),
                sum_of(self.run(self.edfruns, folder, "picture", "export.edf"))]

    def given(self, folder: Path, paths: list, shown: list = ()) -> list:
        """The same as the page gives; each file lies in a folder of its own, and has its own name
        in the lines, or that of `shown`. The last recording's file stays there as export.edf."""
        self.seconds = 0.0
        for path in folder.glob("held.db*"):
            path.unlink()
        names = [path.relative_to(folder) for path in paths]
        taken = self.run(self.edfstore, folder, "take", "held.db", *names, statuses=(0, 1))
        listed = self.run(self.edfstore, folder, "list", "held.db").decode()
        count = len(listed.splitlines())
        return [bare(taken.decode(), names, shown), listed,
                [self.recording(folder, place) for place in range(1, count + 1)]]


def bare(lines: str, names: list, shown: list) -> str:
    """The lines of files by their own names, without their folders', or by the names shown."""
    made, at = [], 0
    for nth, name in enumerate(map(str, names)):
        compare("a line of a file", lines[at:at + len(name)], name)
        stop = lines.index("\n", at + len(name)) + 1
        own = shown[nth] if shown else name[name.rfind("/") + 1:]
        made.append(own + lines[at + len(name):stop])
        at = stop
    compare("behind the lines", lines[at:], "")
    return "".join(made)


def written(folder: Path, files: list) -> list:
    """The files, each in a folder of its own, as several may have one name."""
    paths = []
    for nth, (name, data) in enumerate(files):
        (folder / f"{nth:05}").mkdir(parents=True)
        paths.append(folder / f"{nth:05}" / name)
        paths[-1].write_bytes(data)
    return paths
