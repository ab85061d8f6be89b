"""Runs a program on words or on lines of the shell, and compares its output, its errors and its
status with those expected; and the last line of every check."""
import re
import shutil
import sys
from pathlib import Path
from typing import NoReturn

from . import measure, printed

SECONDS = 60    # that a line of the shell may take
LAST = "{tried} tried, {failed} failed"         # the last line of every check


class Lost(Exception):
    """What a program lost, or answers otherwise than it must: there a check ends."""


def compare(what: str, got, expected) -> None:
    if got != expected:
        raise Lost(f"{what}\n  the program: {got!r:.600}\n  the model:   {expected!r:.600}")


def end(tried: int, failed: int) -> NoReturn:
    """Prints the last line of a check and ends it with its status."""
    print(LAST.format(tried=tried, failed=failed))
    sys.exit(0 if tried and not failed else 1)


def tried(output: str) -> int:
    """How much a check tried, by the last line of its output; 0 where that is no such line or has
    a failure."""
    last = re.fullmatch(LAST.format(tried=r"(\d+)", failed=0), output.rstrip().rpartition("\n")[2])
    return int(last[1]) if last else 0


class Checks:
    def __init__(self, program: Path, folder: Path, name: str = "edfstore"):
        self.program, self.folder, self.name = measure.Program(program, folder), folder, name
        self.done, self.failed, self.case = 0, 0, ""

    def begin(self, case: str) -> None:
        """A new case, with no files but its own."""
        for path in self.folder.iterdir():
            is_folder = path.is_dir() and not path.is_symlink()
            shutil.rmtree(path) if is_folder else path.unlink()
        self.case = case

    def file(self, name: str, data: bytes) -> None:
        (self.folder / name).write_bytes(data)

    def content(self, name: str):
        """The bytes of a file, or None where it is not there."""
        path = self.folder / name
        return path.read_bytes() if path.is_file() else None

    def names(self) -> list:
        """What is in the case's folder."""
        return sorted(path.name for path in self.folder.iterdir())

    def run(self, *words: str, given: bytes = b"", out="", err="", status: int = 0) -> None:
        """Runs the words in the case's folder; `err=None` is any text at all but none."""
        ran = self.program.ran(*words, given=given)
        self.compare(f"{self.name} {' '.join(words)}", ran, out, err, status)

    def take(self, store: str, *pairs, given: bytes = b"", status: int = 0) -> None:
        """Takes files, each of which has the answer beside its name."""
        names = [name for name, _ in pairs]
        self.run("take", store, *names, given=given, out=printed.lines(*pairs), status=status)

    def shell(self, line: str, out="", err="", status: int = 0) -> None:
        """Runs a line of the shell, in which the program has its name."""
        named = f'{self.name}() {{ "$PROGRAM" "$@"; }}; {line}'
        ran = measure.ran("bash", "-c", named, folder=self.folder, most=SECONDS,
                          added={"PROGRAM": str(self.program.path)})
        self.compare(line, ran, out, err, status)

    def compare(self, line: str, ran: measure.Ran, out, err, status: int) -> None:
        expected = out if isinstance(out, bytes) else out.encode()
        wrong = []
        if ran.out != expected:
            wrong.append(f"standard output was {ran.out[:300]!r}, expected {expected[:300]!r}")
        if (not ran.err) if err is None else (ran.err != err.encode()):
            wrong.append(f"standard error was {ran.err[:300]!r}, "
                         f"expected {'some text' if err is None else err!r}")
        if ran.status != status:
            wrong.append(f"the status was {ran.status}, expected {status}")
        self.done += 1
        if wrong:
            self.failed += 1
            print(f"{self.case}: {line[:100]}\n  " + "\n  ".join(wrong))

    def same(self, what: str, got, expected) -> None:
        """Compares what a run left."""
        self.done += 1
        if got != expected:
            self.failed += 1
            print(f"{self.case}: {what}\n  was {got!r:.300}, expected {expected!r:.300}")

    def end(self) -> NoReturn:
        end(self.done, self.failed)
