"""Runs edfstore, edfserve, edfruns and edfmend, for a limited time, and reads their lines."""
import ctypes
import os
import re
import resource
import select
import signal
import subprocess
import tempfile
import time
from bisect import bisect_right
from collections.abc import Sequence
from contextlib import nullcontext, suppress
from typing import IO, NamedTuple

from . import files, text
from .config import Recorder
from .text import Trouble

SECONDS, BYTES_A_SECOND = 120, 500_000      # that a program has for a file
MEMORY, WIDENED, MOST_RUNS = 4 << 30, 1 << 30, 500_000  # the last of a file, and of a night
TOO_MANY = f"refused: it has more than {MOST_RUNS:,} gaps"
TOO_LARGE = "refused: with it night.edf might have more bytes than largest_export"
SAID, HUGE = 1 << 28, (0, 1, -signal.SIGXFSZ)       # bytes that one says; where it writes too many
Room = tuple[int, int]                      # bytes of a file that it writes, and of memory
C_LIBRARY, PR_SET_PDEATHSIG = ctypes.CDLL(None), 1
TEXTS = b"EDF Annotations "             # the label of their signal
RUN = re.compile(r"\d+ records=\d+ first=(\S+) seconds=([\d.]+)(?: .*)?")
HELD = re.compile(r"(\d+) records=\d+ first=\S+ patient=(\S*) investigation=(\S*)")
OF_THE_FILE, NEW = re.compile(r"refused(?::| E[123]?\d\b)"), re.compile(r"accepted new=(\d+)")
CONFLICTS = ("refused E30 ", "refused E31 ")
Ran = NamedTuple("Ran", [("status", int), ("out", bytes), ("err", bytes), ("why", str)])
# A stretch without a gap, in nanoseconds.
Run = NamedTuple("Run", [("first", int), ("end", int)])
Held = NamedTuple("Held", [("place", int), ("patient", str), ("investigation", str)])


def limit(path: str) -> float:
    return SECONDS + os.stat(path).st_size / BYTES_A_SECOND


def room_of(path: str) -> Room:
    """Of a file that is made of this one: one long text widens each data record of it."""
    return max(WIDENED, 4 * os.stat(path).st_size), MEMORY


def begin(words: list[str], folder: str, out: int, err: IO[bytes], room: Room,
          given: int = subprocess.DEVNULL) -> subprocess.Popen[bytes]:
    def limited() -> None:
        C_LIBRARY.prctl(PR_SET_PDEATHSIG, signal.SIGKILL)   # it ends with the one that began it
        for kind, value in zip((resource.RLIMIT_FSIZE, resource.RLIMIT_AS), room):
            own = resource.getrlimit(kind)[1]
            value = value if own == resource.RLIM_INFINITY else min(value, own)
            resource.setrlimit(kind, (value, value))
    return subprocess.Popen(words, cwd=folder, stdin=given, stdout=out, stderr=err,
                            env={**os.environ, "EDFSTORE_CAUSES": "1"}, preexec_fn=limited)


def said_in(file: IO[bytes], most: int) -> bytes:
    return os.pread(file.fileno(), min(most, os.fstat(file.fileno()).st_size), 0)


def ended(child: subprocess.Popen[bytes], seconds: float) -> int:
    with suppress(subprocess.TimeoutExpired):
        child.wait(seconds)
    child.kill()
    return child.wait()


def run(words: list[str], folder: str, of: str, fits: tuple[int, ...] = (), out: str = "",
        room: Room | None = None) -> Ran:
    """Runs a program to its end, in the time for the file `of`; `out` is the file that it writes.
    Where `fits` has some, any other status is trouble."""
    room = room or (room_of(of) if out else (SAID, MEMORY))
    with tempfile.TemporaryFile() as err, tempfile.TemporaryFile() as said, \
            (files.opened(files.join(folder, out), files.MADE) if out
             else nullcontext(said.fileno())) as fd:
        status = ended(begin(words, folder, fd, err, room), limit(of))
        if out:
            os.fsync(fd)
        told, why = said_in(said, SAID), said_in(err, 1 << 20)
    lines = text.spell_lines(why)[-2:] or [f"status {status}"]
    lines += [f"it was ended: {signal.strsignal(-status)}"] if status < 0 else []
    if fits and status not in fits:
        raise Trouble(f"{' '.join(words[:2])}: {'; '.join(lines)}")
    return Ran(status, told, why, "; ".join(lines))


def accepted(answer: str) -> bool:
    return answer.startswith("accepted ")


def is_trouble(answer: str) -> bool:
    return not accepted(answer) and not OF_THE_FILE.match(answer)


def code_of(path: str) -> str:
    """The patient's, as the head of a file of EDF has it; nothing where it is none."""
    with files.opened(path) as fd:
        head = os.pread(fd, 88, 0)
    return text.spell(os.fsdecode(head[8:].split(b" ")[0])) if head[:8] == b"0       " else ""


def widths(path: str) -> tuple[int, int]:
    """The bytes of a data record by a file's head: of its signals, and with its texts."""
    with files.opened(path) as fd:
        told = os.pread(fd, 4, 252).strip()
        count = int(told) if told.isdigit() else 0
        labels, samples = os.pread(fd, 16 * count, 256), os.pread(fd, 8 * count, 256 + 216 * count)
    sizes = [(labels[2 * at:2 * at + 16] == TEXTS, 2 * int(samples[at:at + 8]))
             for at in range(0, len(samples), 8) if samples[at:at + 8].strip().isdigit()]
    return sum(size for is_text, size in sizes if not is_text), sum(size for _, size in sizes)


def outline(path: str) -> list[Run] | None:
    """The runs of a file, by time, of more than MOST_RUNS the first; none where it is refused."""
    (folder, name), runs = os.path.split(path), []
    ran = run(["edfruns", "list", f"./{name}"], folder, path, HUGE)
    if ran.status == 1:
        return None
    for line in os.fsdecode(ran.out).split("\n")[:-1][:MOST_RUNS + 1]:
        found = RUN.fullmatch(line)
        if not found:
            raise Trouble("edfruns list: a line that nobody knows")
        first = text.instant(found[1])
        runs.append(Run(first, first + text.nanoseconds(found[2])))
    return runs


def missing(runs: Sequence[Run], held: list[Run]) -> int:
    """Nanoseconds of these runs that the others, which are in order, lack."""
    lacks, ends = 0, [it.end for it in held]
    for run in runs:
        at, nth = run.first, bisect_right(ends, run.first)
        while nth < len(held) and held[nth].first < run.end:
            lacks += max(0, held[nth].first - at)
            at, nth = held[nth].end, nth + 1
        lacks += max(0, run.end - at)
    return lacks


def prepared(path: str, folder: str, recorder: Recorder) -> str:
    """The file to be taken: this one, or what it becomes by the recorder's words. It is taken as it
    came where they refuse it, and where it was cut: then edfmend tells count or left_out."""
    stem, taken = os.path.basename(path)[:-4], path
    if recorder.mend is not None:
        target = files.join(folder, f"{stem}.mended.edf")
        words = ["edfmend", path, target, *recorder.mend]
        ran = run(words, folder, path, HUGE, "", room_of(path))
        ledger = text.spell_lines(ran.out)
        if ran.status == 0 and not any(it.startswith(("count ", "left_out ")) for it in ledger):
            taken = target
    if recorder.by_onset:
        words, name = ["edfruns", "canonical", "--by-onset", taken], f"{stem}.onset.edf"
        ran = run(words, folder, path, HUGE, name)
        taken = files.join(folder, name) if ran.status == 0 else taken
    return taken


class Session:
    def __init__(self, folder: str, store: str):
        self.folder, self.rest = folder, b""
        self.err: IO[bytes] = tempfile.TemporaryFile()
        pipe, room = subprocess.PIPE, (1 << 62, MEMORY)
        self.child = begin(["edfserve", "--from", ".", store], folder, pipe, self.err, room, pipe)

    def why(self) -> str:
        return "; ".join(text.spell_lines(said_in(self.err, 1 << 20))[-2:])

    def take(self, path: str) -> str:
        name = os.path.relpath(path, self.folder)
        lines = self.ask(f"take {name}", limit(path))
        if len(lines) != 1 or not lines[0].startswith(f"{name} "):
            raise Trouble(f"edfserve: an answer that nobody knows: {' '.join(lines)[:200]}")
        return lines[0][len(name) + 1:]

    def held(self) -> list[Held]:
        found = [HELD.fullmatch(line) for line in self.ask("list", SECONDS)]
        if not all(found):
            raise Trouble("edfserve list: a line that nobody knows")
        return [Held(int(it[1]), it[2], it[3]) for it in found if it]

    def ask(self, line: str, seconds: float) -> list[str]:
        assert self.child.stdin
        with suppress(BrokenPipeError):
            self.child.stdin.write(f"{line}\n".encode())
            self.child.stdin.flush()
        lines, end = [], time.monotonic() + seconds
        while not (said := self.line(end)).startswith("status "):
            lines.append(said)
        return lines

    def line(self, end: float) -> str:
        assert self.child.stdout
        while b"\n" not in self.rest:
            ready = select.select([self.child.stdout], [], [], max(0, end - time.monotonic()))[0]
            it = os.read(self.child.stdout.fileno(), 1 << 16) if ready else b""
            if not it:
                self.child.kill()
                raise Trouble(f"edfserve: {self.why() or 'it ended' if ready else 'no answer'}")
            self.rest += it
        line, _, self.rest = self.rest.partition(b"\n")
        return text.spell(os.fsdecode(line))

    def close(self) -> None:
        assert self.child.stdin and self.child.stdout
        with suppress(BrokenPipeError):
            self.child.stdin.close()
        status, why = ended(self.child, SECONDS), self.why()
        self.child.stdout.close()
        self.err.close()
        if status not in (0, 1):
            raise Trouble(f"edfserve: {why or f'status {status}'}")
