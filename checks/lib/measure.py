"""Runs programs, by the clock and with their peak memory."""
import os
import re
import shutil
import signal
import subprocess
import sys
import tempfile
import time
from contextlib import ExitStack
from dataclasses import dataclass
from pathlib import Path
from subprocess import PIPE


def compiled(source: Path, folder: Path, *libraries: str) -> Path:
    target = folder / source.stem
    done("cc", "-O3", "-o", target, source, *libraries)
    return target


def library(source: Path, folder: Path) -> Path:
    """A library that is loaded before the C library."""
    target = folder / f"{source.stem}.so"
    done("cc", "-O2", "-shared", "-fPIC", "-o", target, source)
    return target


def scratch() -> tempfile.TemporaryDirectory:
    """A folder that goes with the run; TMPDIR says on which disk."""
    return tempfile.TemporaryDirectory(prefix="edfstore-checks-")


@dataclass(frozen=True)
class Ran:
    """How a program ended, and what it wrote."""
    status: int
    out: bytes
    err: bytes
    seconds: float
    peak: int = 0               # bytes of memory, where it is measured
    processor: float = 0.0      # seconds of it, the system's for it among them

    def __str__(self) -> str:
        return f"status {self.status}, {self.out[-300:]!r}, {self.err[-300:]!r}"

    def outcome(self) -> tuple:
        """What it wrote to standard output and to standard error, and its status."""
        return self.out, self.err, self.status


def ran(*words, given=os.devnull, out: Path = None, err: int = PIPE, folder: Path = None,
        added: dict = None, most: float = None, is_measured: bool = False) -> Ran:
    """Runs a program to its end, in this folder and with these variables added. `given` is what it
    reads from standard input: bytes, or a file by its path or number. `out` is the file that it
    writes to, `err` the number of the one for errors. After `most` seconds it is killed, with all
    that it started. Where it is measured, `time` stands between, so that the peak is the program's
    and not this script's."""
    data = given if isinstance(given, bytes) else None
    with ExitStack() as closing:
        kept = closing.enter_context(tempfile.NamedTemporaryFile("r")) if is_measured else None
        clock = ["/usr/bin/time", "-q", "-o", kept.name, "-f", "%M %U %S"] if is_measured else []
        source = given if data is None else PIPE
        if isinstance(given, (str, Path)):
            source = closing.enter_context(open(given, "rb"))
        into = closing.enter_context(open(out, "wb")) if out else PIPE
        begun = time.perf_counter()
        child = closing.enter_context(subprocess.Popen(
            [*clock, *map(str, words)], stdin=source, stdout=into, stderr=err, cwd=folder,
            env={**os.environ, **(added or {})}, start_new_session=most is not None))
        written, said = ended(child, data, most)
        seconds = time.perf_counter() - begun
        peak, *processor = kept.read().split()[-3:] if is_measured else (0,)
    return Ran(child.returncode, written or b"", said or b"", seconds, 1024 * int(peak),
               sum(map(float, processor)))


@dataclass(frozen=True)
class Program:
    """A program, the folder that it runs in, and after how many seconds it is killed."""
    path: Path
    folder: Path = None
    most: float = None

    def ran(self, *words, **options) -> Ran:
        return ran(self.path, *words, folder=self.folder, most=self.most, **options)

    def started(self, *words, **streams) -> subprocess.Popen:
        """Starts it, and does not wait for its end."""
        return subprocess.Popen([self.path, *words], cwd=self.folder,
                                **{"stdin": subprocess.DEVNULL, **streams})


def ended(child: subprocess.Popen, data, most: float) -> tuple:
    """What the process writes until it ends, or until it is killed after so many seconds."""
    try:
        return child.communicate(data, timeout=most)
    except subprocess.TimeoutExpired:
        os.killpg(child.pid, signal.SIGKILL)
        return child.communicate()


def done(*words, statuses=(0,), **options) -> Ran:
    """The same; the script ends where the program ends with another status."""
    it = ran(*words, **options)
    if it.status not in statuses:
        sys.exit(f"{' '.join(map(str, words))[:300]}\nended with status {it.status}\n"
                 f"{(it.out + it.err).decode(errors='replace')[:1000]}")
    return it


def timed(*words, **options) -> Ran:
    """The same, with its peak memory and the seconds of processor."""
    return done(*words, is_measured=True, **options)


def piped(*words, source: Path) -> float:
    """Seconds of a program between two `cat`."""
    begun = time.perf_counter()
    with open(source, "rb") as given, open(os.devnull, "wb") as nothing:
        before = subprocess.Popen(["cat"], stdin=given, stdout=PIPE)
        middle = subprocess.Popen([*map(str, words)], stdin=before.stdout, stdout=PIPE)
        before.stdout.close()
        after = subprocess.Popen(["cat"], stdin=middle.stdout, stdout=nothing)
        middle.stdout.close()
        for child in (before, middle, after):
            if child.wait():
                sys.exit(f"{child.args[0]} ended with status {child.returncode}")
    return time.perf_counter() - begun


# What keeps counts of instructions the same on every host: no variable but these, and the C library's
# plainest copying, sixteen bytes by an instruction. By `rep movsb` each copied byte would count.
SAME_EVERYWHERE = (
    "env", "-i", "PATH=/usr/local/bin:/usr/bin:/bin",
    "GLIBC_TUNABLES=glibc.cpu.hwcaps=-AVX_Fast_Unaligned_Load,-AVX2,-AVX,-ERMS,-FSRM:"
    "glibc.cpu.x86_non_temporal_threshold=0x10000000")


def counted(*words, **options) -> tuple:
    """What a run did, and the instructions that it took, counted by callgrind: the same whatever
    else the machine does."""
    with tempfile.NamedTemporaryFile("r") as log:
        it = ran(*SAME_EVERYWHERE, "valgrind", "--tool=callgrind",
                 "--callgrind-out-file=/dev/null", f"--log-file={log.name}", *words, **options)
        collected = re.search(r"Collected : (\d+)", log.read())
    if not collected:
        sys.exit(f"callgrind counted nothing: {' '.join(map(str, words))[:300]}\n{it}")
    return it, int(collected[1])


def instructions(*words, **options) -> int:
    """The same count; the script ends where the program ends with another status than 0."""
    it, count = counted(*words, **options)
    if it.status:
        sys.exit(f"{' '.join(map(str, words))[:300]}\n{it}")
    return count


def remove_store(store: Path) -> None:
    """The store's file, and its log where there is one."""
    for path in store.parent.glob(store.name + "*"):
        path.unlink()


def settle() -> None:
    """Waits for the disk, so that what was written before isn't timed with what comes."""
    os.sync()


def copy_synced(parts: list, target: Path) -> float:
    """Seconds for `cat` of each file to the end of one, with a sync a file."""
    begun = time.perf_counter()
    with open(target, "wb") as made:
        for part in parts:
            subprocess.run(["cat", part], stdout=made, check=True)
            os.fdatasync(made.fileno())
    return time.perf_counter() - begun


def machine() -> str:
    model = next((line.split(":")[1].strip() for line in open("/proc/cpuinfo")
                  if line.startswith("model name")), "?")
    one, five, _ = os.getloadavg()
    return (f"{os.cpu_count()} processors ({model}), Linux {os.uname().release}, "
            f"load {one:.1f} and {five:.1f} over 1 and 5 minutes")


def loop() -> float:
    """The processor seconds of twenty million additions: more in a slow hour of the host."""
    begun, count = time.process_time(), 0
    while count < 20_000_000:
        count += 1
    return time.process_time() - begun


def mb(count: float) -> str:
    return f"{count / 1e6:.1f} MB"


def table(head: tuple, rows: list) -> None:
    """A table in the form of the documents."""
    cells = [tuple(map(str, row)) for row in (head, *rows)]
    widths = [max(len(row[i]) for row in cells) for i in range(len(head))]
    for n, row in enumerate(cells):
        print("| " + " | ".join(text.ljust(width) for text, width in zip(row, widths)) + " |")
        if n == 0:
            print("|" + "|".join("-" * (width + 2) for width in widths) + "|")
    print(flush=True)


def need(*programs: str) -> None:
    missing = [name for name in programs if not shutil.which(name) and not Path(name).exists()]
    if missing:
        sys.exit(f"this needs {', '.join(missing)}")
