"""A session of `edfserve` that a night's files come to one by one, against one `take` of all.

    python3 -m bench.serve.run [--program PATH] [--edfserve PATH] [--nights NIGHTS]

A night of 195 MB in 96 files: each is sent when the one before was answered. The first table has
the session and one call of `edfstore take` with all files, by processor and clock, with the peak
memory, and `cat` with a sync a file. Then the answers: the median and the last, and `list` in the
middle of the night. A session that is begun again over the night has some memory left a second
after its first answer. Then NIGHTS nights (10 if left out) come into one store in one session, by
tenths, and it is begun again over these. It needs /usr/bin/time and 5 GB in TMPDIR for ten nights.
"""
import resource
import shutil
import statistics
import sys
import time
from dataclasses import dataclass, field
from pathlib import Path

from checks.lib import arguments, measure, night, printed
from checks.lib.serving import Client, status


@dataclass
class Served:
    """What a session's answers took."""
    client: Client
    seconds: list = field(default_factory=list)
    processor: list = field(default_factory=list)

    def used(self) -> float:
        """The processor seconds of the session so far."""
        return int(Path(f"/proc/{self.client.child.pid}/schedstat").read_text().split()[0]) / 1e9

    def ask(self, line: str) -> str:
        begun, before = time.perf_counter(), self.used()
        answer = self.client.ask(line)
        self.seconds.append(time.perf_counter() - begun)
        self.processor.append(self.used() - before)
        return answer

    def take(self, path: Path) -> None:
        if self.ask(f"take {path}") != printed.line(path, printed.accepted(300)) + status(0):
            sys.exit(f"{path} was not accepted with 300 new data records")


def so_far() -> tuple:
    used = resource.getrusage(resource.RUSAGE_CHILDREN)
    return used.ru_utime + used.ru_stime, time.perf_counter()


def by_session(given, folder: Path, parts: list) -> tuple:
    """The night in one session: its processor and clock, its peak, its answers."""
    measure.settle()
    processor, clock = so_far()
    served = Served(Client(given.edfserve, folder))
    for path in parts:
        served.take(path)
    peak = served.client.peak()
    if served.client.end() != (0, "", ""):
        sys.exit("the session did not end with status 0")
    after, until = so_far()
    return after - processor, until - clock, peak, served


def in_the_middle(given, folder: Path, parts: list) -> float:
    """The seconds that `list` takes in the middle of a night, which then goes on."""
    served = Served(Client(given.edfserve, folder))
    for path in parts[:48]:
        served.take(path)
    answer, seconds = served.ask("list"), served.seconds[-1]
    if not answer.endswith(status(0)):
        sys.exit(f"list: {answer}")
    for path in parts[48:]:
        served.take(path)
    served.client.end()
    return seconds


def begun_again(program: Path, folder: Path, store: Path = None) -> tuple:
    """A session that is begun over a store, or over the folder's own: its memory a second after its
    first answer, and the most that it had."""
    if store:
        shutil.copy(store, folder / "s.db")
    client = Client(program, folder)
    answer = client.ask("list")
    if not answer.endswith(status(0)):
        sys.exit(f"list: {answer}")
    time.sleep(1)
    held = client.held(), client.peak()
    if client.end() != (0, "", ""):
        sys.exit("the session did not end with status 0")
    return held


def nights_in_one(program: Path, folder: Path, nights: int) -> Served:
    """Many nights of one recording into one store, in one session."""
    served = Served(Client(program, folder))
    for nth in range(nights):
        for path in night.CLINIC.next_night(nth).parts(folder):
            served.take(path)
            path.unlink()
    return served


def tell_again(what: str, held: tuple) -> None:
    print(f"{what}: {measure.mb(held[0])} a second after the first answer, "
          f"{measure.mb(held[1])} at most")


def tenths(given, folder: Path) -> None:
    served = nights_in_one(given.edfserve, folder, given.nights)
    step = len(served.seconds) // 10
    spent = [sum(served.processor[at:at + step]) for at in range(0, 10 * step, step)]
    median = statistics.median(spent)
    print(f"{given.nights} nights in one session: tenths of "
          f"{', '.join(f'{one:.2f}' for one in spent)} s of processor, the last "
          f"{spent[-1] / median:.2f} times the median; peak {measure.mb(served.client.peak())}")
    if served.client.end()[0]:
        sys.exit("the session did not end with status 0")
    tell_again("begun again over them", begun_again(given.edfserve, folder))


def report(given, folder: Path, parts: list) -> None:
    measure.settle()
    before = so_far()
    measure.copy_synced(parts, folder / "copy")
    by_cat = [after - begun for after, begun in zip(so_far(), before)]
    (folder / "copy").unlink()
    store = folder / "all.db"
    measure.settle()
    all_at_once = measure.timed(given.program, "take", store, *parts)
    measure.remove_store(store)
    processor, clock, peak, served = by_session(given, folder, parts)
    measure.remove_store(folder / "s.db")
    rows = [("a session, a file a line", f"{processor:.2f} s", f"{clock:.2f} s", measure.mb(peak)),
            ("one `take` of all", f"{all_at_once.processor:.2f} s", f"{all_at_once.seconds:.2f} s",
             measure.mb(all_at_once.peak)),
            ("ratio", f"{processor / all_at_once.processor:.2f}",
             f"{clock / all_at_once.seconds:.2f}", ""),
            ("`cat` with a sync a file", *(f"{one:.2f} s" for one in by_cat), "")]
    measure.table(("96 files", "processor", "clock", "peak"), rows)
    median = statistics.median(served.seconds)
    print(f"answers: median {1000 * median:.1f} ms, the last {1000 * served.seconds[-1]:.1f} ms, "
          f"{served.seconds[-1] / median:.2f} times, worst {1000 * max(served.seconds):.1f} ms\n")


def main() -> None:
    parser = arguments.Parser(__doc__, programs=("edfstore", "edfserve"))
    parser.add_argument("--nights", type=int, default=10, help="in one session, 10 if left out")
    given = parser.read()
    measure.need("cat", "/usr/bin/time")
    with measure.scratch() as name:
        folder = Path(name)
        parts = night.CLINIC.parts(folder)
        print(f"{measure.machine()}, the loop {measure.loop():.1f} s\n")
        report(given, folder, parts)
        print(f"`list` in the middle of the night: {in_the_middle(given, folder, parts):.3f} s")
        tell_again("begun again over the night", begun_again(given.edfserve, folder))
        measure.remove_store(folder / "s.db")
        for path in parts:
            path.unlink()
        tenths(given, folder)


if __name__ == "__main__":
    main()
