"""Takes a clinic night by `edfstore take` and by plain C over SQLite, and prints ratios.

    python3 -m bench.intake.run [--program PATH] [--short] [COUNT]

Best of COUNT runs of each, 5 if left out; --short: no ten nights.

A night of 195 MB comes as 96 fragments of five minutes, the last ten in reverse order; then every
tenth is sent again; then the card comes, with the whole night. Each of the three is timed apart: a
run with it less a run without it, each on a new store, so that no opening of a store is in it.
Beside the C program (bench/store/plain.c: same tables, statements, rows and transactions) stands
`cat` of the same files with a sync a file. Then ten nights in one `take`, a tenth at a time, by the
growth of the store's file. 'At work' is the ratio of processor seconds, which other programs
disturb less. The rows of both stores are compared. It needs cc, libsqlite3-dev and time; about 5 GB
in TMPDIR.
"""
import sqlite3
import statistics
import subprocess
import sys
import time
from pathlib import Path

from checks.lib import arguments, measure, night

# the resent fragments come so often in the timed run, since once is too short to time
RESENDS = 5


def rows(store: Path):
    """Every row of the store, by the identity of its recording."""
    with sqlite3.connect(store) as held:
        yield from held.execute("SELECT identity, start, samples, block FROM record JOIN recording "
                                "ON recording.id = recording ORDER BY identity, start")


def compare(folder: Path) -> None:
    if any(ours != theirs
           for ours, theirs in zip(rows(folder / "edfstore.db"), rows(folder / "plain C.db"),
                                   strict=True)):
        sys.exit("the stores hold different rows")


def take(command, store: Path, files: list) -> measure.Ran:
    measure.remove_store(store)
    measure.settle()
    return measure.timed(command, "take", store, *files)


def phases(commands: dict, folder: Path, kind: night.Night, runs: int) -> dict:
    """Seconds and peak memory of each of the lists of files, by program."""
    sent = kind.parts(folder)
    card = kind.card(folder / "card.edf")
    parts, again = night.arrival(sent), night.resent(sent)
    lists = {"fragments": parts, "resent": parts + RESENDS * again, "card": parts + [card]}
    best, work = ({name: dict.fromkeys(lists, float("inf")) for name in commands} for _ in range(2))
    peaks = {name: dict.fromkeys(lists, 0) for name in commands}
    copied = {"fragments": float("inf"), "card": float("inf")}
    for _ in range(runs):
        for name, command in commands.items():
            for phase, files in lists.items():
                done = take(command, folder / f"{name}.db", files)
                best[name][phase] = min(best[name][phase], done.seconds)
                work[name][phase] = min(work[name][phase], done.processor)
                peaks[name][phase] = max(peaks[name][phase], done.peak)
        measure.settle()
        copied["fragments"] = min(copied["fragments"], measure.copy_synced(parts, folder / "copy"))
        copied["card"] = min(copied["card"], measure.copy_synced([card], folder / "copy"))
    compare(folder)
    for name in commands:
        measure.remove_store(folder / f"{name}.db")
    for path in (*sent, card, folder / "copy"):
        path.unlink()
    return best, work, peaks, copied


def apart_of(best: dict) -> dict:
    """Each of the three lists without the fragments that came before it."""
    return {name: {"fragments": times["fragments"],
                   "resent": (times["resent"] - times["fragments"]) / RESENDS,
                   "card": times["card"] - times["fragments"]} for name, times in best.items()}


def report(title: str, best: dict, work: dict, peaks: dict, copied: dict) -> None:
    print(title)
    apart, processor = apart_of(best), apart_of(work)
    copied["resent"] = copied["fragments"] / 10
    lines = []
    for phase in ("fragments", "resent", "card"):
        ours, theirs = apart["edfstore"][phase], apart["plain C"][phase]
        at_work = processor["edfstore"][phase] / max(processor["plain C"][phase], 0.001)
        lines.append((phase, f"{ours:.3f} s", f"{theirs:.3f} s", f"{copied[phase]:.3f} s",
                      f"{ours / theirs:.2f}", f"{at_work:.2f}", f"{ours / copied[phase]:.2f}",
                      measure.mb(peaks["edfstore"][phase]), measure.mb(peaks["plain C"][phase])))
    measure.table(("", "edfstore", "plain C", "cat, a sync a file", "/ plain C", "at work", "/ cat",
                   "peak", "peak of C"), lines)
    print("the card, all of it known, against the fragments: "
          f"{apart['edfstore']['card'] / apart['edfstore']['fragments']:.2f}\n")


def tenths(command, store: Path, files: list) -> tuple:
    """Seconds of each tenth of a take, by the size of the store's file, and the whole."""
    measure.remove_store(store)
    measure.settle()
    seen, begun = [(0.0, 0)], time.perf_counter()
    child = subprocess.Popen(["/usr/bin/time", "-f", "%M", command, "take", store, *files],
                             stdout=subprocess.DEVNULL, stderr=subprocess.PIPE)
    while child.poll() is None:
        time.sleep(0.005)
        size = store.stat().st_size if store.exists() else 0
        if size > seen[-1][1]:
            seen.append((time.perf_counter() - begun, size))
    peak = 1024 * int(child.stderr.read().split()[-1])
    if child.returncode:
        sys.exit(f"{command} ended with status {child.returncode}")
    seen.append((time.perf_counter() - begun, store.stat().st_size))
    ends = [next(at for at, size in seen if size >= n * seen[-1][1] / 10) for n in range(11)]
    return [later - earlier for earlier, later in zip(ends, ends[1:])], seen[-1][0], peak


def ten_nights(commands: dict, folder: Path) -> None:
    files = []
    for number in range(10):
        kind = night.Night(fragments=48).next_night(number)
        files += kind.parts(folder)
    lines = []
    for name, command in commands.items():
        each, whole, peak = tenths(command, folder / f"{name}.db", files)
        lines.append((name, f"{whole:.2f} s", f"{each[0]:.2f} s",
                      f"{statistics.median(each):.2f} s", f"{each[-1]:.2f} s",
                      f"{each[-1] / statistics.median(each):.2f}", measure.mb(peak)))
    compare(folder)
    print("ten nights in one take, 480 files")
    measure.table(("", "all", "first tenth", "median tenth", "last tenth", "last / median", "peak"),
                  lines)


def main() -> None:
    parser = arguments.Parser(__doc__, count=5)
    parser.add_argument("--short", action="store_true", help="no ten nights")
    given = parser.read()
    measure.need("cc", "cat", "/usr/bin/time")
    with measure.scratch() as name:
        folder = Path(name)
        plain = measure.compiled(arguments.TOP / "bench/store/plain.c", folder, "-lsqlite3")
        commands = {"edfstore": given.program, "plain C": plain}
        print(f"best of {given.count} runs, {measure.machine()}\n")
        for title, kind in (("a night of 28,800 records of 6.7 kB", night.CLINIC),
                            ("a night of 960 records of 200 kB", night.LONG_RECORDS)):
            report(title, *phases(commands, folder, kind, given.count))
        if not given.short:
            ten_nights(commands, folder)


if __name__ == "__main__":
    main()
