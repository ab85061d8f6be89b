"""Stops `edfruns split` at many moments, and checks what is left.

    python3 -m checks.split_stops [--edfruns PATH] [COUNT]      90 moments if left out

A file of 100 runs is split. A third of the moments are by SIGINT, as of Ctrl-C, a third by SIGKILL:
after as many lines as chance has it, and a while later. Then there are whole files of the first
runs, just those of the plain model in checks/lib/runs.py, and each has its line on standard output;
the last may lack its line, or some of it. There is one `NAME.part` at most. A third are disks
without room for all files: there each file has its line, there is no part, and a line names the
file that could not be written. After each the same command with another prefix ends well, and with
the same prefix, where one of its files is there, nothing is written. Disks need root, who may mount
them.
"""
import random
import signal
import subprocess
import sys
import time
from collections import Counter
from pathlib import Path

from checks.lib import arguments, disks, edf, measure, printed, runs
from checks.lib.checks import Lost, compare, end

RUNS = 100
WAYS = (signal.SIGINT, signal.SIGKILL)
LONGEST = 0.004         # seconds from a line to the signal
SECONDS = 60            # that a program may take for a line
LEAST, MOST = 8, 440    # kB of a disk; a file is a page of it
PART = ".part"


def night() -> bytes:
    header = edf.Header((edf.Signal(), edf.annotations_signal(24)), starttime="22.00.00",
                        count=str(RUNS))
    return edf.fragment(header, [(nth.to_bytes(4, "little"), edf.keeping(f"+{3 * nth}"))
                                 for nth in range(RUNS)])


NIGHT = night()
MADE = runs.read_runs(NIGHT)
FILES = dict(zip(runs.split_names("night", MADE), MADE))
NAMES = list(FILES)


def whole_files(folder: Path) -> tuple[int, list[str]]:
    """How many of the first files are there, each whole; and the others that are there."""
    there = sorted(path.name for path in folder.iterdir())
    count = sum(name in FILES for name in there)
    compare("the files that are whole", [name for name in there if name in FILES], NAMES[:count])
    for name in NAMES[:count]:
        compare(name, (folder / name).read_bytes(), FILES[name].to_bytes())
    return count, [name for name in there if name not in FILES]


def lines_of(count: int, prefix: str = "night") -> str:
    return "".join(runs.split_lines(prefix, MADE).splitlines(keepends=True)[:count])


def ends_well(program: measure.Program, given: str, count: int) -> None:
    """Nothing is written where a file is there; with another prefix all is."""
    if count:
        before = sorted(path.name for path in program.folder.iterdir())
        compare("the same prefix", program.ran("split", given, "night").outcome(),
                (b"", printed.is_there(NAMES[0]).encode(), 1))
        compare("the files then", sorted(path.name for path in program.folder.iterdir()), before)
    compare("another prefix", program.ran("split", given, "other").outcome(),
            (lines_of(RUNS, "other").encode(), b"", 0))
    for name, run in zip(runs.split_names("other", MADE), MADE):
        compare(name, (program.folder / name).read_bytes(), run.to_bytes())


def is_mostly(told: str, count: int) -> bool:
    """Whether these are the lines of so many files, of which the last may lack some of its own."""
    return lines_of(count).startswith(told) and len(told) >= len(lines_of(max(count - 1, 0)))


def stopped(program: measure.Program, way: signal.Signals, after: int, wait: float) -> int:
    """Stops it by a signal after so many lines; how many files there are then."""
    child = program.started("split", "../night.edf", "night", stdout=subprocess.PIPE, bufsize=0,
                            preexec_fn=lambda: signal.signal(signal.SIGINT, signal.SIG_DFL))
    assert child.stdout
    told = b"".join(child.stdout.readline() for _ in range(after))
    time.sleep(wait)
    child.send_signal(way)
    told += child.communicate(timeout=SECONDS)[0]
    count, others = whole_files(program.folder)
    if not is_mostly(told.decode(), count):
        raise Lost(f"{count} files after {told!r}")
    part = NAMES[max(count - 1, 0):count + 1]   # of one that has its name already, or of the next
    if len(others) > 1 or not set(others) <= {name + PART for name in part}:
        raise Lost(f"{count} files, and {others}")
    if child.returncode:
        compare("the status", child.returncode, -way)
    else:
        compare("all files, each with its line", (count, told.decode()), (RUNS, lines_of(RUNS)))
    return count


def by_signals(program: Path, folder: Path, chance: random.Random, times: int) -> Counter[str]:
    """How many files there were, by the way of each stop."""
    found: Counter[str] = Counter()
    for nth in range(times):
        place = folder / f"stop{nth}"
        place.mkdir()
        it, way = measure.Program(program, place, SECONDS), WAYS[nth % len(WAYS)]
        count = stopped(it, way, chance.randrange(RUNS - 5), chance.random() * LONGEST)
        ends_well(it, "../night.edf", count)
        found[f"{way.name}, some files" if 0 < count < RUNS else f"{way.name}, none or all"] += 1
    return found


def without_room(program: Path, folder: Path, kilobytes: int) -> str:
    """A disk of this size is filled."""
    with disks.Disk(folder / "disk", kilobytes) as disk:
        it = measure.Program(program, disk.place, SECONDS)
        ran = it.ran("split", "../night.edf", "night")
        count, others = whole_files(disk.place)
        compare("what is there beside", others, [])
        compare("standard output", ran.out.decode(), lines_of(count))
        line = "" if count == RUNS else printed.line(NAMES[count], printed.UNWRITTEN)
        compare("standard error and the status", (ran.err.decode(), ran.status),
                (line, 3 if line else 0))
        disk.grow(4 * MOST)
        ends_well(it, "../night.edf", count)
    return "full disks, some files" if 0 < count < RUNS else "full disks, none or all"


def tried(program: Path, folder: Path, count: int) -> Counter[str]:
    (folder / "night.edf").write_bytes(NIGHT)
    found = by_signals(program, folder, random.Random(1), count - count // 3)
    if disks.may_mount():
        for nth in range(count // 3):
            found[without_room(program, folder, LEAST + (MOST - LEAST) * nth // (count // 3))] += 1
    else:
        print("full disks: left out, since this user may not mount a tmpfs")
    return found


def main() -> None:
    given = arguments.Parser(__doc__, ("edfruns",), count=90).read()
    with measure.scratch() as name:
        try:
            found = tried(given.edfruns, Path(name), given.count)
            for kind in ("SIGINT", "SIGKILL"):      # else it says nothing of a stop
                if found[f"{kind}, some files"] * 4 < given.count // 3:
                    raise Lost(f"too few stops: {dict(found)}")
        except Lost as lost:
            print(lost, file=sys.stderr)
            end(1, 1)
    for kind, times in sorted(found.items()):
        print(f"{kind}: {times}")
    end(found.total(), 0)


if __name__ == "__main__":
    main()
