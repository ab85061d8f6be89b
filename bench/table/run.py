"""The figures of docs/EVIDENCE.md, "What it takes", by one command.

    python3 -m bench.table.run [--program PATH] [--edfruns PATH] [--edfserve PATH] [--only PART]...

Eight minutes at most with nothing beside. Each part prints a table: the best of three runs or five,
or one long one. --only runs the part of that name alone: `take`, `opening`, `export`, `convert`,
`edfruns`, `calls`, `sessions`, `growth`, `counted`. The last lines are the goals: which are met,
and which are missed; then the status is 1.

C is bench/store/plain.c, with the same rows and exports, and `cat` copies the same bytes. `take`,
the card and `export` are without the opening of a store: the card is what a `take` of a night and
its card takes more than one of the night, an export what `export` takes more than `list`. It needs
cc, libsqlite3-dev, /usr/bin/time, valgrind and 12 GB in TMPDIR; as root it also lists a night in a
group of 512 MB.
"""
import sys
import time
from pathlib import Path

from bench.table import calls, counted, growth, nights, sessions, streams
from bench.table.given import Bench
from checks.lib import arguments, measure

PARTS = {"counted": counted.instructions, "take": nights.take, "opening": nights.opening,
         "export": nights.export, "convert": streams.convert, "edfruns": streams.runs,
         "calls": calls.each_way, "sessions": sessions.sessions, "growth": growth.table}


def main() -> None:
    parser = arguments.Parser(__doc__, programs=("edfstore", "edfruns", "edfserve"))
    parser.add_argument("--only", action="append", choices=PARTS, metavar="PART",
                        help="the part of that name")
    given = parser.read()
    measure.need("cc", "cat", "/usr/bin/time", "valgrind")
    with measure.scratch() as name:
        bench, begun = Bench(given, Path(name)), time.perf_counter()
        print(f"{measure.machine()}, the loop {measure.loop():.1f} s\n")
        for part in given.only or PARTS:
            before = time.perf_counter()
            PARTS[part](bench)
            print(f"{part}: {time.perf_counter() - before:.0f} s\n", flush=True)
        print(f"{time.perf_counter() - begun:.0f} s, {measure.machine()}, the loop "
              f"{measure.loop():.1f} s\n")
        bench.goals.report()
        sys.exit(1 if bench.goals.missed else 0)


if __name__ == "__main__":
    main()
