"""What page sums cost: `take` of a night into a new store, and `list` of that store, by a program
that writes no sums and one that does.

    python3 -m bench.program.sums --before PATH [--program PATH]

A night of 195 MB in 96 files, one call. The programs take turns, five times each; the table has the
least seconds of processor of each, the system's among them, and the least by the clock. It needs
/usr/bin/time and 700 MB in TMPDIR.
"""
from pathlib import Path

from checks.lib import arguments, measure, night

ROUNDS = 5


def main() -> None:
    parser = arguments.Parser(__doc__)
    parser.add_argument("--before", metavar="PATH", type=arguments.path, required=True,
                        help="a program that writes no sums")
    given = parser.read()
    programs, runs = (given.before, given.program), {}
    with measure.scratch() as name:
        folder = Path(name)
        parts = night.Night().parts(folder)
        for _ in range(ROUNDS):
            for nth, program in enumerate(programs):
                store = folder / f"{nth}.db"
                measure.remove_store(store)
                measure.settle()
                for words in (("take", store, *parts), ("list", store)):
                    runs.setdefault((words[0], nth), []).append(measure.timed(program, *words))
    rows = []
    for command in ("take", "list"):
        used = [min(run.processor for run in runs[command, nth]) for nth in range(2)]
        clock = [min(run.seconds for run in runs[command, nth]) for nth in range(2)]
        rows.append((command, *(f"{one:.2f} s" for one in used), f"{used[1] / used[0]:.2f}",
                     *(f"{one:.2f} s" for one in clock)))
    measure.table(("", "processor, without", "with", "ratio", "clock, without", "with"), rows)


if __name__ == "__main__":
    main()
