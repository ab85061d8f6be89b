"""Exports a night, and ten, by `edfstore export` and by plain C over SQLite from the same store
file, and prints ratios.

    python3 -m bench.export.run [--program PATH] [--short] [COUNT]

Best of COUNT runs of each, 5 if left out; --short: no ten nights.

`edfstore` opens the store, which reads and checks all of it, and then exports; `list` does the
first and next to nothing of the second, so export less list is the time of the export. The C
program (bench/store/plain.c) walks the same rows once for the lengths of the blocks and once to
write the same bytes; `cat` copies the export. All write to files. The two exports are compared byte
for byte. It needs cc, libsqlite3-dev and time; about 8 GB in TMPDIR.
"""
import filecmp
import sys
from pathlib import Path

from checks.lib import arguments, measure, night


def best_of(runs: int, *words, out: Path = None) -> measure.Ran:
    done = []
    for _ in range(runs):
        measure.settle()
        done.append(measure.timed(*words, out=out))
    return min(done, key=lambda run: run.seconds)


def measured(program, plain, store: Path, folder: Path, runs: int) -> dict:
    ours, theirs, copy = folder / "ours.edf", folder / "theirs.edf", folder / "copy.edf"
    found = {
        "list": best_of(runs, program, "list", store),
        "export": best_of(runs, program, "export", store, "1", out=ours),
        "plain C": best_of(runs, plain, "export", store, out=theirs),
        "lengths": best_of(runs, plain, "lengths", store),
        "open in C": best_of(runs, plain, "open", store),
        "cat": best_of(runs, "cat", ours, out=copy),
    }
    if not filecmp.cmp(ours, theirs, shallow=False):
        sys.exit("the two exports differ")
    found["bytes"] = ours.stat().st_size
    for path in (ours, theirs, copy):
        path.unlink()
    return found


def report(found: dict) -> None:
    """`found` has the measurements by their title."""
    lines = []
    for title, one in found.items():
        alone = one["export"].seconds - one["list"].seconds
        lines.append((title, measure.mb(one["bytes"]), f"{one['list'].seconds:.3f} s",
                      f"{one['export'].seconds:.3f} s", f"{alone:.3f} s",
                      f"{one['plain C'].seconds:.3f} s", f"{alone / one['plain C'].seconds:.2f}",
                      f"{one['cat'].seconds:.3f} s", f"{alone / one['cat'].seconds:.2f}"))
    measure.table(("", "export", "list", "export", "export less list", "plain C", "/ plain C",
                   "cat", "/ cat"), lines)
    lines = []
    for title, one in found.items():
        lines.append((title, measure.mb(one["list"].peak), measure.mb(one["export"].peak),
                      measure.mb(one["export"].peak - one["list"].peak),
                      measure.mb(one["plain C"].peak), f"{one['open in C'].seconds:.3f} s",
                      f"{one['list'].seconds / one['open in C'].seconds:.2f}"))
    measure.table(("", "peak of list", "peak of export", "more than list", "peak of C",
                   "checked open in C", "list / it"), lines)


def filled(program, folder: Path, name: str, kinds: list) -> Path:
    """A store of these nights, taken night by night in one run each."""
    store, files = folder / name, []
    for kind in kinds:
        files += kind.parts(folder)
    measure.done(program, "take", store, *files)
    for path in files:
        path.unlink()
    return store


def words() -> arguments.Parser:
    parser = arguments.Parser(__doc__, count=5)
    parser.add_argument("--short", action="store_true", help="no ten nights")
    return parser


def main() -> None:
    given = words().read()
    measure.need("cc", "cat", "/usr/bin/time")
    nights = {"a night, 28,800 records of 6.7 kB": [night.CLINIC],
              "a night, 960 records of 200 kB": [night.LONG_RECORDS]}
    if not given.short:
        kind = night.Night(fragments=48)
        nights["ten nights of 28,800 records"] = [kind.next_night(number) for number in range(10)]
    found = {}
    with measure.scratch() as name:
        folder = Path(name)
        plain = measure.compiled(arguments.TOP / "bench/store/plain.c", folder, "-lsqlite3")
        print(f"best of {given.count} runs, {measure.machine()}\n")
        for title, kinds in nights.items():
            store = filled(given.program, folder, "held.db", kinds)
            runs = given.count if len(kinds) == 1 else max(1, given.count // 2)
            found[title] = measured(given.program, plain, store, folder, runs)
            measure.remove_store(store)
    report(found)
    if not given.short:
        one, ten = (found[title] for title in list(nights)[::2])
        alone = [run["export"].seconds - run["list"].seconds for run in (one, ten)]
        print(f"ten nights against ten times one night: {alone[1] / (10 * alone[0]):.2f}")


if __name__ == "__main__":
    main()
